"""Breaks the terms that terms.py reads into lines: at the outermost place first, and there where the operator binds loosest.

`rt fmt` keeps the breaks and has indentation of its own, which this follows: all lines that go on with a declaration, a field or a case stand in
one column, however deep in brackets. Only records, tuples and the cases of an `elim` have columns of their own. So where to break is all that
is left to choose, and the fewer lines begin inside brackets the better.
"""
from collections import namedtuple

# How far lines that go on are indented, and what a record, a tuple or an `elim` holds.
ON, INTO = 4, 2

# A head of at most so many characters stays with what follows it.
SHORT = 14

# Parts of a type that are mostly shorter than this fill the lines.
SMALL = 24

# A line is indented so far, and the lines that go on with the same declaration, field or case so far.
Place = namedtuple("Place", "line on")


def place_at(column):
    """Where something begins that has a line of its own."""
    return Place(column, column + ON)


def behind(lines, place):
    """Where what follows these lines stands."""
    return place if len(lines) == 1 else Place(len(lines[-1]) - len(lines[-1].lstrip(" ")), place.on)


def joined(lines, made):
    """Lines, of which the last goes on with the first of those that were made."""
    return [*lines[:-1], lines[-1] + made[0], *made[1:]]


def alone(node):
    """The term that stands alone in round brackets; None where it is not so."""
    if node.kind != "bracket" or node.opener.text != "(" or len(node.items) != 1 or node.items[0].mark:
        return None
    parts = node.items[0].item.parts
    return parts[0][1] if len(parts) == 1 else None


def above(node, column):
    """The comments above a node or a token that begins a line."""
    return [" " * column + comment for comment in node.comments]


def is_tuple(node):
    return node.kind == "bracket" and node.opener.text == "(" and bool(node.items) and bool(node.items[0].mark)


def hangs(node):
    """Whether a node of several lines begins at the end of a line, as a function, a tuple or a record does."""
    inner = alone(node)
    return hangs(inner) if inner else is_tuple(node) or node.kind in ("function", "record")


class Layout:
    """Lines of at most so many characters."""

    def __init__(self, limit):
        self.limit = limit

    # Each of these gives the lines of a node, the first without what stands left of it: the node begins at a column of a line at a place,
    # and so many characters follow it on its last line.

    def lines(self, node, column, place, tail=0):
        if self.fits(node, column, tail):
            return [node.text]
        made = getattr(self, "lines_of_" + node.kind, None)
        return made(node, column, place, tail) if made else [node.text]

    def outer_lines(self, node, column, place, tail):
        """The lines of a node that stands in no brackets: of a chain, each part has a line, though it does not begin one."""
        if node.kind == "chain" and not self.fits(node, column, tail):
            return self.by_lines(node, column, place, tail)
        return self.lines(node, column, place, tail)

    def fits(self, node, column, tail=0):
        return not node.is_broken and column + len(node.text) + tail <= self.limit

    def end_of(self, lines, column):
        """The column behind the last of some lines."""
        return len(lines[-1]) + (column if len(lines) == 1 else 0)

    def below(self, node, place, tail=0):
        """The lines of a node that begins a line."""
        lines = self.lines(node, place.on, Place(place.on, place.on), tail)
        return [*above(node, place.on), " " * place.on + lines[0], *lines[1:]]

    def beside(self, lines, node, column, place, tail):
        """Some lines, and behind them a node on the same line."""
        start = self.end_of(lines, column) + 1
        return joined([*lines[:-1], lines[-1] + " "], self.lines(node, start, behind(lines, place), tail))

    # ---- operators

    def lines_of_chain(self, node, column, place, tail):
        """Where the chain begins a line, each part on a line of its own; else parts fill the lines, as in brackets."""
        return self.by_lines(node, column, place, tail) if column == place.on else self.by_filling(node, column, place, tail)

    def by_lines(self, node, column, place, tail):
        """Each part on a line with its operator in front."""
        if self.with_operand_hung(node, column) or self.is_of_small(node):
            return self.by_filling(node, column, place, tail)
        parts, rest = list(zip([None, *node.operators], node.operands)), ""
        if parts[-1][0].text == "∷" and parts[-1][1].text == "[]":
            parts, rest = parts[:-1], " ∷ []"
        lines = [""]
        for number, (operator, operand) in enumerate(parts, 1):
            ending = tail + len(rest) if number == len(parts) else 0
            if operator is None:
                lines = self.lines(operand, column, place, ending)
                continue
            begin = " " * place.on + operator.text + " "
            made = self.lines(operand, len(begin), Place(place.on, place.on), ending)
            lines += [*above(operator, place.on), begin + made[0], *made[1:]]
        return [*lines[:-1], lines[-1] + rest]

    def by_filling(self, node, column, place, tail):
        """Parts one behind the other, and the next line where one has no more room."""
        lines = self.lines(node.operands[0], column, place, 0)
        for operator, operand in zip(node.operators, node.operands[1:]):
            ending = tail if operand is node.operands[-1] else 0
            begin = operator.text + " "
            start = self.end_of(lines, column) + 1 + len(begin)
            has_room = self.fits(operand, place.on + len(begin), ending)
            if self.fits(operand, start, ending) or self.can_hang(operand, start) and not has_room:
                made = self.lines(operand, start, behind(lines, place), ending)
                lines = joined([*lines[:-1], lines[-1] + " " + begin], made)
            else:
                made = self.lines(operand, place.on + len(begin), Place(place.on, place.on), ending)
                lines += [" " * place.on + begin + made[0], *made[1:]]
        return lines

    def with_operand_hung(self, node, column):
        """Whether the second of two operands is a record that begins behind the operator."""
        first, *others = node.operands
        start = column + len(first.text) + len(node.operators[0].text) + 2
        return len(others) == 1 and others[0].kind == "record" and not first.is_broken and self.can_hang(others[0], start)

    def is_of_small(self, node):
        """Whether the parts are types or elements so small that a line for each would be a column of words."""
        operands = node.operands[1:] if node.operators[0].text == "→" else node.operands
        if node.operators[0].text not in ("→", "∷", "++", "+") or any(self.says(operand) for operand in operands):
            return False
        small = [operand for operand in operands if len(operand.text) < SMALL]
        return len(operands) > 3 and 3 * len(small) >= 2 * len(operands)

    def says(self, node):
        """Whether a premise names a value or says something of values, rather than being a type alone."""
        if node.kind == "bracket":
            terms = [listed.item.parts for listed in node.items if listed.item.parts]
            return any(len(parts) > 1 or self.says(parts[0][1]) for parts in terms)
        return node.kind == "chain" and node.operators[0].text in ("≡", "≢", "≤", "<", "×", "⊎")

    # ---- applications

    def lines_of_application(self, node, column, place, tail):
        return self.row(node.children, column, place, tail)

    def row(self, pieces, column, place, tail):
        """Pieces one behind the other, and the next line where one has no more room; what follows one of several lines stands below it."""
        lines = self.lines(pieces[0], column, place, tail if len(pieces) == 1 else 0)
        is_open = len(lines) == 1 or pieces[0].kind == "cases"
        for piece, following in zip(pieces[1:], [*pieces[2:], None]):
            ending = tail if following is None else len(" (") if is_tuple(following) and following.is_broken else 0
            start, is_short = self.end_of(lines, column) + 1, len(lines) == 1 and len(lines[0]) <= SHORT
            is_here = is_open and (self.fits(piece, start, ending) or self.stays(piece, start, place, ending, is_short, following is None))
            if is_here or is_tuple(piece) and not self.fits(piece, place.on, ending):
                made = self.lines(piece, start, behind(lines, place), ending)
                lines = joined([*lines[:-1], lines[-1] + " "], made)
            else:
                made = self.below(piece, place, ending)
                lines += made
            is_open = len(made) == 1
        return lines

    def stays(self, piece, start, place, tail, is_short, is_last):
        """Whether a piece of several lines begins behind what stands before it: the last behind a short head, or where it hangs, and a function
        that has no room below either behind a short head."""
        has_room = self.fits(piece, place.on, tail)
        if self.can_hang(piece, start):
            return is_last and is_short or (is_last or is_short) and not has_room
        return is_last and is_short and not hangs(piece) and not has_room

    def can_hang(self, node, column):
        return hangs(node) and column + self.opening(node) <= self.limit

    def opening(self, node):
        """How many characters of a node that hangs stand on its first line."""
        inner = alone(node)
        if inner:
            return 1 + self.opening(inner)
        if is_tuple(node):
            return 1
        if node.kind == "function" and hangs(node.body):
            return len(node.head.text) + 1 + self.opening(node.body)
        return len(node.head.text)

    # ---- forms

    def lines_of_function(self, node, column, place, tail):
        lines = self.lines_of_head(node.head, column, place)
        start = self.end_of(lines, column) + 1
        if self.can_hang(node.body, start):
            return self.beside(lines, node.body, column, place, tail)
        return [*lines, *self.below(node.body, place, tail)]

    def lines_of_head(self, head, column, place):
        """The binders of a function, or the head of a record, of which one may be too wide."""
        if self.fits(head, column):
            return [head.text]
        lines = [""]
        for child in head.children:
            spaced = " " if child.tokens[0].spaced and lines != [""] else ""
            start = self.end_of(lines, column) + len(spaced)
            made = self.lines(child, start, behind(lines, place), len(".")) if child.kind == "bracket" else [child.text]
            lines = joined([*lines[:-1], lines[-1] + spaced], made)
        return lines

    def lines_of_let(self, node, column, place, tail):
        """Each `let` on a line, and what they are for below, all in one column."""
        lines, begin = [], ""
        while node.kind == "let":
            ending = len(" in (") if is_tuple(node.body) else len(" in")
            start = (len(begin) or column) + len("let ")
            made = self.lines_of_item(node.item, start, Place(place.on, place.on) if lines else place, ending)
            lines += [*(above(node, place.on) if lines else []), begin + "let " + made[0], *made[1:]]
            lines[-1] += " in"
            node, begin = node.body, " " * place.on
        if is_tuple(node) and not self.fits(node, place.on, tail):
            return self.beside(lines, node, column, place, tail)
        return [*lines, *self.below(node, place, tail)]

    def lines_of_choice(self, node, column, place, tail):
        """`if .. then ..` and `else ..`, or each of the three on a line; an `else (if ..)` goes on likewise."""
        lines = ["if"]
        lines = self.beside(lines, node.condition, column, place, 0)
        if len(lines) == 1 and self.fits(node.then, self.end_of(lines, column) + len(" then ")):
            lines[0] += " then " + node.then.text
        else:
            lines += self.beside([" " * place.on + "then"], node.then, 0, Place(place.on, place.on), 0)
        chained = alone(node.otherwise)
        if chained is None or chained.kind != "choice" or self.fits(node.otherwise, place.on + len("else "), tail):
            return lines + self.beside([" " * place.on + "else"], node.otherwise, 0, Place(place.on, place.on), tail)
        made = self.lines_of_choice(chained, place.on + len("else ("), Place(place.on, place.on), tail + 1)
        return [*lines, " " * place.on + "else (" + made[0], *made[1:-1], made[-1] + ")"]

    def lines_of_cases(self, node, column, place, tail):
        """`elim .. [`, a case a line, and `]`."""
        lines = self.row(node.heads, column, place, len(" ["))
        lines[-1] += " ["
        if not node.cases:
            return [*lines[:-1], lines[-1] + " ]"]
        line = behind(lines, place).line
        for case in node.cases:
            lines += [*above(case, line + INTO), *self.case(case, place_at(line + INTO))]
        return [*lines, " " * line + "]"]

    def case(self, case, place):
        """A case, to which `rt fmt` gives its bar."""
        lines = [" " * place.line + ("| " if case.bars else "") + case.head.text]
        start = len(lines[0]) + 1 + (0 if case.bars else len("| "))
        if self.fits(case.body, start) or self.can_hang(case.body, start):
            return self.beside(lines, case.body, 0, place, 0)
        return [*lines, *self.below(case.body, place)]

    # ---- brackets

    def lines_of_bracket(self, node, column, place, tail):
        if is_tuple(node):
            return self.block(["("], node, place)
        if not node.items:
            return [node.text]
        opener = node.opener.text + (" " if node.items[0].tokens[0].spaced and node.opener.text != "(" else "")
        closer = (" " if node.closer.spaced and node.opener.text != "(" else "") + node.closer.text
        lines = [opener]
        for item in node.items:
            ending = tail + len(closer) if item is node.items[-1] else 0
            spaced = " " if item is not node.items[0] else ""
            lines = joined([*lines[:-1], lines[-1] + spaced], self.lines(item, self.end_of(lines, column), behind(lines, place), ending))
        return [*lines[:-1], lines[-1] + closer]

    def block(self, lines, node, place):
        """Items one a line, between a bracket that ends a line and one that begins one. Each gets its mark from `rt fmt`."""
        line = behind(lines, place).line
        for item in node.items:
            made = self.lines(item, line + INTO, place_at(line + INTO), 0 if item.mark else 1)
            lines += [*above(item, line + INTO), " " * (line + INTO) + made[0], *made[1:]]
        return [*lines, " " * line + node.closer.text]

    def lines_of_listed(self, node, column, place, tail):
        mark = node.mark[0].text if node.mark else ""
        lines = self.lines(node.item, column, place, tail + len(mark))
        return [*lines[:-1], lines[-1] + mark]

    def lines_of_record(self, node, column, place, tail):
        if not node.fields.items:
            return [node.text]
        return self.block(self.lines_of_head(node.head, column, place), node.fields, place)

    def lines_of_glued(self, node, column, place, tail):
        first, last = node.children
        if last.kind == "bracket":
            return [node.text]
        lines = self.lines(first, column, place, tail + len(last.text))
        return [*lines[:-1], lines[-1] + last.text]

    # ---- declarations, and what is like them

    def lines_of_item(self, node, column, place, tail):
        """`name : type`, `left = right`, or a term alone."""
        lines = [""]
        for number, (part, term) in enumerate(node.parts, 1):
            ending = tail if number == len(node.parts) else len(" =")
            if part is None:
                lines = self.lines(term, column, place, ending)
                continue
            lines[-1] += (" " if lines != [""] else "") + part.text
            lines = self.part(lines, part, term, column, place, ending, node.is_outer)
        return lines

    def part(self, lines, part, term, column, place, tail, is_outer):
        """A part of an item behind its mark, on the same line or below it."""
        start = self.end_of(lines, column) + 1
        at = behind(lines, place)
        if part.text == ":" and term.kind == "chain" and term.operators[0].text == "→" and not self.fits(term, start, tail):
            made = self.outer_lines(term, start, at, tail) if is_outer else self.by_filling(term, start, at, tail)
            return joined([*lines[:-1], lines[-1] + " "], made)
        if self.fits(term, start, tail) or self.begins_beside(part, term, start, place, tail):
            return self.beside(lines, term, column, place, tail)
        if at.line == place.on and self.breaks_beside(term, start, place, tail):
            return self.beside(lines, term, column, place, tail)
        return [*lines, *self.below(term, place, tail)]

    def breaks_beside(self, term, start, place, tail):
        """Whether the value of a `let` in the column of what goes on begins behind its `=`: where it has more lines than one below too."""
        pieces = term.children if term.kind == "application" else term.operands[:1] if term.kind == "chain" else []
        return bool(pieces) and not self.fits(term, place.on, tail) and self.fits(pieces[0], start) and start < 2 * self.limit // 3

    def begins_beside(self, part, term, start, place, tail):
        """Whether a part of several lines begins behind its mark: what hangs, and a type that has no room below either."""
        if part.text == ":":
            return not self.fits(term, place.on, tail)
        if self.can_hang(term, start):
            return term.kind == "record" or is_tuple(term) or not self.fits(term, place.on, tail)
        return term.kind == "cases" and term.is_broken and not term.begins and self.fits(term.head, start)

    def lines_of_declaration(self, node, column, place, tail):
        """A declaration, and the `where` or `do` that ends it: behind what has one line or begins a block, or on a line of its own."""
        begin = "".join(token.text + " " for token in node.head)
        ending = node.ending[0].text if node.ending else ""
        is_beside = ending == "do" or bool(set(token.text for token in node.head) & {"record", "data", "module"})
        lines = self.lines_of_item(node.item, column + len(begin), place, len(ending) + 1 if ending and is_beside else 0)
        lines[0] = begin + lines[0]
        if ending and is_beside:
            return [*lines[:-1], lines[-1] + " " + ending]
        return [*lines, " " * (place.line + INTO) + ending] if ending else lines
