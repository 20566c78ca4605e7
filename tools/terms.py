"""Reads a term of antt, or a declaration, into a tree that layouts.py breaks into lines.

It knows how tightly operators bind, and the forms `λ`, `let`, `elim`, `record`, `if` and `unfold`. What is none of these it does not read.
"""
import re

# What stands alone wherever it stands; a text in quotation marks is one token.
TOKEN = re.compile(r'"(?:[^"\\]|\\.)*"|[(){};,]|[^\s(){};,"]+')

CLOSERS = {"(": ")", "{": "}", "[": "]", "∥": "∥₁", "∣": "∣₁"}

# How tightly operators bind, from the loosest; those of one row stand in one chain.
ROWS = [["→"], ["↔", "≃"], ["⊎", "∨₁", "$"], ["×"], ["≡", "≢"], [">>=", ">>"], ["∙"], ["||"], ["&&"], ["=="],
        ["<", "≤", ">", "≥"], ["++", "+", "-"], ["∷"], ["*", "/", "%"], ["^"], ["∘"]]
BINDS = {operator: row for row, operators in enumerate(ROWS) for operator in operators}

# What an item of a list, a field or a declaration is parted by, and what ends a term.
PARTS = {":", "=", "←"}
ENDS = PARTS | {",", ";", "|", "↦", "in", "where", ")", "}", "]", "∥₁", "∣₁", "[", None}


class Unread(Exception):
    """The text is none of the forms that are known here."""


class Token:
    """A token: its text, the white space before it, and the comments above it."""

    def __init__(self, text, before, comments):
        self.comments = comments
        self.text, self.spaced, self.begins = text, bool(before), "\n" in before
        self.indent = len(before.rpartition("\n")[2])
        self.kind, self.tokens = "token", [self]


def tokens_of(text):
    """The tokens of a text. Comments that have lines of their own stay with the token behind them, and no others are read."""
    tokens, end, comments = [], 0, []
    found = TOKEN.search(text)
    while found:
        between = text[end:found.start()]
        if found.group().startswith("--") and "\n" in between and not between.strip():
            end = (text + "\n").index("\n", found.start())
            comments.append(text[found.start():end].rstrip())
        elif between.strip() or found.group().startswith(("--", "//")) or text.startswith("{-", found.start()):
            raise Unread(found.group())
        else:
            tokens.append(Token(found.group(), between, comments))
            end, comments = found.end(), []
        found = TOKEN.search(text, end)
    if comments:
        raise Unread("a comment at the end")
    return tokens


class Node:
    """A part of a term: its children, its tokens and their text on one line, and whether it has a line break inside.

    An item is outer where it stands in no brackets, as that of a declaration or a `let`.
    """

    def __init__(self, kind, children, **more):
        self.kind, self.children, self.is_outer = kind, children, False
        self.__dict__.update(more)
        self.tokens = [token for child in children for token in child.tokens]
        self.text = flat(self.tokens)
        self.is_broken = any(token.begins for token in self.tokens[1:])

    @property
    def begins(self):
        return self.tokens[0].begins

    @property
    def comments(self):
        return self.tokens[0].comments


def flat(tokens):
    """These tokens on one line."""
    return "".join((" " if token.spaced and place else "") + token.text for place, token in enumerate(tokens))


class Reader:
    """Reads tokens from the left."""

    def __init__(self, tokens):
        self.tokens, self.at = tokens, 0
        # What ends a term besides ENDS: `then` or `else`, where an `if` waits for it; elsewhere they are names.
        self.awaited = None

    def peek(self):
        return self.tokens[self.at].text if self.at < len(self.tokens) else None

    def take(self, wanted=None):
        if self.at == len(self.tokens) or wanted is not None and self.peek() != wanted:
            raise Unread(f"{self.peek()} in place of {wanted}")
        self.at += 1
        return self.tokens[self.at - 1]

    def take_if(self, wanted):
        return [self.take()] if self.peek() == wanted else []

    def item(self):
        """Terms parted by `:`, `=` or `←`, as in a declaration, a binder or a field."""
        if self.peek() in ENDS - PARTS:
            return Node("item", [], parts=[])
        parts = [] if self.peek() in PARTS else [(None, self.term())]
        while self.peek() in PARTS:
            part = self.take()
            parts.append((part, self.term()))
        return Node("item", [child for part, term in parts for child in ([part, term] if part else [term])], parts=parts)

    def term(self, row=0):
        """A chain of the operators of this row over terms of the next one."""
        if row == len(ROWS):
            return self.application()
        operands, operators = [self.term(row + 1)], []
        while BINDS.get(self.peek()) == row:
            operators.append(self.take())
            operands.append(self.term(row + 1))
        if not operators:
            return operands[0]
        children = [operands[0]] + [child for pair in zip(operators, operands[1:]) for child in pair]
        return Node("chain", children, operators=operators, operands=operands, row=row)

    def application(self):
        pieces = []
        while not self.is_at_end() and self.peek() not in BINDS:
            pieces.append(self.piece())
        if not pieces:
            raise Unread(f"no term before {self.peek()}")
        return pieces[0] if len(pieces) == 1 else Node("application", pieces)

    def is_at_end(self):
        return self.peek() in ENDS or self.peek() == self.awaited

    def piece(self):
        """A form, or an atom with what stands behind it without a space."""
        forms = {"λ": self.function, "let": self.binding, "elim": self.cases, "record": self.record, "if": self.choice, "unfold": self.unfolding}
        form = forms.get(self.peek())
        if form:
            return form()
        return self.atom()

    def atom(self):
        piece = self.bracket() if self.peek() in CLOSERS else Node("word", [self.take()])
        while self.at < len(self.tokens) and not self.tokens[self.at].spaced and not self.is_at_end() and self.peek() != ".":
            piece = Node("glued", [piece, self.bracket() if self.peek() in CLOSERS else Node("word", [self.take()])])
        return piece

    def bracket(self):
        """Items between brackets, each with the mark that ends it."""
        opener, awaited = self.take(), self.awaited
        self.awaited, items = None, []
        while self.peek() != CLOSERS[opener.text]:
            item = self.item()
            marks = self.take_if(",") or self.take_if(";")
            items.append(Node("listed", [item, *marks], item=item, mark=marks))
            if not marks:
                break
        self.awaited = awaited
        closer = self.take(CLOSERS[opener.text])
        return Node("bracket", [opener, *items, closer], opener=opener, items=items, closer=closer)

    def function(self):
        """`λ x y. body`: the dot stands alone behind a bracket, and else at the end of the last name."""
        head = [self.take("λ")]
        while True:
            if self.peek() in CLOSERS:
                head.append(self.bracket())
            else:
                head.append(self.take())
                if head[-1].text.endswith("."):
                    break
        body = self.term()
        return Node("function", [*head, body], head=Node("head", head), body=body)

    def binding(self):
        let, item, inside = self.take("let"), self.item(), self.take("in")
        item.is_outer = True
        body = self.term()
        return Node("let", [let, item, inside, body], item=item, body=body)

    def unfolding(self):
        head = [self.take("unfold")]
        while not head[-1].text == "in":
            head.append(self.take())
        body = self.term()
        return Node("function", [*head, body], head=Node("head", head), body=body)

    def choice(self):
        awaited, children = self.awaited, []
        for word, after in (("if", "then"), ("then", "else"), ("else", awaited)):
            children.append(self.take(word))
            self.awaited = after
            children.append(self.term())
        return Node("choice", children, condition=children[1], then=children[3], otherwise=children[5])

    def record(self):
        head = [self.take("record")]
        while self.peek() != "{":
            head.append(self.atom())
        fields = self.bracket()
        return Node("record", [*head, fields], head=Node("head", [*head, fields.opener]), fields=fields)

    def cases(self):
        head, cases = [Node("word", [self.take("elim")])], []
        while self.peek() != "[":
            head.append(self.atom())
        opener, awaited = self.take(), self.awaited
        self.awaited = None
        while self.peek() != "]":
            bars = self.take_if("|")
            pattern, arrow, body = self.term(), self.take("↦"), self.term()
            cases.append(Node("case", [*bars, pattern, arrow, body], bars=bars, head=Node("head", [pattern, arrow]), body=body))
        closer = self.take("]")
        self.awaited = awaited
        return Node("cases", [*head, opener, *cases, closer], heads=head, head=Node("head", [*head, opener]), cases=cases)


def declaration(tokens):
    """A declaration, a clause, a field or a statement: an item, its modifiers and what ends it."""
    ending = [tokens[-1]] if len(tokens) > 1 and tokens[-1].text in ("where", "do") else []
    reader = Reader(tokens[:len(tokens) - len(ending)])
    head = []
    while reader.peek() in ("pub", "record", "abbrev", "unfoldable", "data", "module", "pattern", "let", "unfolding", "open"):
        if reader.peek() == "record" and (reader.tokens[reader.at + 1:] or [tokens[-1]])[0].text == "{":
            break
        head.append(reader.take())
    item = reader.item()
    if reader.peek() is not None:
        raise Unread(f"{reader.peek()} behind the end")
    item.is_outer = True
    return Node("declaration", [*head, item, *ending], head=head, item=item, ending=ending)
