"""Breaks lines that are too wide: contract clauses in src/ and lines of specs/ at 100 columns, and those of proofs/ at 120.

Usage: tools/dev columns CRATE.. | --all      rewrites the files of these crates, or of all
       tools/dev columns --check [CRATE..]    names each line that is too wide, in these crates or in all, and writes nothing

`rt fmt` breaks none of them. A declaration, a clause or a comment with no line too wide stays as it is, and so does each `use` line, which `rt`
writes. Nothing changes but white space, and how a comment's words are spread over its lines; a file of which that is not so is not written. The
text that a wrong body of must-fail/ names stays on its line. A line that has no place to be broken is told, and counts as no fault.
"""
import glob
import os
import re
import subprocess
import sys

from layouts import ON, Layout, place_at
from repository import folder_of, lines_of_crates
from terms import CLOSERS, TOKEN, Reader, Unread, declaration, tokens_of

# Which files of a crate, and how many columns they may have.
KINDS = [("src/**/*.rt", 100), ("specs/**/*.antt", 100), ("proofs/**/*.antt", 120)]

# How a line begins that is never broken.
USES = ("use ", "pub use ", "unfoldable pub use ", "ghost use ")

# A contract clause, to behind its opening brace.
CLAUSE = re.compile(r"(?:pub )?(?:(?:requires|ensures)\*?(?: \w+)?|ghost \w+(?: =|:)) \{ ")


def depth_of(line):
    """How much deeper in brackets a line ends than it begins."""
    words = TOKEN.findall(line)
    return sum(word in CLOSERS for word in words) - sum(word in CLOSERS.values() for word in words)


def indent_of(line):
    return len(line) - len(line.lstrip(" "))


def is_comment(line):
    return line.lstrip().startswith("--")


class Part:
    """Some lines of a file, from one number on, and what they become."""

    def __init__(self, start, old, new=None):
        self.start, self.old, self.new = start, old, old if new is None else new

    @property
    def is_changed(self):
        return self.old != self.new


class Declarations:
    """The parts of an .antt file: comments, and declarations, to their ends or to the `where` or `do` behind which others stand."""

    def __init__(self, lines, limit, named):
        self.given, self.lines, self.limit, self.named = lines, list(lines), limit, named

    def parts(self):
        at = 0
        while at < len(self.lines):
            start, column = at, indent_of(self.lines[at])
            is_told = is_comment(self.lines[at])
            at = self.end_of_comment(at, column) if is_told else self.end_of_declaration(at, column)
            new = self.lines[start:at]
            if any(len(line) > self.limit for line in new) and not new[0].lstrip().startswith(USES):
                if is_told:
                    new = filled_comment(new, column, self.limit)
                else:
                    new = unless_named(new, laid_declaration(new, column, self.limit), self.named)
                    self.shift_block(at, column, new)
            yield Part(start, self.given[start:at], new)

    def shift_block(self, at, column, lines):
        """Indents what stands below a `where` that has a line of its own, as `rt fmt` does."""
        if lines[-1].strip() != "where":
            return
        end = at
        while end < len(self.lines) and (not self.lines[end].strip() or indent_of(self.lines[end]) > column):
            end += 1
        block = self.lines[at:end]
        first = next((line for line in block if line.strip()), "")
        more = column + ON - indent_of(first)
        self.lines[at:end] = [" " * (indent_of(line) + more) + line.lstrip() if line.strip() else line for line in block]

    def end_of_comment(self, at, column):
        while at < len(self.lines) and is_comment(self.lines[at]) and indent_of(self.lines[at]) == column:
            at += 1
        return at

    def end_of_declaration(self, at, column):
        """Behind the last line that goes on with a declaration, which is further in than its first or in open brackets."""
        depth, end = 0, at + 1
        while True:
            depth += 0 if is_comment(self.lines[at]) else depth_of(self.lines[at])
            if depth <= 0 and self.lines[at].split()[-1:] in ([], ["where"], ["do"], ["mutual"]):
                return max(end, at + 1) if self.lines[at].strip() else end
            at += 1
            if at == len(self.lines) or depth <= 0 and indent_of(self.lines[at]) <= column:
                return at
            end = at + 1 if self.lines[at].strip() else end


def laid_declaration(lines, column, limit):
    """The lines of a declaration anew; those given where it is of no known form, or has a comment where none can stand."""
    try:
        node = declaration(tokens_of("\n".join(lines).lstrip()))
    except Unread:
        return lines
    laid = Layout(limit).lines(node, column, place_at(column))
    laid[0] = " " * column + laid[0]
    return laid if sense_of(laid) == sense_of(lines) else lines


def unless_named(old, new, named):
    """What lines become; they stay where a text that an edit names would be broken."""
    whole, made = "\n".join(old), "\n".join(new)
    return old if any(whole.count(text) != made.count(text) for text in named) else new


def filled_comment(lines, column, limit):
    """A comment, in which each paragraph with a line that is too wide is filled anew."""
    made, paragraph = [], []
    for line in [*lines, None]:
        words = None if line is None else line.strip()[2:].strip()
        if not words or words.startswith(("----", "- ")):
            made += filled_paragraph(paragraph, column, limit)
            paragraph = []
        if words:
            paragraph.append(line)
        elif line is not None:
            made.append(line)
    return made


def filled_paragraph(lines, column, limit):
    if all(len(line) <= limit for line in lines):
        return lines
    begin = " " * column + "--"
    words = [word for line in lines for word in line.strip()[2:].split()]
    hung = "  " if words[0] == "-" else ""
    made = [begin]
    for word in words:
        if len(made[-1]) + 1 + len(word) > limit and made[-1] != begin:
            made.append(begin + hung)
        made[-1] += " " + word
    return made


def clauses(lines, limit, named):
    """The parts of a file of Rattle source: contract clauses, and the lines between them."""
    at = 0
    while at < len(lines):
        start, depth = at, 0
        if CLAUSE.match(lines[at].lstrip()):
            while at == start or depth > 0 and at < len(lines):
                depth += depth_of(lines[at])
                at += 1
            old = lines[start:at]
            is_wide = any(len(line) > limit for line in old)
            yield Part(start, old, unless_named(old, laid_clause(old, limit), named) if is_wide else None)
        else:
            at += 1
            yield Part(start, lines[start:at])


def laid_clause(lines, limit):
    """The lines of a clause anew; those given where it is of no known form."""
    column, text = indent_of(lines[0]), "\n".join(lines).lstrip()
    begin = CLAUSE.match(text).group()
    inner, _, behind = text[len(begin):].rpartition("}")
    try:
        reader = Reader(tokens_of(inner.strip()))
        node = reader.term()
    except Unread:
        return lines
    if reader.peek() is not None:
        return lines
    laid = Layout(limit).outer_lines(node, column + len(begin), place_at(column), len(" }" + behind))
    laid[0] = " " * column + begin + laid[0]
    return [*laid[:-1], laid[-1] + " }" + behind]


def sense_of(lines):
    """What lines say: the words of their comments, and of the rest all but white space, and the tokens."""
    code = [line for line in lines if not is_comment(line)]
    comments = [word for line in lines if is_comment(line) for word in line.strip()[2:].split()]
    return comments, "".join("".join(code).split()), [token for line in code for token in TOKEN.findall(line)]


def texts_named(crate):
    """For each file of a crate, the texts that its edits name."""
    named = {}
    for path in sorted(glob.glob(os.path.join(folder_of(crate), "must-fail", "*"))):
        with open(path, encoding="utf-8") as file:
            lines = [line.rstrip("\n").partition(": ") for line in file]
        for name in [text for key, _, text in lines if key == "file"]:
            named.setdefault(name, []).extend(text for key, _, text in lines if key == "old")
    return named


def files_of(crate):
    """The files of a crate: where each is, its name in the crate, and how wide it may be."""
    folder = folder_of(crate)
    for pattern, limit in KINDS:
        for path in sorted(glob.glob(os.path.join(folder, pattern), recursive=True)):
            yield path, os.path.relpath(path, folder), limit


def parts_of(path, text, limit, named):
    lines = text.split("\n")
    if all(len(line) <= limit for line in lines):
        return [Part(0, lines)]
    return list(clauses(lines, limit, named) if path.endswith(".rt") else Declarations(lines, limit, named).parts())


def wide_lines(parts, path, limit):
    """For each line that is too wide, its number from 1, and whether it can be broken."""
    for part in parts:
        is_counted = not path.endswith(".rt") or CLAUSE.match(part.old[0].lstrip())
        for number, line in enumerate(part.old, part.start + 1):
            if is_counted and len(line) > limit and not line.lstrip().startswith(USES):
                yield number, part.is_changed


def rewrite(path, name, parts):
    """Writes a file anew, if each of its parts says the same."""
    if any(sense_of(part.old) != sense_of(part.new) for part in parts):
        sys.exit(f"tools/dev columns: {name} would say something else, and stays as it is")
    with open(path, "w", encoding="utf-8") as file:
        file.write("\n".join(line for part in parts for line in part.new))


def main(words):
    is_check = words[:1] == ["--check"]
    known = list(lines_of_crates())
    given = words[is_check:]
    crates = known if given == ([] if is_check else ["--all"]) else given
    if not crates or any(crate not in known for crate in crates):
        return None
    count = 0
    for crate in crates:
        named, is_written = texts_named(crate), False
        for path, inside, limit in files_of(crate):
            with open(path, encoding="utf-8") as file:
                text = file.read()
            parts = parts_of(path, text, limit, named.get(inside, []))
            name = f"crates/{crate}/{inside}"
            if not is_check and any(part.is_changed for part in parts):
                rewrite(path, name, parts)
                is_written = True
                continue
            for number, is_fault in wide_lines(parts, path, limit):
                count += is_fault
                print(f"{name}:{number}: " + ("too wide" if is_fault else "has no place to be broken"))
        if is_written:
            subprocess.run(["rt", "fmt"], cwd=folder_of(crate), stdout=subprocess.DEVNULL, check=True)
    return 1 if count else 0
