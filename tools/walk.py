"""Walks the path of a PUB as docs/ARCHITECTURE.md tells it, and sees that each call which that section names is there.

Usage: tools/dev walk

A line for each call, in the order of the page: where it stands, how many lines its body has, and whether it only hands on. Hands on means: the body is one
call, and what it is given are plain names. At the end it says how many calls these are. A call is named as `Type::function`; the table of the section says in
which crates each hop is, so that one of two types of the same name is found.
"""
import os
import re
import sys

from repository import TOP, folder_of, lines_of_crates

PAGE = os.path.join(TOP, "docs", "ARCHITECTURE.md")
SECTION = "## The path of a PUB\n"

# A row of the section's table: the number of the hop, and what it says of its crates.
ROW = re.compile(r"^\| (\d) [^|]*\|([^|]*)\|", re.M)

# The beginning of the paragraph of a hop.
HOP = re.compile(r"^(\d)\. \*\*", re.M)

WORD = re.compile(r"`(\w+)`")
CALL = re.compile(r"`([A-Z]\w*)::(\w+)`")

# What a file says of whose functions follow, a clause of a contract, and the head of a function.
OWNER = re.compile(r"^(?:impl|(?:pub )?trait)\b(?P<head>[^{]*)")
CLAUSE = re.compile(r"^ *(?:requires|ensures)\b")
HEAD = re.compile(r"^(?P<indent> *)(?:pub(?:\([a-z]+\))? )?fn (?P<name>\w+)")

# What a call that hands on is given: a name or a field, lent or not.
GIVEN = re.compile(r"&?(?:mut )?[a-z_][\w.]*")
HANDED = re.compile(r"[\w.:]+\((?P<given>[^()]*)\)\??")


class Function:
    """A function: its crate, its file, the line it begins at, and the lines of its body."""

    def __init__(self, crate, path, line, body):
        self.crate, self.path, self.line, self.body = crate, path, line, body

    def hands_on(self):
        """Whether the body is one call, which is given plain names."""
        text = " ".join(line.strip() for line in self.body if not line.strip().startswith("//"))
        found = HANDED.fullmatch(text.replace(" .", ".").removesuffix(";").strip())
        return bool(found) and all(GIVEN.fullmatch(it.strip()) for it in found["given"].split(",") if it.strip())

    def __str__(self):
        hands = ", hands on" if self.hands_on() else ""
        return f"{self.path}:{self.line}, {len(self.body)} lines{hands}"


def owner_of(head):
    """The type or trait whose functions stand in a block with this head: the last name before its parameters, or that behind `for`."""
    named = re.sub(r"<[^<>]*>", "", re.sub(r"<[^<>]*>", "", head.partition(" where ")[0]))
    return (re.findall(r"[A-Z]\w*", named.rpartition(" for ")[2].partition(":")[0]) or [""])[0]


def body_of(lines, start, indent):
    """The lines of the body of a function whose head begins there; none where it has no body. Clauses stand in braces of their own."""
    depth = 0
    for at in range(start, len(lines)):
        line = lines[at]
        if depth == 0 and (line == indent + "{" or line.endswith(" {") and not CLAUSE.match(line)):
            end = next(place for place in range(at + 1, len(lines)) if lines[place].startswith(indent + "}"))
            return lines[at + 1:end]
        depth += line.count("{") - line.count("}")
        if at == start and depth == 0 and line.endswith("}"):
            return [line[line.index("{") + 1:-1]]
        if depth == 0 and line.endswith(";"):
            return []
    return []


def functions_of(crate):
    """The functions of a crate by their types and names."""
    found = {}
    for folder, folders, names in os.walk(os.path.join(folder_of(crate), "src")):
        folders.sort()
        for name in sorted(names):
            path = os.path.join(folder, name)
            with open(path, encoding="utf-8") as file:
                lines = file.read().splitlines()
            owner = ""
            for at, line in enumerate(lines):
                block, head = OWNER.match(line), HEAD.match(line)
                owner = owner_of(block["head"]) if block else "" if line.startswith("}") else owner
                if head and owner:
                    body = body_of(lines, at, head["indent"])
                    found.setdefault((owner, head["name"]), Function(crate, os.path.relpath(path, TOP), at + 1, body))
    return found


def hops():
    """The crates and the text of each hop of the section, in order. What the section says behind the hops comes last, as `-`."""
    with open(PAGE, encoding="utf-8") as file:
        section = file.read().partition(SECTION)[2].partition("\n## ")[0]
    crates = {row[1]: WORD.findall(row[2]) for row in ROW.finditer(section)}
    told, _, behind = section[section.index("\n1. **"):].partition("\n\n")
    parts = HOP.split(told)[1:]
    return [(hop, crates.get(hop, []), text) for hop, text in [*zip(parts[::2], parts[1::2]), ("-", behind)]]


def walk():
    """Each call of the section once: its hop, its name, and the function, or None where there is none."""
    every = {crate: functions_of(crate) for crate in lines_of_crates()}
    seen = set()
    for hop, crates, text in hops():
        for call in CALL.findall(text):
            if call not in seen:
                seen.add(call)
                where = [*crates, *(crate for crate in every if crate not in crates)]
                yield hop, "::".join(call), next((every[crate][call] for crate in where if call in every.get(crate, {})), None)


def main(words):
    if words:
        return None
    calls = list(walk())
    for hop, name, function in calls:
        if function:
            print(f"{hop} {name}: {function}")
        else:
            print(f"tools/dev walk: docs/ARCHITECTURE.md names {name}, which is not there", file=sys.stderr)
    hand_on = sum(function.hands_on() for _, _, function in calls if function)
    print(f"{len(calls)} calls, {hand_on} of which only hand on")
    return 0 if all(function for _, _, function in calls) else 1
