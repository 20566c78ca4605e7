"""Sees that the cases and tests that docs/PROTOCOL.md names are there.

Usage: tools/dev cases

The page names them as `case`, `case` (`crate`): the crate is a program over cases (`*_golden`), which has a line `case NAME` in a file of its
data/, or a crate of tests (`*_tests`), which has a function of that name under `#[test]`. In one crate no two have one name.
"""
import glob
import os
import re
import sys

from repository import TOP, folder_of, lines_of_crates

PAGE = os.path.join(TOP, "docs", "PROTOCOL.md")

# Names of cases, and the crate that has them.
NAMED = re.compile(r"((?:`\w+`(?:, | and )?)+) (?:of |\()`(\w+_(?:golden|tests))`")

CASE = re.compile(r"^case (\w+)$", re.M)
TEST = re.compile(r"#\[test\]\s*(?:pub )?fn (\w+)")


def texts_of(crate, pattern):
    """The files of a crate with such a path."""
    for path in sorted(glob.glob(os.path.join(folder_of(crate), pattern), recursive=True)):
        with open(path, encoding="utf-8") as file:
            yield file.read()


def cases_of(crate):
    """The names of the cases and tests that a crate has, in order."""
    cases = [name for text in texts_of(crate, "data/*.golden") for name in CASE.findall(text)]
    return cases + [name for text in texts_of(crate, "src/**/*.rt") for name in TEST.findall(text)]


def faults():
    """What is named and is not there, and what is there twice."""
    crates = {crate: cases_of(crate) for crate in lines_of_crates() if crate.endswith(("_golden", "_tests"))}
    for crate, cases in crates.items():
        for name in sorted({name for name in cases if cases.count(name) > 1}):
            yield f"{crate} has two cases {name}"
    with open(PAGE, encoding="utf-8") as file:
        page = file.read()
    for names, crate in NAMED.findall(page):
        for name in re.findall(r"`(\w+)`", names):
            if name not in crates.get(crate, []):
                yield f"docs/PROTOCOL.md names {name} of {crate}, which is not there"


def main(words):
    if words:
        return None
    found = list(faults())
    for fault in found:
        print(f"tools/dev cases: {fault}", file=sys.stderr)
    if not found:
        print("every case that docs/PROTOCOL.md names is there")
    return 1 if found else 0
