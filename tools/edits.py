"""Tries wrong bodies: the edits of a crate that the gate tries (`.edit`) and those that stand beside it (`.edit.md`).

Usage: tools/dev edits CRATE..               those of these crates, each alone
       tools/dev edits --all                 those of every crate, with a line for each crate and a summary at the end
       tools/dev edits --together CRATE..    those of these crates, one in each function at a time; those that are not refused at their own function
                                             are to be tried alone
       tools/dev edits --stand               tries none, and tells which can't be applied since the code has changed: `rt` takes an edit only if each
                                             text that it replaces stands just once in its file

Each edit that is tried alone costs as much as the proof of what it changes, and the first of a crate as much as the crate. So the gate tries those of a
few crates whose proofs are cheap, and the others stand beside it (docs/DECISIONS.md). While they are tried they stand as `.edit` files, which go at the
end. Together they cost some two to four proofs of the crate.
"""
import os
import re
import shutil
import subprocess
import sys
import time

from planting import try_together
from repository import TOP, folder_of, lines_of_crates

# How the name of an edit ends that stands beside the gate, and of one that the gate tries.
BESIDE, TRIED = ".edit.md", ".edit"

# What `rt must-fail` says of an edit that the prover refuses, for whatever reason.
REFUSED = re.compile(r"^rt: must-fail \S+: refused, as it must be", re.M)


def names_of(crate, ending):
    """The paths of a crate's edits whose names end so."""
    folder = os.path.join(folder_of(crate), "must-fail")
    names = sorted(os.listdir(folder)) if os.path.isdir(folder) else []
    return [os.path.join(folder, name) for name in names if name.endswith(ending)]


def fault_of(path, crate):
    """Why an edit can't be applied, or nothing."""
    texts, name, old = {}, None, None
    with open(path, encoding="utf-8") as file:
        lines = file.read().split("\n")
    for line in lines:
        if line.startswith("file: "):
            name = os.path.join(folder_of(crate), line.removeprefix("file: ").strip())
            if not os.path.isfile(name):
                return f"there is no {name}"
            if name not in texts:
                with open(name, encoding="utf-8") as file:
                    texts[name] = file.read()
        elif line.startswith("old: "):
            old = line.removeprefix("old: ")
        elif line.startswith("new:"):
            if texts[name].count(old) != 1:
                return f"stands {texts[name].count(old)} times in {os.path.relpath(name, TOP)}: {old.strip()}"
            texts[name] = texts[name].replace(old, line.removeprefix("new:").removeprefix(" "))
    return None


def tell_faults(crates):
    """Tells of each edit that can't be applied. Gives the status to end with."""
    count, faults = 0, 0
    for crate in crates:
        for path in names_of(crate, TRIED) + names_of(crate, BESIDE):
            count, fault = count + 1, fault_of(path, crate)
            if fault:
                faults += 1
                print(f"{os.path.relpath(path, TOP)}: {fault}")
    print(f"{count - faults} of {count} wrong bodies can be applied")
    return 1 if faults else 0


class InTheGate:
    """All edits of a crate stand where `rt must-fail` tries them, while this is entered."""

    def __init__(self, crate):
        self.copies = [(path, path.removesuffix(BESIDE) + TRIED) for path in names_of(crate, BESIDE)]

    def __enter__(self):
        taken = [tried for _, tried in self.copies if os.path.exists(tried)]
        if taken:
            sys.exit(f"tools/dev: stands already: {taken[0]}")
        for beside, tried in self.copies:
            shutil.copyfile(beside, tried)

    def __exit__(self, *_):
        for _, tried in self.copies:
            if os.path.exists(tried):
                os.remove(tried)


def try_crate(crate):
    """Tries all edits of a crate. Gives how many there are and how many were refused; what was said of the others is printed."""
    with InTheGate(crate):
        count = len(names_of(crate, TRIED))
        ran = subprocess.run(["rt", "must-fail", crate], cwd=TOP, stdout=subprocess.PIPE, stderr=subprocess.STDOUT, text=True,
                             errors="replace", check=False)
    refused = len(REFUSED.findall(ran.stdout))
    if refused != count or ran.returncode != 0:
        print(ran.stdout, end="")
    return count, refused


def try_all_together(crates):
    """Tries all edits of crates, one in each function at a time. Gives the status to end with."""
    start, alone = time.monotonic(), 0
    for crate in crates:
        begun = time.monotonic()
        refused, others = try_together(crate, names_of(crate, TRIED) + names_of(crate, BESIDE))
        alone += len(others)
        for name, line in refused:
            print(f"  {name}: {line[:160]}")
        for name in others:
            print(f"  {name}: to be tried alone")
        print(f"{crate}: {len(refused)} of {len(refused) + len(others)} refused, {time.monotonic() - begun:.0f} s", flush=True)
    print(f"{alone} are to be tried alone, {time.monotonic() - start:.0f} s")
    return 1 if alone else 0


def main(words):
    crates = list(lines_of_crates())
    if len(words) > 1 and words[0] == "--together" and all(word in crates for word in words[1:]):
        return try_all_together(words[1:])
    if words == ["--stand"]:
        return tell_faults(crates)
    if words == ["--all"]:
        chosen = [crate for crate in crates if names_of(crate, BESIDE) or names_of(crate, TRIED)]
    elif words and all(word in crates for word in words):
        chosen = words
    else:
        return None
    start, total, good = time.monotonic(), 0, 0
    for crate in chosen:
        begun = time.monotonic()
        count, refused = try_crate(crate)
        total, good = total + count, good + refused
        print(f"{crate}: {refused} of {count} refused, {time.monotonic() - begun:.0f} s", flush=True)
    print(f"{good} of {total} wrong bodies of {len(chosen)} crates refused, {time.monotonic() - start:.0f} s")
    return 0 if good == total else 1
