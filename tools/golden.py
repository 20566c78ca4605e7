"""Plays cases with the programs over cases (`*_golden`) as they are built, and compares what each prints with its file `stdout`.

Usage: tools/dev golden [--unproved] [CRATE..]    these programs, or all of them

A program plays the files of its `data/` that its `args` names, and prints how many cases and calls there were, or which case is the first that
differs. A file of cases that `args` does not name is never played: that is told, too. A new case or call changes the numbers in `stdout`.

Proved programs are played (crates/CRATE/out/CRATE, which `rt run` in the crate's folder builds), or by --unproved those that
`tools/dev build --unproved CRATE` has built, in minutes. None is built here: where one is missing, or older than a source, nothing is played (status 2).
Whoever changes only files of cases builds a program once and plays them again in seconds.
"""
import os
import subprocess
import sys

from repository import cause_against, folder_of, lines_of_crates, program_of

# How long the cases of a program may take, in seconds: as long as the gate gives them.
PATIENCE = 120


def text_of(crate, name):
    with open(os.path.join(folder_of(crate), name), encoding="utf-8") as file:
        return file.read()


def faults_of(crate, program):
    """What is wrong with the cases of a crate, as this program plays them."""
    files, room = text_of(crate, "args").split(), os.path.join(folder_of(crate), "data")
    for name in sorted(set(os.listdir(room)) - set(files)):
        yield f"args does not name data/{name}"
    try:
        done = subprocess.run([program, *files], cwd=room, stdin=subprocess.DEVNULL, stdout=subprocess.PIPE, timeout=PATIENCE, check=False)
    except subprocess.TimeoutExpired:
        yield f"no end after {PATIENCE} seconds"
        return
    told, wanted = done.stdout.decode(errors="replace"), text_of(crate, "stdout")
    if told != wanted:
        yield f"printed, in place of {wanted.strip()!r}:\n{told.rstrip()}"
    if done.returncode != 0:
        yield f"status {done.returncode}"


def main(words):
    known = [crate for crate in lines_of_crates() if crate.endswith("_golden")]
    named = [word for word in words if word != "--unproved"]
    if not set(named) <= set(known):
        return None
    programs = {crate: program_of(crate, "--unproved" not in words) for crate in named or known}
    for cause in filter(None, map(cause_against, programs.values())):
        print(f"tools/dev golden: {cause}", file=sys.stderr)
        return 2
    count = 0
    for crate, program in programs.items():
        faults = list(faults_of(crate, program))
        count += len(faults)
        for fault in faults or ["all as written"]:
            print(f"{crate}: {fault}")
    return 1 if count else 0
