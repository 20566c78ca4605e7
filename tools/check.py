"""Checks one crate, over the libraries below it, and keeps what was checked, so that the next check takes what changed.

Usage: tools/dev check CRATE                   proves the crate
       tools/dev check CRATE FUNCTION..        checks only these functions and those that they call: no verdict on the crate

A function is named by its path below the crate, or by the end of it where that fits one alone: `hub::Hub::collect`. A module or a type stands for all of
its functions. The first check of a crate proves the crates below it, where they were not proved here yet. It is not the gate (`rt ci`).
"""
import subprocess
import sys

from repository import folder_of, lines_of_crates


def main(words):
    crate, functions = (words[0], words[1:]) if words else ("", [])
    if crate not in lines_of_crates() or any(function.startswith("-") for function in functions):
        return None
    flags = [flag for function in functions for flag in ("--only", function)]
    try:
        return 1 if subprocess.run(["rt", "check", *flags], cwd=folder_of(crate), check=False).returncode else 0
    except FileNotFoundError:
        print("tools/dev check: there is no rt", file=sys.stderr)
        return 1
