"""The crates of this repository, as crates.txt names them, and the programs that are built of them."""
import os

TOP = os.path.dirname(os.path.dirname(os.path.abspath(__file__)))


def lines_of_crates():
    """For each crate, its line in crates.txt, in the order of that file."""
    lines = {}
    with open(os.path.join(TOP, "crates.txt"), encoding="utf-8") as file:
        for line in file:
            head, colon, _ = line.partition("#")[0].partition(":")
            if colon:
                lines[head.split()[0]] = line
    return lines


def libraries_of(line):
    """What a line of crates.txt names behind its colon."""
    return line.partition("#")[0].partition(":")[2].split()


def folder_of(crate):
    return os.path.join(TOP, "crates", crate)


def program_of(crate, is_proved):
    """Where the program of a crate is built: the proved one, or the one that is built without proofs."""
    return os.path.join(folder_of(crate), "out", crate) if is_proved else os.path.join(TOP, ".unproved", crate)


def newer_source(program):
    """The first source that changed after the program was built; none where there is none."""
    built = os.stat(program).st_mtime_ns
    sources = [os.path.join(TOP, "crates.txt")]
    for folder, folders, names in os.walk(os.path.join(TOP, "crates")):
        folders[:] = sorted(set(folders) - {"out"})
        sources += [os.path.join(folder, name) for name in sorted(names) if name.endswith((".rt", ".antt"))]
    return next((os.path.relpath(path, TOP) for path in sources if os.stat(path).st_mtime_ns > built), None)


def cause_against(program):
    """Why a program is not run; none where it is there and no older than its sources."""
    if not os.access(program, os.X_OK):
        return f"there is no program {program}"
    source = newer_source(program)
    return f"{source} changed after {program} was built" if source else None
