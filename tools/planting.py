"""Wrong bodies that are planted together: one in each function of a crate at a time, in a copy of the repository's crates.

A contract hides a body from its callers. So a wrong body changes nothing for the proofs of other functions, and one check tells of each function that
has one whether it is refused: at a goal of its own lines, or at a written proof of its own.
"""
import os
import re
import shutil
import subprocess
import sys
import tempfile

from repository import TOP, folder_of

FUNCTION = re.compile(r"(\s*)(?:pub(?:\([^)]*\))? )?(?:const )?(?:unsafe )?fn (\w+)")

# Where a check says that a goal of code is not proved, or that a written proof is refused.
AT_CODE = re.compile(r"^note: (src/\S+?\.rt):(\d+):\d+: it is not proved")
AT_PROOF = re.compile(r"^(?:\./)?(proofs/\S+?)/(?:Answers|Invariants)\.antt:\d+:\d+: error"
                      r"|^fn \S+: no proof: expected answers in (?:\./)?(proofs/\S+?)/(?:Answers|Invariants)\.antt"
                      r"|^fn \S+: not proved; it stands on `Rattle\.\w+\.(proofs\.\S+?)\.(?:Answers|Invariants)\.")

# What a check says of code that does not compile, or that cannot be read.
BROKEN = re.compile(r"^(?:\S*/)?(src/\S+?\.rt):(\d+):\d+: error\[", re.M)

# What a check says of a function, once it has come to it.
JUDGED = re.compile(r"^(?:fn|struct) \S+: ", re.M)


class WrongBody:
    """A wrong body: the file, the line and the function that it changes, with the file's text before and after."""

    def __init__(self, crate, path):
        self.name = os.path.basename(path).split(".")[0]
        with open(path, encoding="utf-8") as file:
            lines = file.read().split("\n")
        self.file = next(line[6:].strip() for line in lines if line.startswith("file: "))
        olds = [line[5:] for line in lines if line.startswith("old: ")]
        news = [line[4:].removeprefix(" ") for line in lines if line.startswith("new:")]
        self.pairs = list(zip(olds, news))
        with open(os.path.join(folder_of(crate), self.file), encoding="utf-8") as file:
            text = file.read()
        self.is_planted_once = all(text.count(old) == 1 for old, _ in self.pairs)
        self.line = text[:text.find(self.pairs[0][0])].count("\n") if self.is_planted_once else 0
        self.first, self.last, self.function = function_at(text.split("\n"), self.line)

    def place(self):
        """What no two of one round share."""
        return self.file, self.first

    def plant(self, folder):
        path = os.path.join(folder, self.file)
        with open(path, encoding="utf-8") as file:
            text = file.read()
        for old, new in self.pairs:
            text = text.replace(old, new)
        with open(path, "w", encoding="utf-8") as file:
            file.write(text)

    def refusal_in(self, said):
        """The line by which a check has refused a goal of the function's own lines, or a written proof of its own; none where it has refused none."""
        return next((line for line in said.split("\n") if self.is_refused_by(line)), None)

    def is_refused_by(self, line):
        module = os.path.splitext(self.file)[0].replace("src/", "proofs/", 1).removesuffix("/lib")
        at_code, at_proof = AT_CODE.search(line), AT_PROOF.search(line)
        if at_code:
            return at_code[1] == self.file and self.first <= int(at_code[2]) - 1 <= self.last
        place = next((group for group in at_proof.groups() if group), "").replace(".", "/") if at_proof else ""
        return (place + "/").startswith(module + "/") and self.function in place.split("/")

    def is_broken_by(self, said):
        return any(path == self.file and self.first <= int(line) - 1 <= self.last for path, line in BROKEN.findall(said))


def function_at(lines, place):
    """The first and the last line of the function around a line, counted from 0, and its name. The name is empty where the line is in none."""
    for first in range(place, -1, -1):
        found = FUNCTION.match(lines[first])
        if found:
            end = found[1] + "}"
            last = next((at for at in range(first, len(lines)) if lines[at].rstrip() == end), len(lines))
            return (first, last, found[2]) if place <= last else (place, place, "")
    return place, place, ""


def rounds_of(bodies):
    """The bodies, so that no round has two in one function."""
    rounds = []
    for body in bodies:
        free = next((each for each in rounds if all(other.place() != body.place() for other in each)), None)
        if free is None:
            rounds.append([body])
        else:
            free.append(body)
    return rounds


class Copy:
    """A copy of the crates, in which bodies are planted, and checked."""

    def __init__(self, crate):
        self.crate, self.top = crate, tempfile.mkdtemp(prefix="planted-")
        for name in ("crates.txt", "HANDLES"):
            shutil.copy(os.path.join(TOP, name), self.top)
        shutil.copytree(os.path.join(TOP, "crates"), os.path.join(self.top, "crates"), ignore=shutil.ignore_patterns("out", "must-fail"))
        self.folder = os.path.join(self.top, "crates", crate)

    def __enter__(self):
        return self

    def __exit__(self, *_):
        shutil.rmtree(self.top, ignore_errors=True)

    def check(self, bodies):
        """What a check says while these are planted."""
        shutil.rmtree(os.path.join(self.folder, "src"))
        shutil.copytree(os.path.join(folder_of(self.crate), "src"), os.path.join(self.folder, "src"))
        for body in bodies:
            body.plant(self.folder)
        ran = subprocess.run(["rt", "check", "--allow-holes"], cwd=self.folder, stdout=subprocess.PIPE, stderr=subprocess.STDOUT, text=True,
                             errors="replace", check=False)
        return ran.stdout

    def try_round(self, bodies):
        """Those that are refused, and those that were not seen to be; a body that does not compile is taken out first."""
        said = self.check(bodies)
        if not JUDGED.search(said) and not BROKEN.search(said):
            sys.exit(f"tools/dev: the check of {self.crate} came to no function:\n{said[-2000:]}")
        broken = [body for body in bodies if body.is_broken_by(said)]
        if broken:
            others = [body for body in bodies if body not in broken]
            refused, missed = self.try_round(others) if others else ([], [])
            return refused, missed + broken
        refused = [(body, line) for body in bodies if (line := body.refusal_in(said))]
        return refused, [body for body in bodies if all(body is not other for other, _ in refused)]


def try_together(crate, paths):
    """Tries wrong bodies of a crate together. Gives the names of those that are refused, each with what the check says, and the names of those that have
    to be tried alone: they are in no function, do not compile, or were not seen to be refused at their own."""
    bodies = [WrongBody(crate, path) for path in paths]
    alone = [body for body in bodies if not body.is_planted_once or not body.function]
    refused = []
    with Copy(crate) as copy:
        for each in rounds_of([body for body in bodies if body not in alone]):
            good, missed = copy.try_round(each)
            refused, alone = refused + good, alone + missed
    return [(body.name, line) for body, line in refused], [body.name for body in alone]
