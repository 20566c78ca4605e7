#!/usr/bin/env python3
"""Proves and builds a program of the repository, with all processors, and tells on standard error how far it is.

A crate is proved once all crates below it are. As many are proved side by side as processors and memory allow, first those with the longest chain of crates
above them; where fewer are ready than there are processors, a check gets several jobs. `rt` keeps other commands out of each crate that it reads, so each of
these checks has a tree of its own (`.build/1`, `.build/2` and so on): a copy of the sources, with links to the libraries that are built. What is proved goes
into `crates/NAME/out`, also where a run was stopped, so the next one goes on from there. Where a crate is refused, what the prover said of it is printed and
the status is 1.
Usage: tools/dev build PROGRAM               (or tools/build.py PROGRAM)
       tools/dev build --unproved PROGRAM    builds it without proofs, by tools/unproved.py, as a file of `.unproved/`
"""
import concurrent.futures
import contextlib
import json
import os
import re
import shutil
import signal
import subprocess
import sys
import threading

import unproved
from progress import Progress
from repository import TOP, folder_of, libraries_of, lines_of_crates

ROOM = os.path.join(TOP, ".build")

# Memory that the check of one crate may need, in kilobytes.
MEMORY_OF_A_CHECK = 3_000_000

# What a crate counts of which nothing was measured, in processor seconds.
UNMEASURED = 100

# By how much less time a check takes with so many jobs; more of them gain nothing.
GAIN = {1: 1.0, 2: 0.65, 3: 0.53, 4: 0.45}

# How long a run says what was planned, before it goes by what it took until then, in seconds.
SETTLING = 120

# What the prover says of the functions of one crate.
FUNCTIONS = re.compile(r"(?:so far: |checked \S+, )(\d+) of (\d+)")


def crates_needed(program, lines):
    """The program and all crates of the repository that it stands on, lowest first."""
    needed = []

    def need(crate):
        for library in libraries_of(lines[crate]):
            if library in lines and library not in needed:
                need(library)
        needed.append(crate)

    need(program)
    return needed


def costs_of(crates):
    """The processor seconds of each crate's proof, as they were measured last."""
    with open(os.path.join(TOP, "tools", "costs.json"), encoding="utf-8") as file:
        known = json.load(file)["crates"]
    return {crate: known.get(crate, {}).get("proof", UNMEASURED) for crate in crates}


def available_memory():
    """Kilobytes that are free for new work; 0 where the machine does not say."""
    try:
        with open("/proc/meminfo", encoding="utf-8") as file:
            return int(re.search(r"MemAvailable:\s+(\d+)", file.read()).group(1))
    except (OSError, AttributeError):
        return 0


def processors():
    """How many jobs may run side by side."""
    return max(1, min(len(os.sched_getaffinity(0)), available_memory() // MEMORY_OF_A_CHECK))


class Plan:
    """The crates that a program needs, what each stands on and costs, and in which order they are taken up."""

    def __init__(self, program, lines, lanes):
        self.needed, self.lines, self.lanes = crates_needed(program, lines), lines, lanes
        self.costs = costs_of(self.needed)
        self.below = {crate: [it for it in libraries_of(lines[crate]) if it in self.needed] for crate in self.needed}
        self.chains = self.longest_chains()

    def longest_chains(self):
        """For each crate, the cost of the dearest chain of crates that begins with it and goes up."""
        chains = {}
        for crate in reversed(self.needed):
            above = [chains[other] for other in chains if crate in self.below[other]]
            chains[crate] = self.costs[crate] + max(above, default=0)
        return chains

    def next_checks(self, proved, begun, free):
        """The crates that are taken up now, each with its jobs, where so many processors are free."""
        ready = [it for it in self.needed if it not in begun and all(low in proved for low in self.below[it])]
        checks = []
        for waiting, crate in zip(reversed(range(len(ready))), sorted(ready, key=lambda it: -self.chains[it])):
            if not free:
                break
            jobs = max(1, min(free - waiting, max(GAIN)))
            checks.append((crate, jobs))
            free -= jobs
        return checks

    def expected(self):
        """How long all of it takes on a quiet machine, in seconds."""
        proved, running, now, free = set(), {}, 0, self.lanes
        while len(proved) < len(self.needed):
            for crate, jobs in self.next_checks(proved, {*proved, *running}, free):
                running[crate] = now + self.costs[crate] * GAIN[jobs], jobs
                free -= jobs
            crate = min(running, key=running.get)
            now, jobs = running.pop(crate)
            free += jobs
            proved.add(crate)
        return now


class Proofs(Progress):
    """Says how far the build is also at each crate that is proved."""

    def __init__(self, plan, program):
        super().__init__()
        self.plan, self.program, self.whole = plan, program, plan.expected()
        self.proved, self.running, self.telling = [], {}, threading.RLock()

    def share(self):
        """Which part of the whole work is done."""
        costs = self.plan.costs
        begun = sum(costs[crate] * done / count for crate, (done, count) in self.running.items())
        return (sum(costs[crate] for crate in self.proved) + begun) / sum(costs.values())

    def left(self, gone):
        """How long it takes on, by what was planned and by what it took until now."""
        planned = self.whole * self.share()
        return (self.whole - planned) * (gone + SETTLING) / (planned + SETTLING)

    def line(self):
        gone = self.gone()
        doing = ", ".join(f"{crate} {done} of {count}" if done else crate for crate, (done, count) in self.running.items())
        return (f"{self.program}: {len(self.proved)} of {len(self.plan.needed)} crates are proved; at {doing or 'none'}; {gone:.0f} s gone, "
                f"about {self.left(gone) / 60:.0f} min left")

    def tell(self):
        with self.telling:
            super().tell()

    def begins(self, crate):
        with self.telling:
            self.running[crate] = 0, 1

    def reaches(self, crate, functions, count):
        with self.telling:
            self.running[crate] = functions, count

    def ends(self, crate):
        with self.telling:
            del self.running[crate]
            self.proved.append(crate)
            self.tell()


class Commands:
    """The commands that run. They are stopped together."""

    def __init__(self):
        self.children, self.guard, self.is_stopped = set(), threading.Lock(), False

    def start(self, command, folder, source):
        with self.guard, open(source, "rb") as given:
            if self.is_stopped:
                return None
            child = subprocess.Popen(command, cwd=folder, stdin=given, stdout=subprocess.PIPE, stderr=subprocess.STDOUT, text=True,
                                     errors="replace", start_new_session=True)
            self.children.add(child)
            return child

    def run(self, command, folder, hear, source=os.devnull):
        """Runs a command with this file as its input, and has each of its lines heard. Gives whether it passed."""
        child = self.start(command, folder, source)
        if child is None:
            return False
        for line in child.stdout:
            hear(line)
        status = child.wait()
        with self.guard:
            self.children.discard(child)
        return status == 0

    def stop(self):
        with self.guard:
            self.is_stopped = True
            for child in self.children:
                # one may have ended by itself meanwhile
                with contextlib.suppress(ProcessLookupError):
                    os.killpg(child.pid, signal.SIGTERM)


def out_of(tree, crate):
    """Where `rt` keeps what it proved and built of a crate."""
    return os.path.join(tree, "crates", crate, "out")


def link_or_copy(source, target):
    """Gives a file a second name, or, where the file system has no links, a copy."""
    try:
        os.link(source, target)
    except OSError:
        shutil.copy2(source, target)


class Trees:
    """Copies of the sources. In each one crate at a time is proved."""

    def __init__(self, plan):
        self.plan, self.free, self.guard = plan, [os.path.join(ROOM, str(lane + 1)) for lane in range(plan.lanes)], threading.Lock()

    def __enter__(self):
        # what an earlier run has left, which was killed
        self.__exit__()
        for tree in self.free:
            for crate in self.plan.needed:
                shutil.copytree(folder_of(crate), os.path.join(tree, "crates", crate), ignore=shutil.ignore_patterns("out", "must-fail"))
            with open(os.path.join(tree, "crates.txt"), "w", encoding="utf-8") as file:
                file.writelines(self.plan.lines[crate] for crate in self.plan.needed)
        return self

    def __exit__(self, *_):
        """A crate without `out` in the repository is at work in one of the trees: what was proved of it goes on from there."""
        for tree in (entry.path for entry in os.scandir(ROOM)) if os.path.isdir(ROOM) else []:
            for crate in self.plan.needed:
                if os.path.isdir(out_of(tree, crate)) and not os.path.isdir(out_of(TOP, crate)):
                    os.rename(out_of(tree, crate), out_of(TOP, crate))
        shutil.rmtree(ROOM, ignore_errors=True)

    def enter(self, crate):
        """A tree in which the crate can be proved: what was proved of it before goes there, and links to the libraries below it."""
        with self.guard:
            tree = self.free.pop()
        for library in self.libraries_below(crate):
            if not os.path.isdir(out_of(tree, library)):
                shutil.copytree(os.path.join(out_of(TOP, library), "rlib"), os.path.join(out_of(tree, library), "rlib"),
                                copy_function=link_or_copy)
        if os.path.isdir(out_of(TOP, crate)):
            os.rename(out_of(TOP, crate), out_of(tree, crate))
        return tree

    def leave(self, tree, crate):
        """The crate's proofs go back to the repository, and another crate can be proved in the tree."""
        os.rename(out_of(tree, crate), out_of(TOP, crate))
        with self.guard:
            self.free.append(tree)

    def libraries_below(self, crate):
        """All crates that the crate stands on."""
        found = set(self.plan.below[crate])
        return found.union(*(self.libraries_below(library) for library in found))


def stored_words(program):
    """The words that the program's stored run is given."""
    path = os.path.join(folder_of(program), "args")
    if not os.path.exists(path):
        return []
    with open(path, encoding="utf-8") as file:
        return file.read().split()


def stored_input(program):
    """The file that the program's stored run reads."""
    path = os.path.join(folder_of(program), "stdin")
    return path if os.path.exists(path) else os.devnull


class Build:
    """A build of a program: its plan, its trees, and how far it is."""

    def __init__(self, plan, program, trees, progress):
        self.plan, self.program, self.trees, self.progress, self.commands = plan, program, trees, progress, Commands()

    def prove_by(self, crate, words, folder, source=os.devnull):
        """Proves a crate by a command of `rt`. Gives what was said of it where it is not proved, or None."""
        said = []

        def hear(line):
            said.append(line)
            found = FUNCTIONS.search(line)
            if found:
                self.progress.reaches(crate, int(found[1]), int(found[2]))

        self.progress.begins(crate)
        if not self.commands.run(["rt", *words], folder, hear, source):
            return "".join(said) or f"{crate} was not proved\n"
        self.progress.ends(crate)
        return None

    def prove(self, crate, jobs):
        """Proves a crate. The program is built too, in the repository itself: nothing is proved beside it."""
        flags = ["--jobs", str(jobs)]
        if crate == self.program:
            # A program is built by its stored run, which ends with status 0: any other is that of a build that failed.
            return self.prove_by(crate, ["run", *flags, "--", *stored_words(crate)], folder_of(crate), stored_input(crate))
        tree = self.trees.enter(crate)
        said = self.prove_by(crate, ["lib", *flags], os.path.join(tree, "crates", crate))
        if said is None:
            self.trees.leave(tree, crate)
        return said

    def prove_all(self):
        """Proves all crates. Gives what was said of the first that is refused, or None."""
        proved, running, free = set(), {}, self.plan.lanes
        with concurrent.futures.ThreadPoolExecutor(self.plan.lanes) as pool:
            try:
                while len(proved) < len(self.plan.needed):
                    begun = {*proved, *(crate for crate, _ in running.values())}
                    for crate, jobs in self.plan.next_checks(proved, begun, free):
                        running[pool.submit(self.prove, crate, jobs)] = crate, jobs
                        free -= jobs
                    ended, _ = concurrent.futures.wait(running, return_when=concurrent.futures.FIRST_COMPLETED)
                    for check in ended:
                        crate, jobs = running.pop(check)
                        if check.result() is not None:
                            return check.result()
                        free += jobs
                        proved.add(crate)
            finally:
                self.commands.stop()
        return None


def build(program):
    """Proves and builds the program, unless it is as its sources are. Ends this process where it is refused."""
    plan = Plan(program, lines_of_crates(), processors())
    with Proofs(plan, program) as progress:
        print(f"{program}: {len(plan.needed)} crates are proved and built once, on {plan.lanes} processors: about {progress.whole / 60:.0f} minutes on a "
              "quiet machine", file=sys.stderr, flush=True)
        with Trees(plan) as trees:
            said = Build(plan, program, trees, progress).prove_all()
    if said is not None:
        sys.exit(f"{said}{program}: refused")


def main(words):
    """Builds the program that the words name. None where they name none."""
    is_proved = words[:1] != ["--unproved"]
    programs = words[not is_proved:]
    if len(programs) != 1 or programs[0] not in lines_of_crates():
        return None
    if is_proved:
        # A request to end stops the checks that run.
        signal.signal(signal.SIGTERM, lambda _number, _frame: sys.exit(1))
        build(programs[0])
    else:
        unproved.build_here(programs[0])
    return 0


if __name__ == "__main__":
    if main(sys.argv[1:]) is None:
        sys.exit(__doc__)
