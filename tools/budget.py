"""Measures what the gate costs from nothing, crate by crate, and compares it with the ceilings of tools/costs.json.

Usage: tools/dev budget            measures, and ends with status 1 where something is above its ceiling
       tools/dev budget --write    the same, and keeps what was measured in tools/costs.json

The whole is the processor time that `rt ci --anew` and all that it starts have used, as the system tells it at the end. A crate's is that of
the provers and compilers that worked on it, looked at every second, so that it falls short by a second or two for each of them.

One machine needs half as long again as another for the same proofs. So the ceilings count the seconds of one machine. "pace" in tools/costs.json says
what the proofs of some crates took there, which have not changed since. What the same crates take in this run gives the pace of this machine. All is
counted in seconds of that machine, and the whole is printed in both. Whoever changes one of these crates takes it and its seconds out of "pace".

Each check has one job. Without this command the gate gives a check the processors that nothing else waits for. Two to four jobs then share its work at
1.2 to 1.8 times its processor seconds, and the figures would depend on how many processors the machine has.
"""
import json
import os
import resource
import subprocess
import sys
import time

from repository import TOP, lines_of_crates

COSTS = os.path.join(TOP, "tools", "costs.json")

# The ceiling of a crate that none was set for, and of a program over cases, in processor seconds.
CRATE, GOLDEN = 200, 300

# How often the provers are looked at, in seconds.
INTERVAL = 1.0

TICKS = os.sysconf("SC_CLK_TCK")


def words_of(process):
    """The command line of a process, or nothing where it has ended."""
    try:
        with open(f"/proc/{process}/cmdline", "rb") as file:
            return file.read().decode(errors="replace").split("\0")
    except OSError:
        return []


def seconds_of(process):
    """The processor seconds that a process and those that it waited for have used, or None where it has ended."""
    try:
        with open(f"/proc/{process}/stat", encoding="utf-8", errors="replace") as file:
            fields = file.read().rpartition(")")[2].split()
        return sum(int(used) for used in fields[11:15]) / TICKS
    except (OSError, IndexError):
        return None


def is_below(process, ancestor):
    """Whether a process was started by the other, or by one that this one started."""
    while process > 1:
        if process == ancestor:
            return True
        try:
            with open(f"/proc/{process}/stat", encoding="utf-8", errors="replace") as file:
                process = int(file.read().rpartition(")")[2].split()[1])
        except (OSError, IndexError):
            return False
    return False


def work_of(process):
    """What a prover works on: the crate, and whether it is its proof, its tests or an edit. None for any other process."""
    words = words_of(process)
    if not words or os.path.basename(words[0]) != "rattle" or "--crate-name" not in words:
        return None
    crate = words[words.index("--crate-name") + 1]
    try:
        is_edit = os.path.basename(os.readlink(f"/proc/{process}/cwd")).startswith("rt-edit")
    except OSError:
        return None
    kind = "edits" if is_edit else "tests" if "--test" in words else "proof"
    return crate, kind


class Meter:
    """The processor seconds of each prover that was seen below a process."""

    def __init__(self, ancestor):
        self.ancestor, self.works, self.seconds = ancestor, {}, {}

    def look(self):
        for name in os.listdir("/proc"):
            if not name.isdigit():
                continue
            process = int(name)
            work = self.works.get(process) or work_of(process)
            used = seconds_of(process) if work and is_below(process, self.ancestor) else None
            if used is not None:
                self.works[process], self.seconds[process] = work, used

    def by_crate(self):
        """For each crate, the seconds of its proof, its tests and its edits."""
        costs = {}
        for process, used in self.seconds.items():
            crate, kind = self.works[process]
            cost = costs.setdefault(crate, {"proof": 0.0, "tests": 0.0, "edits": 0.0})
            cost[kind] += used
        return costs


def run_gate():
    """Runs the gate from nothing. Gives its status, the seconds of all processors, the seconds that went by, and those of each crate."""
    before, start = resource.getrusage(resource.RUSAGE_CHILDREN), time.monotonic()
    one_job_each = {**os.environ, "RT_JOBS": str(len(os.sched_getaffinity(0)))}
    with subprocess.Popen(["rt", "ci", "--anew"], cwd=TOP, stdin=subprocess.DEVNULL, env=one_job_each) as gate:
        meter = Meter(gate.pid)
        while gate.poll() is None:
            meter.look()
            time.sleep(INTERVAL)
    after = resource.getrusage(resource.RUSAGE_CHILDREN)
    whole = after.ru_utime + after.ru_stime - before.ru_utime - before.ru_stime
    return gate.returncode, whole, time.monotonic() - start, meter.by_crate()


def read_costs():
    with open(COSTS, encoding="utf-8") as file:
        return json.load(file)


def pace_of(costs, crates):
    """How many of its processor seconds this machine takes for one of the machine that the ceilings are of. None where the gate proved none of the
    crates that tell it."""
    known = [crate for crate in costs["pace"]["crates"] if crate in crates]
    due = sum(costs["pace"]["crates"][crate] for crate in known)
    return sum(crates[crate]["proof"] for crate in known) / due if due else None


def at_pace(crates, pace):
    """What each crate costs in seconds of that machine."""
    return {crate: {kind: used / pace for kind, used in cost.items()} for crate, cost in crates.items()}


def ceiling_of(costs, crate):
    """The most that the proof of a crate may cost."""
    said = costs["crates"].get(crate, {})
    return said.get("ceiling", GOLDEN if crate.endswith("_golden") else CRATE)


def faults_of(costs, whole, crates):
    """What is above its ceiling, a line each; and each ceiling above the usual that has no reason."""
    faults = []
    if whole > costs["whole"]["ceiling"]:
        faults.append(f"the whole: {whole:.0f} s, above its {costs['whole']['ceiling']}")
    for crate, cost in sorted(crates.items()):
        if cost["proof"] > ceiling_of(costs, crate):
            faults.append(f"{crate}: {cost['proof']:.0f} s of proof, above its {ceiling_of(costs, crate)}")
    for crate, said in costs["crates"].items():
        usual = GOLDEN if crate.endswith("_golden") else CRATE
        if said.get("ceiling", usual) > usual and not said.get("reason"):
            faults.append(f"{crate}: a ceiling above {usual} has no reason beside it")
    return faults


def measured(costs, whole, elapsed, crates, pace):
    """The costs with what was measured in them."""
    costs["whole"]["measured"] = round(whole)
    costs["whole"]["elapsed"] = round(elapsed)
    costs["whole"]["pace"] = round(pace, 2)
    costs["whole"]["processors"] = len(os.sched_getaffinity(0))
    known = costs["crates"]
    costs["crates"] = {}
    for crate in lines_of_crates():
        cost = {kind: round(used) for kind, used in crates.get(crate, {}).items() if round(used)}
        costs["crates"][crate] = {**{key: known[crate][key] for key in ("ceiling", "reason") if key in known.get(crate, {})}, **cost}
    return costs


def table(crates):
    """A line a crate, dearest first."""
    rows = sorted(crates.items(), key=lambda row: -sum(row[1].values()))
    lines = [f"{'crate':20} {'proof':>7} {'tests':>7} {'edits':>7}"]
    return lines + [f"{crate:20} {cost['proof']:7.0f} {cost['tests']:7.0f} {cost['edits']:7.0f}" for crate, cost in rows]


def main(words):
    if words not in ([], ["--write"]):
        return None
    costs = read_costs()
    status, spent, elapsed, crates = run_gate()
    pace = pace_of(costs, crates)
    if pace is None:
        print("tools/dev budget: the gate did not come as far as the crates that tell this machine's pace", file=sys.stderr)
        return 1
    crates, whole = at_pace(crates, pace), spent / pace
    print("\n".join(table(crates)))
    print(f"the whole: {spent:.0f} processor seconds in {elapsed:.0f} s; this machine takes {pace:.2f} for one of the ceilings', so {whole:.0f} of these")
    faults = faults_of(costs, whole, crates)
    for fault in faults:
        print(f"tools/dev budget: {fault}", file=sys.stderr)
    if status != 0:
        print("tools/dev budget: the gate did not pass", file=sys.stderr)
        return 1
    if words:
        with open(COSTS, "w", encoding="utf-8") as file:
            json.dump(measured(costs, whole, elapsed, crates, pace), file, indent=1, ensure_ascii=False)
            file.write("\n")
    return 1 if faults else 0
