"""Draws lists of steps for clusters and streams of one client, has them played, and judges what is written by a model of its own.

  tools/dev drill [LISTS] [--seed N] [--unproved] [--plants]
  tools/dev drill [LISTS] [--seed N] --show script | rest | held | stream

For each of LISTS seeds from N on (500 from 1 on, where they are left out) `nats_mesh script` plays one script, one that brings a cluster to rest and
delivers there, and the same with a frame held back; and `nats_mesh pipe` one stream. Before them one publication between two servers is played, disturbed
behind each of its events (`disturbed`). What each script's run published, subscribed and placed is written by `script --audit`, and audited by
`nats_mesh audit`. The programs that the launcher starts for these words are played, proved (crates/NAME/out/NAME) or, by --unproved, built without
proofs (.unproved/NAME). None is built here: where one is missing, or older than a source, nothing is played, and it is said how it is built (status 2).
--plants also edits what was written of each list, in each of several named ways, and sees that each is found. --show writes what is drawn, and plays
nothing: `tools/dev drill 1 --seed 17 --show script | ./nats_mesh script`. Status 0: nothing differs, and each plant was found.

The model is written from the pages docs/SCRIPTS.md, docs/PROTOCOL.md and docs/PROMISES.md, and from nothing of the router's code. A cluster has 1 to
5 servers of 1 to 4 shards, and one in 33 up to 16 servers of up to 16 (16 shards too where their share of subscriptions is filled).

- Of a script each line is judged, and the placements as they are written. These are judged by the words of the headline; the model gives only which
  publications were made and when which subscription was open. Each publication is placed at most once for a plain subscription, and at most once for
  a queue name in the whole cluster. Each placement is for a subscription that was open at that step and matched, of a publication of an earlier step.
  The publications of an incarnation come in rising number. Without echo none is placed for its publisher.
- A cluster at rest has to be told as settled. Each publication that is delivered there, as one step or with its work in an order that is drawn, has
  to reach each subscription that is open and matches once, and each queue name once. With a frame held back the cluster must not be told as settled.
- Of the lists of a script each line is judged, with the bytes of what is placed, and they have to pass the audit. If a flaw is planted, its line has
  to differ, and the audit has to tell the placement that breaks the clause first, where the lists alone show it.
- Of a stream these are judged: what INFO says of payloads and headers, each byte behind it, and the status.

Not judged: the bytes of frames, since no text shows them; what standard error tells; what is refused as no script (90 to 92); refusals that no script meets
(`tally` names them); threads and sockets (`serve`); times, and want of memory.

In reading order: `values`, `shard`, `server` and `cluster` are the model; `moves` and `lists` draw scripts by it, `disturbed` has those that are not
drawn, `judge` judges them, and `plants` edits what was written; `logs` has both for their lists, and `streams` for one client; `tally` is what is told
at the end.
"""
import subprocess
import sys

from repository import cause_against, program_of

from . import logs, plants, streams
from .disturbed import disturbed
from .judge import ENDED, Flaw, flaws_in
from .lists import brought_to_rest, drawn
from .tally import Tally

# Which program has which of the commands that are played.
PROGRAM_OF = {"pipe": "nats_mesh", "script": "mesh_tools", "audit": "mesh_tools"}

# What to do where a program is missing or old. Only a word that needs a program builds it.
HOW_TO_BUILD = """  without proofs, in minutes:  for word in pipe audit; do ./nats_mesh --unproved $word </dev/null; done
                               and then tools/dev drill --unproved
  the proved ones:             for word in pipe audit; do ./nats_mesh $word </dev/null; done"""

LISTS = 500

# How long the program may take for a list, in seconds, and how many flaws of one list are told.
LAST_SECOND = 120
MOST_FLAWS = 5


def run(programs, words, data):
    """What the program that has the command writes of its input, and its status; none where it does not end."""
    try:
        done = subprocess.run([programs[PROGRAM_OF[words[0]]], *words], input=data, stdout=subprocess.PIPE, stderr=subprocess.DEVNULL, timeout=LAST_SECOND, check=False)
    except subprocess.TimeoutExpired:
        return "", None
    return done.stdout.decode(errors="replace"), done.returncode


def tell_flaws(of, flaws, tally):
    """Tells what is wrong with a list or a stream."""
    if flaws:
        tally.differing += 1
        print(f"{of}: {len(flaws)} flaws")
        for flaw in flaws[:MOST_FLAWS]:
            print(f"  {flaw.kind}: {flaw.where}")


# What is drawn of a seed, by the word of `--show`.
LIST_OF = {"script": drawn, "rest": lambda seed: brought_to_rest(seed, False), "held": lambda seed: brought_to_rest(seed, True)}


def how_to_show(seed, word):
    return f"seed {seed}; tools/dev drill 1 --seed {seed} --show {word} shows it"


def log_flaws(programs, script, text):
    """What is wrong with the lists of a script, and with their audit."""
    log, status = run(programs, ["script", "--audit"], script.text)
    flaws = [] if status == 0 else [Flaw(ENDED, f"status {status} with the lists")]
    flaws += logs.flaws_in(script, text, log)
    told, status = run(programs, ["audit"], log.encode())
    return flaws if (told, status) == ("none\n", 0) else flaws + [Flaw(logs.NOT_PASSED, f"{told.strip()}, status {status}")]


def play_script(programs, script, of_kind, of, tally):
    """Plays a script, and judges what is written. With plants of a kind sees that each flaw is found."""
    text, status = run(programs, ["script"], script.text)
    flaws = [] if status == 0 else [Flaw(ENDED, f"status {status}")]
    flaws += [*flaws_in(script, text), *log_flaws(programs, script, text)]
    tally.note_list(script, text)
    tell_flaws(of, flaws, tally)
    if flaws or of_kind is None:
        return
    for name, edited, kind in plants.planted(of_kind, plants.Written(script, text)):
        tally.note_plant(name, any(flaw.kind == kind for flaw in flaws_in(script, edited)))
    for name, edited, told in logs.planted(script):
        is_told = run(programs, ["audit"], edited.encode()) == told
        tally.note_plant(name, is_told and any(logs.flaws_in(script, text, text + edited)))


def play_list(programs, seed, word, with_plants, tally):
    script = LIST_OF[word](seed)
    if script is not None:
        of_kind = plants.PLANTS if word == "script" else plants.REST_PLANTS
        play_script(programs, script, of_kind if with_plants else None, f"a script ({script.kind}), {how_to_show(seed, word)}", tally)


def play_disturbed(programs, with_plants, tally):
    for script in disturbed():
        of = f"one publication ({script.kind} behind event {script.seed})"
        play_script(programs, script, [] if with_plants else None, of, tally)


def play_stream(programs, seed, with_plants, tally):
    stream = streams.Stream(seed)
    text, status = run(programs, ["pipe"], stream.text)
    flaws = [] if status == stream.status else [Flaw(ENDED, f"status {status} (by the pages: {stream.status})")]
    flaws += stream.flaws_in(text)
    tally.note_stream(stream)
    tell_flaws(f"a stream, {how_to_show(seed, 'stream')}", flaws, tally)
    if with_plants and not flaws:
        info = text[:text.index("\r\n") + 2]
        for name, edit in streams.PLANTS:
            edited = edit(stream, info)
            if edited is not None:
                tally.note_plant(name, any(stream.flaws_in(edited)))


def words_of(words):
    """What a command line asks for, by the names of its words; none where it is none."""
    asked = {"lists": str(LISTS), "--seed": "1", "--unproved": False, "--show": None, "--plants": False}
    words = list(words)
    while words:
        word = words.pop(0)
        if word in ("--plants", "--unproved"):
            asked[word] = True
        elif word in ("--seed", "--show") and words:
            asked[word] = words.pop(0)
        elif word.isdecimal():
            asked["lists"] = word
        else:
            return None
    is_known = asked["--seed"].isdecimal() and asked["--show"] in (None, "stream", *LIST_OF)
    return asked if is_known else None


def show(asked, seeds):
    """Writes what is drawn."""
    for seed in seeds:
        script = LIST_OF[asked["--show"]](seed) if asked["--show"] in LIST_OF else None
        sys.stdout.buffer.write(script.text + b"\n" if script else streams.Stream(seed).text if asked["--show"] == "stream" else b"")
    return 0


def main(words):
    asked = words_of(words)
    if asked is None:
        return None
    seeds = range(int(asked["--seed"]), int(asked["--seed"]) + int(asked["lists"]))
    if asked["--show"]:
        return show(asked, seeds)
    programs = {name: program_of(name, not asked["--unproved"]) for name in PROGRAM_OF.values()}
    with_plants, tally = asked["--plants"], Tally()
    cause = next(filter(None, map(cause_against, programs.values())), None)
    if cause:
        print(f"tools/dev drill: {cause}\n{HOW_TO_BUILD}", file=sys.stderr)
        return 2
    play_disturbed(programs, with_plants, tally)
    for seed in seeds:
        for word in LIST_OF:
            play_list(programs, seed, word, with_plants, tally)
        play_stream(programs, seed, with_plants, tally)
    names = [name for name, *_ in (*plants.PLANTS, *plants.REST_PLANTS, *logs.PLANTS, *streams.PLANTS)] if with_plants else []
    for line in tally.lines(names):
        print(line)
    return 1 if tally.differing or tally.missed(names) else 0
