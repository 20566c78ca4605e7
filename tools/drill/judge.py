"""Judges what was written of a list: by the words of the headline (docs/PROMISES.md), and line by line by the model.

The first part knows of the model only which publications were made, and when which subscription was open. It looks at the placements as they are
written.
"""
import re
from dataclasses import dataclass

from .values import is_match

PLACED = re.compile(r"placed (\d+) (\S+) (\d+) (\d+) (\S+) (\d+) (\S+) (-|=.*)")
NAMED = re.compile(r"\d+ (conn|session|sub|turn) ([\d.]+)")

ENDED = "it did not end as it has to"
PLAIN_TWICE = "a publication is placed twice for a plain subscription"
TWO_MEMBERS = "a publication is placed twice for a queue name"
OUT_OF_ORDER = "publications of an incarnation do not come in rising number"
NOT_OWED = "what is placed is not owed"
ECHOED = "without echo it comes back to its publisher"
ONE_NAME = "two things have one name"
OTHER_LINE = "a line is not what the pages say"
NOT_SETTLED = "a cluster is settled just where all was told and heard"
NOT_DELIVERED = "a delivery does not give each subscription and each queue name its message once"


@dataclass(frozen=True)
class Flaw:
    kind: str
    where: str


@dataclass(frozen=True)
class Placement:
    """A placement as it is written; the publication by its server's place, incarnation and number."""

    line: str
    step: int
    source: tuple
    place: int
    conn: int
    sid: str
    queue: str | None


def placement_of(line, names):
    """The placement that a line tells of; none where the line has no such form."""
    found = PLACED.fullmatch(line)
    if not found or found[2] not in names or found[5] not in names:
        return None
    queue = None if found[8] == "-" else found[8][1:]
    source = (names.index(found[2]), int(found[3]), int(found[4]))
    return Placement(line, int(found[1]), source, names.index(found[5]), int(found[6]), found[7], queue)


def life_of(placement, lives):
    """By its name, the subscription that was open at that step for that id; none where there was none."""
    for name, life in lives.items():
        if (life.place, life.conn, life.sid) == (placement.place, placement.conn, placement.sid) and life.is_open_at(placement.step):
            return name
    return None


def is_owed(placement, life, source):
    """Whether the publication was made before, and the subscription matches and has the queue name that is told."""
    if life is None or source is None or source.step >= placement.step:
        return False
    return life.queue == placement.queue and is_match(life.pattern, source.message.subject)


def placement_flaws(lines, cluster):
    """What is wrong with the placements, by the headline."""
    seen, last = set(), {}
    for line in lines:
        placement = placement_of(line, cluster.names)
        if placement is None:
            yield Flaw(OTHER_LINE, line)
            continue
        name = life_of(placement, cluster.lives)
        life, source = cluster.lives.get(name), cluster.publications.get(placement.source)
        if not is_owed(placement, life, source):
            yield Flaw(NOT_OWED, line)
        if source and not source.echo and (placement.place, placement.conn) == (placement.source[0], source.publisher):
            yield Flaw(ECHOED, line)
        once = (placement.source, placement.queue) if placement.queue is not None else (placement.source, name)
        if once in seen:
            yield Flaw(PLAIN_TWICE if placement.queue is None else TWO_MEMBERS, line)
        seen.add(once)
        origin, number = placement.source[:2], placement.source[2]
        if last.get((name, origin), 0) >= number:
            yield Flaw(OUT_OF_ORDER, line)
        last[name, origin] = number


def name_flaws(lines, script):
    """Names that a server gives twice in one life: of connections, subscriptions, sessions and turns."""
    given = {}
    for line, (place, word) in zip(lines, script.cluster.asked):
        if word == "start" and line.endswith(" ok"):
            given[place] = set()
        found = NAMED.match(line)
        if found and (found[1], found[2]) in given.setdefault(place, set()):
            yield Flaw(ONE_NAME, line)
        if found:
            given[place].add((found[1], found[2]))


def wanted_of(made, lives):
    """Whoever has to be given the publication: each plain subscription that is open when it is made and matches, and each queue name of one."""
    open_lives = [life for life in lives if life.is_open_at(made.step) and is_match(life.pattern, made.message.subject)]
    plain = [(life.place, life.conn, life.sid) for life in open_lives if life.queue is None]
    return sorted(plain), sorted({life.queue for life in open_lives if life.queue is not None})


def given_of(source, placed):
    """Whoever was given the publication."""
    given = [placement for placement in placed if placement.source == source]
    plain = [(placement.place, placement.conn, placement.sid) for placement in given if placement.queue is None]
    return sorted(plain), sorted(placement.queue for placement in given if placement.queue is not None)


def delivery_flaws(lines, cluster):
    """What is wrong with the deliveries of publications with echo, by the promise alone."""
    placed = [placement for placement in (placement_of(line, cluster.names) for line in lines if line.startswith("placed ")) if placement]
    for delivery in cluster.deliveries:
        made = cluster.publications.get(delivery.source)
        if made is None or not made.echo:
            continue
        wanted = wanted_of(made, cluster.lives.values())
        if given_of(delivery.source, placed) != wanted:
            yield Flaw(NOT_DELIVERED, f"publication {delivery.source}")
        told = f"delivered {sum(map(len, wanted))}"
        if delivery.line is not None and lines[delivery.line:delivery.line + 1] != [told]:
            yield Flaw(NOT_DELIVERED, f"publication {delivery.source}: not {told}")


def rest_flaws(lines, is_at_rest):
    """Lines that do not tell whether the cluster is at rest."""
    for line in lines:
        if line.startswith("settled ") and line != f"settled {'yes' if is_at_rest else 'no'}":
            yield Flaw(NOT_SETTLED, line)


def line_flaws(lines, wanted):
    """Lines that are not what the model writes."""
    for place in range(max(len(lines), len(wanted))):
        is_line = lines[place] if place < len(lines) else "nothing"
        has_to_be = wanted[place] if place < len(wanted) else "nothing"
        if is_line != has_to_be:
            yield Flaw(OTHER_LINE, f"{is_line} (by the pages: {has_to_be})")


def flaws_in(script, text):
    """All that is wrong with what was written of a list."""
    lines = text.split("\n")
    if lines.pop() != "":
        yield Flaw(ENDED, "the last line has no end")
    yield from line_flaws(lines, script.wanted)
    yield from name_flaws(lines, script)
    yield from placement_flaws([line for line in lines if line.startswith("placed ")], script.cluster)
    yield from delivery_flaws(lines, script.cluster)
    if script.is_at_rest is not None:
        yield from rest_flaws(lines, script.is_at_rest)
