"""The lists of a script as lines of JSON (docs/SCRIPTS.md, "A log"): those that have to be written, and flaws that an audit of them has to find."""
import json

from dataclasses import replace

from .cluster import message_of
from .judge import ENDED, Flaw, life_of

OTHER_LOG = "a line of the lists is not what the pages say"
NOT_PASSED = "the lists do not pass the audit"


def name_of(cluster, source):
    place, inc, number = source
    return {"origin": cluster.names[place], "inc": inc, "number": number}


def life_name_of(cluster, name):
    place, inc, shard, serial = name
    return {"node": cluster.names[place], "inc": inc, "shard": shard, "serial": serial}


def there(**members):
    """The members that are not None."""
    return {name: value for name, value in members.items() if value is not None}


def publications_of(cluster):
    for source, made in cluster.publications.items():
        message = made.message
        members = there(step=made.step, subject=message.subject, reply=message.reply, headers=message.headers, payload=message.payload)
        yield {"publication": {"id": name_of(cluster, source), **members}}


def lives_of(cluster):
    for name, life in cluster.lives.items():
        members = there(conn=life.conn, sid=life.sid, pattern=life.pattern, queue=life.queue, opened=life.opened, closed=life.closed)
        yield {"life": {"id": life_name_of(cluster, name), **members}}


def placements_of(cluster):
    for placed in cluster.placed:
        text = cluster.publications[placed.source].message.text_for(placed.sid, placed.takes_headers)
        members = there(step=placed.step, conn=placed.conn, queue=placed.queue, headers=placed.takes_headers or None, bytes=text)
        life = life_name_of(cluster, life_of(placed, cluster.lives))
        yield {"placement": {"publication": name_of(cluster, placed.source), "life": life, **members}}


def entries_of(cluster):
    return [*publications_of(cluster), *lives_of(cluster), *placements_of(cluster)]


def read(line):
    """The JSON of a line; none where it is none."""
    try:
        return json.loads(line)
    except ValueError:
        return None


def flaws_in(script, text, log):
    """What is wrong with a script's lists, behind its text."""
    if not log.startswith(text) or not log.endswith("\n"):
        yield Flaw(ENDED, "the lists do not stand behind the text")
        return
    lines, wanted = log[len(text):].split("\n")[:-1], entries_of(script.cluster)
    for place in range(max(len(lines), len(wanted))):
        is_line = lines[place] if place < len(lines) else "nothing"
        has_to_be = wanted[place] if place < len(wanted) else "nothing"
        if read(is_line) != has_to_be:
            yield Flaw(OTHER_LOG, f"{is_line} (by the pages: {has_to_be})")


# ---- flaws that are planted

def written(entries):
    return "".join(json.dumps(entry, ensure_ascii=False) + "\n" for entry in entries)


def of_kind(entries, kind):
    return [entry[kind] for entry in entries if kind in entry]


def placed_again(entries):
    """The first placement once more, behind the others."""
    placed = of_kind(entries, "placement")
    return (entries + [{"placement": placed[0]}], len(placed) + 1) if placed else None


def with_members(entries, number, **members):
    """With other members of the placement of this number, from 1; those that are None are left out."""
    placed = of_kind(entries, "placement")
    at = len(entries) - len(placed) + number - 1
    return [*entries[:at], {"placement": there(**{**placed[number - 1], **members})}, *entries[at + 1:]]


def other_payload(entries):
    """The last placement has a byte more."""
    placed = of_kind(entries, "placement")
    return (with_members(entries, len(placed), bytes=placed[-1]["bytes"] + "x"), len(placed)) if placed else None


def without(entries, kind, member):
    """Without what the last placement names; the first one that names it is the first that breaks the clause."""
    placed = of_kind(entries, "placement")
    if not placed:
        return None
    name = placed[-1][member]
    number = next(at for at, placement in enumerate(placed, 1) if placement[member] == name)
    return [entry for entry in entries if entry.get(kind, {}).get("id") != name], number


def unpublished(entries):
    return without(entries, "publication", "publication")


def never_opened(entries):
    return without(entries, "life", "life")


def by_name(entries, kind):
    """What is of this kind, by its name."""
    return {tuple(entry["id"].values()): entry for entry in of_kind(entries, kind)}


def first_with_headers(entries, takes_headers):
    """Of the first placement of a publication with headers for a connection that takes them, or that takes none: its number, the message, and the
    subscription's id. None where there is none."""
    publications, lives = by_name(entries, "publication"), by_name(entries, "life")
    for number, placement in enumerate(of_kind(entries, "placement"), 1):
        made = publications[tuple(placement["publication"].values())]
        if "headers" in made and placement.get("headers", False) == takes_headers:
            return number, message_of(made), lives[tuple(placement["life"].values())]["sid"]
    return None


def in_form(entries, found, takes_headers, **members):
    """The placement that was found has the form of a connection that takes headers, or of one that takes none, and other members."""
    number, message, sid = found
    return with_members(entries, number, bytes=message.text_for(sid, takes_headers), **members)


def untaken_headers(entries):
    found = first_with_headers(entries, False)
    return found and (in_form(entries, found, True), found[0])


def untaken_headers_told_as_taken(entries):
    """No audit can know that the connection takes none."""
    found = first_with_headers(entries, False)
    return found and (in_form(entries, found, True, headers=True), None)


def taken_headers_left_out(entries):
    found = first_with_headers(entries, True)
    return found and (in_form(entries, found, False), found[0])


def taken_headers_told_as_untaken(entries):
    found = first_with_headers(entries, True)
    return found and (with_members(entries, found[0], headers=None), found[0])


def block_in_payload(entries):
    found = first_with_headers(entries, False)
    if not found:
        return None
    number, message, sid = found
    return in_form(entries, (number, replace(message, payload=message.headers + message.payload), sid), False), number


# Each edits the lists, and says which placement an audit of them has to tell; none where it cannot find what is wrong.
PLANTS = [
    ("the first placement of the lists stands there once more", placed_again),
    ("the last placement of the lists has other bytes", other_payload),
    ("a publication is left out of the lists", unpublished),
    ("a subscription is left out of the lists", never_opened),
    ("what is placed for a connection that takes no headers is HMSG", untaken_headers),
    ("the lists tell of a connection that takes no headers that it takes them, with an HMSG", untaken_headers_told_as_taken),
    ("what is placed for a connection that takes headers is MSG", taken_headers_left_out),
    ("the lists do not say that a connection takes headers", taken_headers_told_as_untaken),
    ("a placed MSG has the header block before its payload", block_in_payload),
]


def planted(script):
    """For each of these plants that finds something to edit: its name, the edited lists, and what an audit of them has to write, with its status."""
    for name, edit in PLANTS:
        edited = edit(entries_of(script.cluster))
        if edited is not None:
            entries, number = edited
            yield name, written(entries), ("none\n", 0) if number is None else (f"{number}\n", 1)
