"""Flaws that are planted into what the program wrote of a list, each of which the judge has to find by the rule that it breaks."""
from .judge import ECHOED, ENDED, NOT_DELIVERED, NOT_OWED, NOT_SETTLED, ONE_NAME, OTHER_LINE, OUT_OF_ORDER, PLAIN_TWICE, TWO_MEMBERS, is_owed, life_of, placement_of
from .values import is_match


class Written:
    """The lines of a list, and its placements with their places among them."""

    def __init__(self, script, text):
        self.script, self.cluster, self.lines = script, script.cluster, text.split("\n")[:-1]
        read = [(at, placement_of(line, self.cluster.names)) for at, line in enumerate(self.lines) if line.startswith("placed ")]
        self.placed = [(at, placement) for at, placement in read if placement]

    def first(self, is_fit):
        """The first placement of which this holds, with its place; none where there is none."""
        return next(((at, placement) for at, placement in self.placed if is_fit(placement)), None)

    def with_line(self, at, *lines):
        """The text with these lines in place of one."""
        return "\n".join([*self.lines[:at], *lines, *self.lines[at + 1:], ""])

    def line_of(self, placement, **other):
        """The line of a placement with other fields."""
        fields = {**vars(placement), **other}
        origin, inc, number = fields["source"]
        mode = "-" if fields["queue"] is None else f"={fields['queue']}"
        names = self.cluster.names
        return f"placed {fields['step']} {names[origin]} {inc} {number} {names[fields['place']]} {fields['conn']} {fields['sid']} {mode}"

    def edited(self, found, **other):
        """The text where the placement that was found has other fields."""
        return found and self.with_line(found[0], self.line_of(found[1], **other))

    def lives_at(self, placement, is_fit):
        """The subscriptions of the placement's server that are open at its step, and of which this holds."""
        lives = self.cluster.lives.values()
        return [life for life in lives if life.place == placement.place and life.is_open_at(placement.step) and is_fit(life)]

    def number_at(self, at):
        """The number of the event whose line has this place."""
        return self.lines[at].split(" ", 1)[0]

    def first_event(self, word, start):
        """The place of the first event of this word whose line goes on so; none where there is none."""
        for at, (_, asked) in enumerate(self.cluster.asked):
            if asked == word and self.lines[at].split(" ", 1)[1].startswith(start):
                return at
        return None


def is_plain(placement):
    return placement.queue is None


def is_of_group(placement):
    return placement.queue is not None


def placed_again(written):
    found = written.first(is_plain)
    return found and written.with_line(found[0], found[1].line, found[1].line)


def second_member(written):
    """Another member of the group at its server; the same one, where there is no other."""
    for at, placement in written.placed:
        lives = written.lives_at(placement, lambda life: life.queue == placement.queue)
        if is_of_group(placement) and lives:
            life = lives[-1]
            return written.with_line(at, placement.line, written.line_of(placement, conn=life.conn, sid=life.sid))
    return None


def member_of_another_server(written):
    found = written.first(is_of_group) if len(written.cluster.names) > 1 else None
    return found and written.with_line(found[0], found[1].line, written.line_of(found[1], place=(found[1].place + 1) % len(written.cluster.names)))


def backwards(written):
    """The placements in the opposite order, where two of one source are of one subscription."""
    seen = set()
    for _, placement in written.placed:
        name = (life_of(placement, written.cluster.lives), placement.source[:2])
        if name in seen:
            places = [at for at, _ in written.placed]
            lines = written.lines[:places[0]] + written.lines[places[0]:places[-1] + 1][::-1] + written.lines[places[-1] + 1:]
            return "\n".join([*lines, ""])
        seen.add(name)
    return None


def unpublished(written):
    found = written.first(lambda placement: True)
    return found and written.edited(found, source=(*found[1].source[:2], 999_999))


def other_life_of_the_publisher(written):
    found = written.first(lambda placement: True)
    return found and written.edited(found, source=(found[1].source[0], found[1].source[1] + 1_000, found[1].source[2]))


def before_it_was_published(written):
    found = written.first(lambda placement: True)
    return found and written.edited(found, step=written.cluster.publications[found[1].source].step)


def closed_before(written):
    """For a subscription of the same server that matches and has closed, and whose id is not open."""
    for at, placement in written.placed:
        source = written.cluster.publications[placement.source]
        for life in written.cluster.lives.values():
            is_closed = life.place == placement.place and life.closed is not None and life.closed < placement.step
            if is_closed and life.queue == placement.queue and is_match(life.pattern, source.message.subject):
                if not written.lives_at(placement, lambda other: (other.conn, other.sid) == (life.conn, life.sid)):
                    return written.with_line(at, written.line_of(placement, conn=life.conn, sid=life.sid))
    return None


def not_yet_open(written):
    """For a subscription that opens later."""
    found = written.first(is_plain)
    if not found:
        return None
    life = written.cluster.lives[life_of(found[1], written.cluster.lives)]
    return written.edited(found, step=life.opened)


def no_match(written):
    """For an open subscription of the same server that does not match."""
    for at, placement in written.placed:
        subject = written.cluster.publications[placement.source].message.subject
        lives = written.lives_at(placement, lambda life: life.queue == placement.queue and not is_match(life.pattern, subject))
        if lives:
            return written.with_line(at, written.line_of(placement, conn=lives[0].conn, sid=lives[0].sid))
    return None


def other_queue_name(written):
    found = written.first(is_of_group)
    return written.edited(found, queue="other")


def plain_as_of_a_group(written):
    return written.edited(written.first(is_plain), queue="q")


def echo(written):
    """Placed too for a subscription of the connection that published it without echo."""
    for at, placement in written.placed:
        source = written.cluster.publications[placement.source]
        if source.echo or placement.source[0] != placement.place:
            continue
        own = written.lives_at(placement, lambda life: life.conn == source.publisher and life.queue is None)
        for life in own:
            line = written.line_of(placement, conn=life.conn, sid=life.sid, queue=None)
            if is_owed(placement_of(line, written.cluster.names), life, source):
                return written.with_line(at, placement.line, line)
    return None


def left_out(written):
    found = written.first(lambda placement: True)
    return found and written.with_line(found[0])


def one_frame_more(written):
    """A publication tells of a frame more, as if it were sent twice."""
    at = written.first_event("publish", "turn")
    if at is None:
        return None
    head, _, frames = written.lines[at].rpartition(" ")
    return written.with_line(at, f"{head} {int(frames) + 1}")


def name_again(written):
    """A connection gets the number of the one before it."""
    at = written.first_event("attach", "conn")
    for later, (place, word) in enumerate(written.cluster.asked):
        if at is None or place == written.cluster.asked[at][0] and later > at and word == "stop":
            return None
        if later > at and word == "attach" and place == written.cluster.asked[at][0] and " conn " in written.lines[later]:
            return written.with_line(later, f"{written.number_at(later)} {written.lines[at].split(' ', 1)[1]}")
    return None


def first_refused(written):
    return next((at for at, line in enumerate(written.cluster.lines) if line.split(" ")[1] == "refused"), None)


def done_though_refused(written):
    at = first_refused(written)
    return None if at is None else written.with_line(at, f"{written.number_at(at)} ok")


def other_number(written):
    at = first_refused(written)
    return None if at is None else written.with_line(at, f"{written.number_at(at)} refused 99")


def lost_though_won(written):
    at = written.first_event("claim", "won")
    return None if at is None else written.with_line(at, f"{written.number_at(at)} lost")


def broken_off(written):
    return "\n".join(written.lines)


# ---- of a cluster at rest

def promised(written):
    """The deliveries of which each has its message: those with echo."""
    publications = written.cluster.publications
    return [delivery for delivery in written.cluster.deliveries if delivery.source and publications[delivery.source].echo]


def delivery_left_out(written):
    found = written.first(lambda placement: any(delivery.source == placement.source for delivery in promised(written)))
    return found and written.with_line(found[0])


def delivered_more(written):
    at = next((delivery.line for delivery in promised(written) if delivery.line is not None), None)
    return None if at is None else written.with_line(at, f"delivered {int(written.lines[at].split(' ')[1]) + 1}")


def settled_turned(written):
    at = next((at for at, line in enumerate(written.lines) if line.startswith("settled ")), None)
    return None if at is None else written.with_line(at, "settled no" if written.lines[at] == "settled yes" else "settled yes")


REST_PLANTS = [
    ("a message of a delivery is left out", delivery_left_out, NOT_DELIVERED),
    ("a delivery tells of one message more", delivered_more, NOT_DELIVERED),
    ("a cluster at rest, or where a frame is held back, is told as the other", settled_turned, NOT_SETTLED),
]

PLANTS = [
    ("a message for a plain subscription is placed once more", placed_again, PLAIN_TWICE),
    ("a message for a queue name is placed for a further member of its server", second_member, TWO_MEMBERS),
    ("a message for a queue name is placed at another server too", member_of_another_server, TWO_MEMBERS),
    ("what was placed stands in the opposite order", backwards, OUT_OF_ORDER),
    ("what is placed was never published", unpublished, NOT_OWED),
    ("what is placed is of a life that its server never had", other_life_of_the_publisher, NOT_OWED),
    ("it is placed with the step that published it", before_it_was_published, NOT_OWED),
    ("it is placed for a subscription that closed before", closed_before, NOT_OWED),
    ("it is placed with the step that opened the subscription", not_yet_open, NOT_OWED),
    ("it is placed for a subscription that does not match", no_match, NOT_OWED),
    ("it is placed for another queue name", other_queue_name, NOT_OWED),
    ("what a plain subscription got is told of a queue name", plain_as_of_a_group, NOT_OWED),
    ("what was published without echo comes back", echo, ECHOED),
    ("a placement is left out", left_out, OTHER_LINE),
    ("a publication is sent to one server more", one_frame_more, OTHER_LINE),
    ("two connections have one number", name_again, ONE_NAME),
    ("an event that is refused is told as done", done_though_refused, OTHER_LINE),
    ("a refusal has another number", other_number, OTHER_LINE),
    ("a claim that won is told as lost", lost_though_won, OTHER_LINE),
    ("the last line breaks off", broken_off, ENDED),
]


def planted(plants, written):
    """For each of these plants that finds something to edit: its name, the edited text, and the flaw that has to be found."""
    for name, edit, flaw in plants:
        text = edit(written)
        if text is not None:
            yield name, text, flaw
