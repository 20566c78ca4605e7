"""The model of a cluster: makes the steps of a script, and says what is written of each (docs/SCRIPTS.md)."""
from dataclasses import dataclass

from .server import Server
from .values import QUEUE_NAMES, Message, Refused, is_match, refuse_if


@dataclass(frozen=True)
class Publication:
    """A publication that was made: its step, and who asked for it."""

    step: int
    message: Message
    publisher: int
    echo: bool


@dataclass
class Life:
    """A subscription, from the step that opened it up to the one that closed it."""

    place: int
    inc: int
    conn: int
    pattern: str
    queue: str | None
    sid: str
    opened: int
    closed: int | None = None

    def is_open_at(self, step):
        return self.opened < step and (self.closed is None or step <= self.closed)


@dataclass(frozen=True)
class Placed:
    """A message that was placed: the step, the publication, the place of the server, the connection, the subscription's id and queue name, and whether
    the connection took headers."""

    step: int
    source: tuple
    place: int
    conn: int
    sid: str
    queue: str | None
    takes_headers: bool


@dataclass(frozen=True)
class Delivery:
    """A publication with its work: the place of the line that tells how many messages that placed, where it is one step of the script; and the
    publication, unless nothing follows it."""

    line: int | None
    source: tuple | None


def message_of(members):
    """What a step with these members publishes."""
    return Message(members["subject"], members.get("reply"), members.get("headers"), members["payload"])


class Cluster:
    """Servers by these names, which are all down at first."""

    def __init__(self, names, shards):
        self.names, self.shards = names, shards
        self.running = {}
        self.used = set()
        self.frames = []
        self.step = 0
        # Each line: the place of the server and the word; and what is written. A line of no event has no place.
        self.asked, self.lines = [], []
        # Publications by (place, incarnation, number), and lives by (place, incarnation, shard, serial).
        self.publications, self.lives, self.placed = {}, {}, []
        self.deliveries = []

    # ---- steps

    def make(self, step):
        """Makes a step of a script. Tells what is written of each of its events."""
        place = self.names.index(step["node"]) if step["node"] in self.names else None
        if step["do"] == "join":
            return self.join(place, step)
        if step["do"] == "settled":
            return [self.say("settled", f"settled {'yes' if self.is_settled(step['subject']) else 'no'}")]
        if step["do"] == "deliver":
            return [self.deliver(place, step)]
        return [self.event(step["do"], place, step)]

    def join(self, place, step):
        """Four events, up to the first that is refused."""
        peer = self.place_of(step["peer"])
        told = [self.event("dial", place, {"peer": step["peer"]})]
        if told[-1].startswith("refused"):
            return told
        dialed = int(told[-1].split()[1])
        told.append(self.event("accept", peer, {}))
        if told[-1].startswith("refused"):
            return told
        accepted = int(told[-1].split()[1])
        told.append(self.event("info", place, {"session": dialed, "frame": len(self.frames)}))
        if told[-1].startswith("refused"):
            return told
        return told + [self.event("connect", peer, {"session": accepted, "frame": len(self.frames) - 1})]

    def event(self, word, place, members):
        self.step += 1
        try:
            told = getattr(self, "on_" + word)(place, members)
        except Refused as refused:
            told = f"refused {refused.number}"
        self.note(place)
        self.asked.append((place, word))
        self.lines.append(f"{self.step} {told}")
        return told

    def say(self, word, line):
        """A line of no event."""
        self.asked.append((None, word))
        self.lines.append(line)
        return line

    # ---- settled deliveries

    def is_settled(self, subject):
        """Whether the cluster is settled for a publication on this subject."""
        if len(self.running) < len(self.names):
            return False
        if any(server.is_draining for server in self.running.values()):
            return False
        if any(shard.waiting or shard.hand or shard.deltas for server in self.running.values() for shard in server.shards):
            return False
        if not all(server.knows(other, self.running[other]) for server in self.running.values() for other in server.peers):
            return False
        subs = [sub for server in self.running.values() for shard in server.shards for sub in shard.subs]
        return len({sub.queue for sub in subs if sub.queue is not None and is_match(sub.pattern, subject)}) <= QUEUE_NAMES

    def has_room(self, message):
        """Whether each connection has room for the messages of all its subscriptions that match."""
        return all(shard.has_room_for_all(message) for server in self.running.values() for shard in server.shards)

    def deliver(self, place, members):
        """A publish, and the work that is owed of it: by the places of the servers, and by shards. Tells what came of the publish."""
        message = message_of(members)
        is_ready = self.is_settled(message.subject) and self.has_room(message)
        sent, placed = len(self.frames), len(self.placed)
        told = self.event("publish", place, members)
        is_followed = is_ready and not told.startswith("refused")
        source = self.running[place].last_publication() if is_followed else None
        for other in range(len(self.names)) if is_followed else []:
            self.work_of(place, other, sent)
        self.say("delivered", f"delivered {len(self.placed) - placed}")
        self.deliveries.append(Delivery(len(self.lines) - 1, source))
        return told

    def work_of(self, place, other, sent):
        """The work of a server on the publication of the one at the place; its frame is behind so many others."""
        if other != place:
            number = next((number for number, frame in enumerate(self.frames[sent:], sent + 1) if frame.to == other), None)
            if number is None:
                return
            self.event("receive", other, {"frame": number})
        for shard in self.running[other].shards:
            self.event("begin", other, {"shard": shard.number})
            for index in range(len(shard.hand.queues)):
                self.event("claim", other, {"shard": shard.number, "index": index})
            self.event("end", other, {"shard": shard.number})

    def note(self, place):
        """Notes what the shards of a server placed and closed in this step."""
        server = self.running.get(place)
        for shard in server.shards if server else []:
            for source, sub, queue, takes_headers in shard.placed:
                self.placed.append(Placed(self.step, source, place, sub.conn, sub.sid, queue, takes_headers))
            for sub in shard.closed:
                self.lives[place, server.inc, shard.number, sub.serial].closed = self.step
            shard.placed, shard.closed = [], []

    def place_of(self, name):
        return self.names.index(name) if name in self.names else None

    def server(self, place):
        refuse_if(place is None, 83)
        refuse_if(place not in self.running, 80)
        return self.running[place]

    def frame(self, number, kinds):
        refuse_if(not 1 <= number <= len(self.frames), 83)
        frame = self.frames[number - 1]
        refuse_if((frame.kind if not frame.is_numbered() else "numbered") != kinds, 83)
        return frame

    # ---- events, by their words

    def on_start(self, place, members):
        refuse_if(place is None, 83)
        refuse_if(place in self.running, 81)
        refuse_if((place, members["inc"]) in self.used, 82)
        self.used.add((place, members["inc"]))
        self.running[place] = Server(place, len(self.names), self.shards, members["inc"])
        return "ok"

    def on_stop(self, place, members):
        server = self.server(place)
        for life in self.lives.values():
            if (life.place, life.inc, life.closed) == (place, server.inc, None):
                life.closed = self.step
        del self.running[place]
        return "ok"

    def on_attach(self, place, members):
        return f"conn {self.server(place).shard(members.get('shard', 1)).attach()}"

    def on_sub(self, place, members):
        server, conn = self.server(place), members["conn"]
        shard = server.shard_of(conn)
        pattern, queue, sid = members["pattern"], members.get("queue"), members["sid"]
        sub = shard.subscribe(conn, pattern, queue, sid)
        if sub is None:
            return "same"
        self.lives[place, server.inc, shard.number, sub.serial] = Life(place, server.inc, conn, pattern, queue, sid, self.step)
        return f"sub {shard.number}.{sub.serial}"

    def on_unsub(self, place, members):
        self.server(place).shard_of(members["conn"]).unsubscribe(members["conn"], members["sid"], members.get("max"))
        return "ok"

    def on_headers(self, place, members):
        self.server(place).shard_of(members["conn"]).set_headers(members["conn"], members["on"])
        return "ok"

    def on_detach(self, place, members):
        self.server(place).shard_of(members["conn"]).detach(members["conn"])
        return "ok"

    def on_publish(self, place, members):
        server = self.server(place)
        message, echo = message_of(members), members.get("echo", True)
        turn, frames = server.publish(members["conn"], message, echo, members["word"])
        self.publications[place, server.inc, server.published] = Publication(self.step, message, members["conn"], echo)
        self.frames += frames
        return f"turn {turn} frames {len(frames)}"

    def on_receive(self, place, members):
        server = self.server(place)
        return server.receive(self.frame(members["frame"], "numbered"))

    def on_collect(self, place, members):
        changes, frames = self.server(place).collect(members["shard"])
        self.frames += frames
        return f"changes {changes} frames {len(frames)}"

    def on_drain(self, place, members):
        changes, frames = self.server(place).drain()
        self.frames += frames
        return f"changes {changes} frames {len(frames)}"

    def on_drainshard(self, place, members):
        self.server(place).shard(members["shard"]).drain()
        return "ok"

    def on_begin(self, place, members):
        placed, shut = self.server(place).shard(members["shard"]).begin()
        return f"placed {placed} closed {shut}"

    def on_claim(self, place, members):
        server = self.server(place)
        return server.shard(members["shard"]).claim(members["index"], server.won)

    def on_end(self, place, members):
        self.server(place).shard(members["shard"]).end()
        return "ok"

    def on_drop(self, place, members):
        self.server(place).shard(members["shard"]).drop()
        return "ok"

    def on_dial(self, place, members):
        return f"session {self.server(place).dial(self.place_of(members['peer']))}"

    def on_accept(self, place, members):
        session, info = self.server(place).accept()
        self.frames.append(info)
        return f"session {session}"

    def kept(self, old, frames):
        self.frames += frames
        return "kept" if old is None else f"kept instead of {old}"

    def on_info(self, place, members):
        server = self.server(place)
        return self.kept(*server.on_info(members["session"], self.frame(members["frame"], "INFO")))

    def on_connect(self, place, members):
        server = self.server(place)
        return self.kept(*server.on_connect(members["session"], self.frame(members["frame"], "CONNECT")))

    def on_cut(self, place, members):
        self.server(place).cut(members["session"])
        return "ok"

    def on_take(self, place, members):
        server = self.server(place)
        if "conn" in members:
            return f"took {server.shard_of(members['conn']).take(members['conn'], members['n'])}"
        return f"took {server.take_frames(self.place_of(members['peer']), members['n'])}"

    # ---- what is written

    def placed_lines(self):
        for placed in self.placed:
            origin, inc, number = placed.source
            mode = "-" if placed.queue is None else f"={placed.queue}"
            yield f"placed {placed.step} {self.names[origin]} {inc} {number} {self.names[placed.place]} {placed.conn} {placed.sid} {mode}"

    def text(self):
        """All that is written of the steps so far."""
        return "".join(line + "\n" for line in [*self.lines, *self.placed_lines(), f"end {self.step} {len(self.placed)}"])
