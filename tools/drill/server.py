"""The model of a server: its sessions, its hub, and its shards (docs/PROTOCOL.md, "What servers do with each other's frames"; docs/SCRIPTS.md has the
order in which the frames of one event are sent)."""
from dataclasses import dataclass, field

from .shard import Shard
from .values import QUEUE_NAMES, ROUTE_FRAMES, SESSIONS, WINDOW, Frame, Job, is_match, refuse_if


@dataclass
class Session:
    """A session with another server: of which one it was dialed for (none where it was accepted), and what is kept by it."""

    number: int
    dialed: int | None
    serial: int
    peer: int | None = None
    # How good it is, once it is kept: greater is better.
    rank: tuple = ()


@dataclass
class Peer:
    """What a hub knows of another server: its greatest incarnation that was seen, and of that one what was taken and what it told."""

    seen: int = 0
    mark: int = 0
    heard: int = 0
    keys: dict = field(default_factory=dict)
    is_up: bool = False
    outbox: list = field(default_factory=list)

    def see(self, inc):
        """Tells whether this is a life that was not seen before: then what was known is forgotten."""
        if inc <= self.seen:
            return False
        self.seen, self.mark, self.heard, self.keys, self.is_up = inc, 0, 0, {}, False
        return True

    def has_room(self, count=1):
        return len(self.outbox) + count <= ROUTE_FRAMES


def names_in(keys, subject):
    return {queue for pattern, queue in keys if queue is not None and is_match(pattern, subject)}


def weight_in(keys, subject, name):
    return sum(weight for (pattern, queue), weight in keys.items() if queue == name and is_match(pattern, subject))


def told_of(keys):
    """The keys as peers count them: one without a queue name once."""
    return {key: weight if key[1] is not None else 1 for key, weight in keys.items()}


class Server:
    """A server that is up: its place in the list of so many servers, and its incarnation."""

    def __init__(self, place, servers, shards, inc):
        self.place, self.inc = place, inc
        self.shards = [Shard(number, shards) for number in range(1, shards + 1)]
        self.peers = {other: Peer() for other in range(servers) if other != place}
        self.sessions, self.last_session, self.dials = {}, 0, 0
        self.counts, self.changed, self.published, self.issued = {}, 0, 0, 0
        self.is_draining = False
        self.won = set()

    # ---- which shard

    def shard(self, number):
        refuse_if(not 1 <= number <= len(self.shards), 58)
        return self.shards[number - 1]

    def shard_of(self, conn):
        refuse_if(conn == 0, 50)
        return self.shards[(conn - 1) % len(self.shards)]

    # ---- sessions

    def new_session(self, dialed, serial):
        refuse_if(len(self.sessions) >= SESSIONS, 74)
        self.last_session += 1
        self.sessions[self.last_session] = Session(self.last_session, dialed, serial)
        return self.last_session

    def dial(self, peer):
        refuse_if(peer not in self.peers, 70)
        session = self.new_session(peer, self.dials + 1)
        self.dials += 1
        return session

    def accept(self):
        return self.new_session(None, 0), Frame("INFO", self.place, self.inc)

    def kept_for(self, peer):
        return next((session for session in self.sessions.values() if session.peer == peer), None)

    def knows(self, place, other):
        """Whether the other server is known as it runs: a session with its incarnation is kept, it is up, its open subscriptions are known, and
        there is room for a frame to it."""
        session, peer = self.kept_for(place), self.peers[place]
        if session is None or session.rank[0] != other.inc or not peer.is_up or peer.seen != other.inc or not peer.has_room():
            return False
        return told_of(peer.keys) == told_of(other.open_keys())

    def open_keys(self):
        """The keys of the open subscriptions, each with their number."""
        keys = {}
        for shard in self.shards:
            for sub in shard.subs:
                keys[sub.key] = keys.get(sub.key, 0) + 1
        return keys

    def unkept(self, number):
        session = self.sessions.get(number)
        refuse_if(session is None or session.peer is not None, 73)
        return session

    def keep(self, session, peer, inc, rank):
        """The session is kept, and the peer comes up; tells the number of the session that was kept before, and the snapshot."""
        old = self.kept_for(peer)
        refuse_if(old is not None and old.rank >= rank, 72)
        if old is not None:
            del self.sessions[old.number]
        session.peer, session.rank = peer, rank
        known = self.peers[peer]
        known.see(inc)
        known.is_up = True
        snapshot = Frame("RSS", self.place, self.inc, peer, inc, self.changed, {} if self.is_draining else dict(self.counts))
        known.outbox = [snapshot]
        return old.number if old else None, snapshot

    def on_info(self, number, info):
        session = self.unkept(number)
        refuse_if(session.dialed is None, 73)
        refuse_if(info.sender != session.dialed, 70)
        refuse_if(info.inc < self.peers[info.sender].seen, 71)
        old, snapshot = self.keep(session, info.sender, info.inc, (info.inc, -self.place, session.serial))
        return old, [Frame("CONNECT", self.place, self.inc, info.sender, info.inc, body=session.serial), snapshot]

    def on_connect(self, number, connect):
        session = self.unkept(number)
        refuse_if(session.dialed is not None, 73)
        refuse_if(connect.to != self.place or connect.sender not in self.peers, 70)
        refuse_if(connect.inc < self.peers[connect.sender].seen or connect.to_inc != self.inc, 71)
        old, snapshot = self.keep(session, connect.sender, connect.inc, (connect.inc, -connect.sender, connect.body))
        return old, [snapshot]

    def cut(self, number):
        refuse_if(number not in self.sessions, 73)
        session = self.sessions.pop(number)
        if session.peer is not None:
            self.peers[session.peer].is_up = False

    def end_session_with(self, peer):
        kept = self.kept_for(peer)
        if kept:
            del self.sessions[kept.number]
        self.peers[peer].is_up = False

    # ---- telling

    def count(self, key, is_opening):
        """What peers are told of an opening or a closing: the key and its weight now, 0 where it is gone; none where they are told nothing."""
        before = self.counts.get(key, 0)
        now = before + 1 if is_opening else before - 1
        if now:
            self.counts[key] = now
        else:
            del self.counts[key]
        return (key, now) if key[1] is not None or 0 in (before, now) else None

    def collect(self, number):
        shard = self.shard(number)
        changes = [change for change in (self.count(*delta) for delta in shard.deltas) if change]
        shard.deltas = []
        return self.tell([] if self.is_draining else changes)

    def drain(self):
        refuse_if(self.is_draining, 59)
        self.is_draining = True
        return self.tell([None])

    def tell(self, changes):
        """Numbers the changes and sends each to the peers that are up; none stands for the one that clears."""
        up = {place: peer for place, peer in self.peers.items() if peer.is_up}
        for place, peer in up.items():
            if not peer.has_room(len(changes)):
                self.end_session_with(place)
        frames = []
        for change in changes:
            self.changed += 1
            for place, peer in up.items():
                if peer.is_up:
                    kind = "RSS" if change is None else "RS+" if change[1] else "RS-"
                    body = {} if change is None else change
                    frames.append(self.send(Frame(kind, self.place, self.inc, place, peer.seen, self.changed, body)))
        return len(changes), frames

    def send(self, frame):
        self.peers[frame.to].outbox.append(frame)
        return frame

    # ---- publishing

    def check_window(self):
        refuse_if(any(shard.finished + WINDOW <= self.issued for shard in self.shards), 60)

    def eligible(self):
        return {place: peer for place, peer in self.peers.items() if peer.is_up and peer.has_room()}

    def server_for(self, name, subject, word):
        """The place of the server that serves the queue name."""
        row = []
        keys = {place: peer.keys for place, peer in self.eligible().items()}
        keys[self.place] = self.counts
        for place in sorted(keys):
            row += [place] * weight_in(keys[place], subject, name)
        return row[word % len(row)]

    def publish(self, conn, message, echo, word):
        self.check_window()
        eligible = self.eligible()
        names = names_in(self.counts, message.subject).union(*(names_in(peer.keys, message.subject) for peer in eligible.values()))
        refuse_if(len(names) > QUEUE_NAMES, 61)
        chosen = {name: self.server_for(name, message.subject, word) for name in sorted(names, key=str.encode)}
        self.published += 1
        frames = []
        for place, peer in eligible.items():
            served = tuple(name for name in chosen if chosen[name] == place)
            has_plain = any(queue is None and is_match(pattern, message.subject) for pattern, queue in peer.keys)
            if served or has_plain:
                frames.append(self.send(Frame("RMSG", self.place, self.inc, place, peer.seen, self.published, (message, served))))
        own = tuple(name for name in chosen if chosen[name] == self.place)
        self.issue(self.last_publication(), message, conn, echo, own)
        return self.issued, frames

    def last_publication(self):
        return self.place, self.inc, self.published

    def issue(self, source, message, publisher, echo, queues):
        self.issued += 1
        for shard in self.shards:
            shard.waiting.append(Job(self.issued, source, message, publisher, echo, queues))

    # ---- taking

    def receive(self, frame):
        """`turn` or `view`, with its number."""
        refuse_if(frame.to != self.place, 63)
        refuse_if(frame.to_inc != self.inc, 64)
        refuse_if(frame.sender not in self.peers, 65)
        peer = self.peers[frame.sender]
        refuse_if(frame.inc < peer.seen, 66)
        is_new = frame.inc > peer.seen
        mark, heard = (0, 0) if is_new else (peer.mark, peer.heard)
        if frame.kind == "RMSG":
            refuse_if(frame.number <= mark, 67)
            self.check_window()
        elif frame.kind == "RSS":
            refuse_if(frame.number < heard, 67)
        else:
            refuse_if(frame.number <= heard, 67)
            refuse_if(frame.number > heard + 1, 68)
        if is_new:
            self.end_session_with(frame.sender)
            peer.see(frame.inc)
        return self.take_frame(peer, frame)

    def take_frame(self, peer, frame):
        if frame.kind == "RMSG":
            peer.mark = frame.number
            message, queues = frame.body
            self.issue((frame.sender, frame.inc, frame.number), message, None, True, queues)
            return f"turn {self.issued}"
        peer.heard = frame.number
        if frame.kind == "RSS":
            peer.keys = dict(frame.body)
        elif frame.kind == "RS+":
            key, weight = frame.body
            peer.keys[key] = weight
        else:
            peer.keys.pop(frame.body[0])
        return f"view {frame.number}"

    def take_frames(self, peer, count):
        refuse_if(peer not in self.peers, 65)
        outbox = self.peers[peer].outbox
        taken = len(outbox[:count])
        del outbox[:count]
        return taken
