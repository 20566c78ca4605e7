"""What the parts of the model share: limits, matching, and the values that they hand to each other (docs/PROTOCOL.md)."""
from dataclasses import dataclass, field

# How many servers a cluster may have, and how many shards each.
SERVERS = 16
SHARDS = 16

# How many turns a shard may be behind, and how many queue names a publication may have.
WINDOW = 128
QUEUE_NAMES = 64

# What may wait for a connection, and for a peer.
OUTBOX_ENTRIES = 1_024
OUTBOX_BYTES = 8_388_608
ROUTE_FRAMES = 1_024

# What a server's shards share: subscriptions, and their bytes, of which each counts so many more than its pattern and queue name have.
SUBSCRIPTIONS = 65_536
SUBSCRIPTION_BYTES = 4_194_304
SUBSCRIPTION_COST = 24

# How many sessions stand at a server.
SESSIONS = 64

# What a header block begins with.
HEADER_START = "NATS/1.0"

SLOW_CONSUMER = "-ERR 'Slow Consumer'\r\n"


class Refused(Exception):
    """An event is refused by this number."""

    def __init__(self, number):
        super().__init__(number)
        self.number = number


def refuse_if(is_refused, number):
    if is_refused:
        raise Refused(number)


def is_match(pattern, subject):
    """Whether the pattern matches: `*` stands for one token, and `>` at the end for one or more."""
    wanted, given = pattern.split("."), subject.split(".")
    if wanted[-1] == ">":
        wanted = wanted[:-1]
        if len(given) <= len(wanted):
            return False
        given = given[:len(wanted)]
    return len(wanted) == len(given) and all(mine in ("*", other) for mine, other in zip(wanted, given))


def size_of(text):
    """How many bytes a text has."""
    return len(text.encode())


@dataclass(frozen=True)
class Message:
    subject: str
    reply: str | None
    # A header block, which begins with HEADER_START; none where the message has no headers.
    headers: str | None
    payload: str

    def text_for(self, sid, takes_headers):
        """The message for a subscription of this id: HMSG where there are headers and its connection takes them, and else MSG, with the payload alone."""
        block = self.headers if takes_headers else None
        reply = f"{self.reply} " if self.reply is not None else ""
        if block is None:
            return f"MSG {self.subject} {sid} {reply}{size_of(self.payload)}\r\n{self.payload}\r\n"
        body = block + self.payload
        return f"HMSG {self.subject} {sid} {reply}{size_of(block)} {size_of(body)}\r\n{body}\r\n"


@dataclass(frozen=True)
class Job:
    """A publication as the shards of one server work it off: its turn there, who published it, and the queue names that the server serves."""

    turn: int
    source: tuple
    message: Message
    publisher: int | None
    echo: bool
    queues: tuple


@dataclass
class Sub:
    """A subscription of a shard."""

    serial: int
    conn: int
    pattern: str
    queue: str | None
    sid: str
    delivered: int = 0
    maximum: int | None = None

    @property
    def key(self):
        return (self.pattern, self.queue)

    def is_at_end(self):
        return self.maximum is not None and self.delivered >= self.maximum


@dataclass(frozen=True)
class Frame:
    """A frame between servers, of any kind: INFO, CONNECT, RSS (a snapshot), RS+, RS- or RMSG. Servers stand by their places."""

    kind: str
    sender: int
    inc: int
    to: int | None = None
    to_inc: int | None = None
    number: int = 0
    # A snapshot's keys with their weights, a change's key and weight, a message with its queue names, a CONNECT's serial.
    body: object = None

    def is_numbered(self):
        return self.kind not in ("INFO", "CONNECT")


@dataclass
class Outbox:
    """What waits for a connection, as the sizes of its entries; and whether the connection takes headers."""

    entries: list = field(default_factory=list)
    is_shut: bool = False
    takes_headers: bool = False

    def size_for(self, message, sid):
        """How many bytes the message has for a subscription of this id."""
        return size_of(message.text_for(sid, self.takes_headers))

    def has_room(self, size):
        return not self.is_shut and len(self.entries) < OUTBOX_ENTRIES and sum(self.entries) + size <= OUTBOX_BYTES

    def take(self, count):
        taken = len(self.entries[:count])
        del self.entries[:count]
        return taken
