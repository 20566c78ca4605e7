"""Drawn streams of one client for `nats_mesh pipe`, and what has to be written of each, byte for byte (docs/PROTOCOL.md, docs/PROMISES.md).

The commands are drawn as values, and how they are spelt is drawn beside: the model never reads a line.
"""
import json
from dataclasses import dataclass, replace

from .judge import Flaw
from .moves import BLOCKS, PATTERNS, QUEUES, REPLIES, SUBJECTS, Draw
from .shard import Shard
from .values import HEADER_START, OUTBOX_ENTRIES, QUEUE_NAMES, SLOW_CONSUMER, Job, Message, Refused, is_match, size_of

OTHER_BYTES = "the bytes are not what the pages say"

# How many commands a stream has.
COMMANDS = 60

BAD_NAMES = ["foo.", ".foo", "a..b", ">.a", "."]
PAYLOADS = ["", "hello", "\r\n", "MSG foo 1 2\r\nhi\r\n", "Grüße", "x" * 5_000, "y" * 70_000]

# What stands in the place of a header block, and is none.
BAD_BLOCKS = ["", "NATS", "NATS/1.", "nats/1.0\r\n\r\n", "NATS/1.1\r\n\r\n", " NATS/1.0\r\n\r\n", "\r\n", "A: b\r\n\r\n"]

# Lines that close the connection, and what is told of them.
CLOSING = [
    ("FOO", "Unknown Protocol Operation"), ("", "Unknown Protocol Operation"), (" PING", "Unknown Protocol Operation"),
    ("SUB foo", "Parser Error"), ("SUB foo q 1 2", "Parser Error"), ("PUB foo five", "Parser Error"), ("PUB foo 00000000005", "Parser Error"),
    ("UNSUB", "Parser Error"), ("UNSUB 1 x", "Parser Error"), ("CONNECT", "Parser Error"), ("CONNECT {\"echo\":1}", "Parser Error"),
    ("CONNECT {\"headers\":1}", "Parser Error"), ("CONNECT {\"headers\":null}", "Parser Error"), ("CONNECT []", "Parser Error"),
    ("PUB foo 2\r\nhixx", "Parser Error"), ("PUB foo 1048577", "Maximum Payload Violation"),
    ("PING" + " " * 4_093, "Maximum Control Line Exceeded"), ("HPUB foo", "Parser Error"), ("HPUB foo 12", "Parser Error"),
    ("HPUB foo r 12 14 1", "Parser Error"), ("HPUB foo 21 20", "Parser Error"), ("HPUB foo x 20", "Parser Error"), ("HPUB foo 12 twenty", "Parser Error"),
    ("HPUB foo 00000000012 14", "Parser Error"), ("HPUB foo 1048578 1048577", "Parser Error"),
    ("HPUB foo 12 14\r\nNATS/1.0\r\n\r\nhixx", "Parser Error"), ("HPUB foo.* 4 6\r\nNATShixx", "Parser Error"),
    ("HPUB foo 12 1048577", "Maximum Payload Violation"),
]


@dataclass(frozen=True)
class Headed:
    """A message with headers that the client gets: its place among the answers, the message, and the id of the subscription that it is for; whether the
    client takes headers, and whether the last CONNECT that had this option turned it on."""

    at: int
    message: Message
    sid: str
    takes_headers: bool
    took_headers: bool


class Client:
    """The model of the one client: its options, and its server of one shard."""

    def __init__(self):
        self.shard = Shard(1, 1)
        self.conn = self.shard.attach()
        self.is_verbose, self.has_echo, self.turn, self.is_closed = True, True, 0, False
        # What the last CONNECT said of headers that said anything of them.
        self.took_headers = False
        # What has to be written behind INFO, answer by answer, and each message with headers among them.
        self.pieces, self.headed = [], []

    def put(self, text):
        self.pieces.append(text)

    def confirm(self):
        if self.is_verbose:
            self.put("+OK\r\n")

    def complain(self, text, closes=False):
        self.put(f"-ERR '{text}'\r\n")
        self.is_closed = closes

    def connect(self, verbose, echo, headers):
        """A CONNECT with these options; one that is left out is None. Each CONNECT chooses all of them."""
        self.is_verbose, self.has_echo = verbose is not False, echo is not False
        self.confirm()
        self.shard.set_headers(self.conn, headers is True)
        self.took_headers = self.took_headers if headers is None else headers

    def subscribe(self, pattern, queue, sid):
        self.confirm()
        try:
            self.shard.subscribe(self.conn, pattern, queue, sid)
        except Refused:
            self.complain("Too Many Subscriptions")

    def unsubscribe(self, sid, maximum):
        self.confirm()
        self.shard.unsubscribe(self.conn, sid, maximum)

    def publish(self, message):
        self.confirm()
        names = sorted({sub.queue for sub in self.shard.subs if sub.queue is not None and is_match(sub.pattern, message.subject)}, key=str.encode)
        if len(names) > QUEUE_NAMES:
            self.complain("Too Many Queue Groups")
            return
        self.turn += 1
        self.shard.waiting.append(Job(self.turn, ("n1", 1, self.turn), message, self.conn, self.has_echo, tuple(names)))
        _, shut = self.shard.begin()
        for index in range(0 if shut else len(names)):
            self.shard.claim(index, set())
        for _, sub, _, takes_headers in self.shard.placed:
            if message.headers is not None:
                self.headed.append(Headed(len(self.pieces), message, sub.sid, takes_headers, self.took_headers))
            self.put(message.text_for(sub.sid, takes_headers))
        self.shard.placed = []
        if shut:
            self.put(SLOW_CONSUMER)
            self.is_closed = True
        else:
            self.shard.end()
            self.shard.take(self.conn, len(self.shard.outboxes[self.conn].entries))


def info_of(line):
    """What a line tells as INFO; nothing where it is none."""
    word, _, text = line.partition(" ")
    try:
        told = json.loads(text)
    except ValueError:
        return {}
    return told if word == "INFO" and isinstance(told, dict) else {}


class Stream:
    """A stream that was drawn: its bytes, and what has to be written of it."""

    def __init__(self, seed):
        self.seed, self.draw, self.client = seed, Draw(f"stream {seed}"), Client()
        self.lines = []
        if self.draw.is_one_in(2):
            self.draw_connect()
        if self.draw.is_one_in(40):
            self.draw_many(OUTBOX_ENTRIES + 1, None)
        elif self.draw.is_one_in(40):
            self.draw_many(QUEUE_NAMES + 1, "q")
        for _ in range(COMMANDS):
            self.draw_command()
        self.text = "".join(self.lines).encode()
        self.wanted = "".join(self.client.pieces)
        self.status = 1 if self.client.is_closed else 0

    # ---- spelling

    def say(self, word, *fields):
        """A line: the word in any case, and blanks between its fields and behind them."""
        if not self.draw.is_one_in(4):
            word = word.lower() if self.draw.is_one_in(2) else word.title()
        blank = self.draw.one_of([" ", " ", " ", "  ", "\t"])
        self.lines.append(blank.join([word, *fields]) + self.draw.one_of(["", "", " "]) + "\r\n")

    def digits(self, number):
        return str(number).zfill(self.draw.one_of([1, 1, 1, 4, 10]))

    def say_publication(self, message):
        """A PUB, or an HPUB where there are headers: the size of these, and that of all that follows the line."""
        whole = (message.headers or "") + message.payload
        sizes = [] if message.headers is None else [self.digits(size_of(message.headers))]
        fields = [message.subject, *([] if message.reply is None else [message.reply]), *sizes, self.digits(size_of(whole))]
        self.say("PUB" if message.headers is None else "HPUB", *fields)
        self.lines.append(whole + "\r\n")

    # ---- commands

    def draw_many(self, count, queue):
        """More subscriptions than one publication may have."""
        for number in range(count):
            name = f"{queue}{number}" if queue else None
            self.say("SUB", "foo", *([name] if name else []), str(100 + number))
            self.client.subscribe("foo", name, str(100 + number))

    def draw_command(self):
        if self.client.is_closed:
            self.say("PING")
            return
        which = self.draw.below(40)
        if which < 3:
            self.draw_connect()
        elif which < 12:
            self.draw_sub()
        elif which < 16:
            self.draw_unsub()
        elif which < 36:
            self.draw_pub()
        else:
            self.draw_other()

    def draw_connect(self):
        verbose, echo = self.draw.one_of([None, True, False]), self.draw.one_of([None, None, True, False])
        headers = self.draw.one_of([None, True, True, False])
        members = [("verbose", verbose), ("lang", "none"), ("headers", headers), ("echo", echo)]
        self.say("CONNECT", json.dumps({name: value for name, value in members if value is not None}))
        self.client.connect(verbose, echo, headers)

    def draw_sub(self):
        queue, sid = self.draw.one_of(QUEUES), str(self.draw.up_to(8))
        pattern = self.draw.one_of(PATTERNS) if not self.draw.is_one_in(12) else self.draw.one_of(BAD_NAMES)
        self.say("SUB", pattern, *([queue] if queue else []), sid)
        if pattern in BAD_NAMES:
            self.client.complain("Invalid Subject")
        else:
            self.client.subscribe(pattern, queue, sid)

    def draw_unsub(self):
        sid = str(self.draw.up_to(8))
        maximum = self.draw.below(5) if self.draw.is_one_in(2) else None
        self.say("UNSUB", sid, *([] if maximum is None else [self.digits(maximum)]))
        self.client.unsubscribe(sid, maximum)

    def draw_block(self):
        """What stands in the place of a header block: most often nothing, and now and then what is none. A block may end anywhere behind its
        beginning: what is left of it then belongs to the payload. Tells both."""
        if not self.draw.is_one_in(3):
            return None, ""
        if self.draw.is_one_in(6):
            return self.draw.one_of(BAD_BLOCKS), ""
        block = self.draw.one_of(BLOCKS)
        end = len(block) if not self.draw.is_one_in(4) else len(HEADER_START) + self.draw.below(len(block) - len(HEADER_START) + 1)
        return block[:end], block[end:]

    def draw_pub(self):
        subject, reply = self.draw.one_of(SUBJECTS), self.draw.one_of(REPLIES)
        headers, rest = self.draw_block()
        payload = rest + (self.draw.one_of(PAYLOADS) if self.draw.is_one_in(2) else str(len(self.lines)))
        is_bad = self.draw.is_one_in(16)
        if is_bad and self.draw.is_one_in(2):
            subject = self.draw.one_of(BAD_NAMES + ["foo.*", ">"])
        elif is_bad:
            reply = self.draw.one_of(BAD_NAMES + ["*"])
        message = Message(subject, reply, headers, payload)
        self.say_publication(message)
        if is_bad:
            self.client.complain("Invalid Subject")
        elif headers is not None and not headers.startswith(HEADER_START):
            self.client.complain("Bad Headers")
        else:
            self.client.publish(message)

    def draw_other(self):
        which = self.draw.below(20)
        if which < 10:
            self.say("PING", *(["more"] if which < 2 else []))
            self.client.put("PONG\r\n")
        elif which < 18:
            self.say("PONG")
        else:
            line, text = self.draw.one_of(CLOSING)
            self.lines.append(line + "\r\n")
            self.client.complain(text, closes=True)

    # ---- judging

    def flaws_in(self, text):
        """What is wrong with what was written."""
        info, _, rest = text.partition("\r\n")
        told = info_of(info)
        if told.get("max_payload") != 1_048_576 or told.get("headers") is not True:
            yield Flaw(OTHER_BYTES, f"no INFO of such a server comes first, but {info[:200]!r}")
        if rest != self.wanted:
            at = next((at for at, (one, other) in enumerate(zip(rest, self.wanted)) if one != other), min(len(rest), len(self.wanted)))
            yield Flaw(OTHER_BYTES, f"behind {at} characters: {rest[at:at + 60]!r} (by the pages: {self.wanted[at:at + 60]!r})")


# ---- what is planted

# How many fields the line of a message with a reply has, by its word.
FIELDS_WITH_REPLY = {"MSG": 5, "HMSG": 6}


def message_at(stream):
    """The place of the first message with a payload, and the message."""
    found = [(at, piece) for at, piece in enumerate(stream.client.pieces) if piece.partition(" ")[0] in FIELDS_WITH_REPLY]
    return next(((at, piece) for at, piece in found if not piece.endswith("\r\n\r\n")), None)


def with_pieces(stream, info, changed):
    """What was written, with other answers at these places."""
    return info + "".join(changed.get(at, piece) for at, piece in enumerate(stream.client.pieces))


def with_piece(stream, info, at, *pieces):
    return with_pieces(stream, info, {at: "".join(pieces)})


def payload_changed(stream, info):
    found = message_at(stream)
    return found and with_piece(stream, info, found[0], found[1][:-3] + chr(ord(found[1][-3]) ^ 1) + "\r\n")


def message_twice(stream, info):
    found = message_at(stream)
    return found and with_piece(stream, info, found[0], found[1], found[1])


def message_lost(stream, info):
    found = message_at(stream)
    return found and with_piece(stream, info, found[0])


def other_id(stream, info):
    found = message_at(stream)
    if not found:
        return None
    word, subject, sid, rest = found[1].split(" ", 3)
    return with_piece(stream, info, found[0], f"{word} {subject} 9{sid} {rest}")


def reply_lost(stream, info):
    for at, piece in enumerate(stream.client.pieces):
        fields = piece.partition("\r\n")[0].split(" ")
        if FIELDS_WITH_REPLY.get(fields[0]) == len(fields):
            return with_piece(stream, info, at, " ".join([*fields[:3], *fields[4:]]) + "\r\n" + piece.partition("\r\n")[2])
    return None


def first_headed(stream, takes_headers):
    """The first message with headers while the client takes them, or while it takes none; none where there is none."""
    return next((headed for headed in stream.client.headed if headed.takes_headers == takes_headers), None)


def untaken_headers(stream, info):
    headed = first_headed(stream, False)
    return headed and with_piece(stream, info, headed.at, headed.message.text_for(headed.sid, True))


def taken_headers_left_out(stream, info):
    headed = first_headed(stream, True)
    return headed and with_piece(stream, info, headed.at, headed.message.text_for(headed.sid, False))


def block_in_payload(stream, info):
    """The first MSG of a message with headers has them before its payload."""
    headed = first_headed(stream, False)
    if not headed:
        return None
    message = replace(headed.message, payload=headed.message.headers + headed.message.payload)
    return with_piece(stream, info, headed.at, message.text_for(headed.sid, False))


def option_kept(stream, info):
    """A CONNECT without the option does not turn it off."""
    kept = [headed for headed in stream.client.headed if headed.took_headers and not headed.takes_headers]
    return with_pieces(stream, info, {headed.at: headed.message.text_for(headed.sid, True) for headed in kept}) if kept else None


def size_of_payload_alone(stream, info):
    """The last size of the first HMSG counts the payload alone."""
    headed = first_headed(stream, True)
    if not headed:
        return None
    line, _, rest = stream.client.pieces[headed.at].partition("\r\n")
    return with_piece(stream, info, headed.at, f"{line.rpartition(' ')[0]} {size_of(headed.message.payload)}\r\n{rest}")


def info_without_headers(stream, info):
    return f"INFO {json.dumps({**info_of(info), 'headers': False})}\r\n{stream.wanted}"


def bad_headers_taken(stream, info):
    """What is no header block is confirmed."""
    at = next((at for at, piece in enumerate(stream.client.pieces) if piece == "-ERR 'Bad Headers'\r\n"), None)
    return None if at is None else with_piece(stream, info, at, "+OK\r\n")


def confirmed_twice(stream, info):
    at = next((at for at, piece in enumerate(stream.client.pieces) if piece.startswith("+OK")), None)
    return None if at is None else with_piece(stream, info, at, "+OK\r\n", "+OK\r\n")


PLANTS = [
    ("the payload of a message is changed", payload_changed),
    ("a message comes twice", message_twice),
    ("a message does not come", message_lost),
    ("a message has the id of another subscription", other_id),
    ("the reply of a message is left out", reply_lost),
    ("a client that takes no headers gets HMSG", untaken_headers),
    ("a client that takes headers gets MSG", taken_headers_left_out),
    ("a MSG has the header block before its payload", block_in_payload),
    ("a client takes headers still behind a CONNECT that does not say so", option_kept),
    ("the last size of an HMSG is that of the payload alone", size_of_payload_alone),
    ("INFO tells of no headers", info_without_headers),
    ("what is no header block is confirmed", bad_headers_taken),
    ("a command is confirmed twice", confirmed_twice),
]
