"""Drawn lists of steps: what each begins with, and moves behind that."""
import json

from .moves import BLOCKS, QUEUES, Draw, Moves
from .values import OUTBOX_BYTES, OUTBOX_ENTRIES, QUEUE_NAMES, ROUTE_FRAMES, SERVERS, SESSIONS, SHARDS, WINDOW, Message, size_of

# The names of as many servers as a cluster may have.
NAMES = [[f"n{number}" for number in range(1, SERVERS + 1)], ["b", "a", "Z-1", "x_2", "0"] + [f"y{number}" for number in range(SERVERS - 5)]]

# How many servers, and how many shards of each, most lists have at most.
FEW_SERVERS, FEW_SHARDS = 5, 4

# How many changes of interest a hub is told at once at least, where it is told of many.
CHANGES = 40

# How many events a list has at least that is not ended by its beginning; the last move may add a few.
EVENTS = 300


class Script:
    """A list that was drawn: its steps, the bytes of the script, and the model's cluster behind them."""

    def __init__(self, seed, moves, kind):
        self.seed, self.kind, self.steps, self.cluster = seed, kind, moves.steps, moves.cluster
        # Whether a cluster that was brought to rest is at rest; none of another list.
        self.is_at_rest = None
        self.text = text_of(moves.cluster.names, moves.cluster.shards, moves.steps)
        # The lines that have to be written.
        self.wanted = moves.cluster.text().split("\n")[:-1]


def text_of(names, shards, steps):
    return json.dumps({"nodes": names, "shards": shards, "steps": steps}, separators=(",", ":"), ensure_ascii=False).encode()


# ---- beginnings

def blind(_):
    """All servers are down."""


def open_servers(moves):
    """Servers that are up and joined, with connections."""
    for node in moves.cluster.names:
        moves.start(node)
        for _ in range(3):
            moves.attach(node)
    for place, node in enumerate(moves.cluster.names):
        for peer in moves.cluster.names[place + 1:]:
            moves.join(node, peer)


def open_many(moves):
    """The same, up to as many servers and shards as there may be."""
    open_servers(moves)


def joined(moves):
    """The first two servers are up and have heard each other; each has a connection at its first shard."""
    for node in moves.cluster.names[:2]:
        moves.ask("start", node, inc=1)
        moves.ask("attach", node)
    if len(moves.cluster.names) > 1:
        moves.ask("join", moves.cluster.names[0], peer=moves.cluster.names[1])
        moves.hear_all()


def fill_outbox(moves):
    """More messages for one connection than may wait for it."""
    joined(moves)
    node = moves.cluster.names[0]
    for sid in range(60):
        moves.ask("sub", node, conn=1, pattern="foo", sid=str(sid), queue="q" if sid % 10 == 9 else None)
    for count in range(OUTBOX_ENTRIES // 54 + 2):
        moves.ask("publish", node, conn=1, subject="foo", payload=str(count), word=0)
        moves.work_off(node)


def fill_bytes(moves):
    """More bytes for one connection than may wait for it."""
    joined(moves)
    node, count = moves.cluster.names[0], moves.draw.up_to(3)
    moves.ask("headers", node, conn=1, on=moves.draw.is_one_in(2))
    for sid in range(20):
        moves.ask("sub", node, conn=1, pattern="foo", sid=str(sid), queue="q" if sid == 15 else None)
    for _ in range(count):
        payload = "x" * (900_000 // count - moves.draw.below(9))
        moves.ask("publish", node, conn=1, subject="foo", headers=moves.headers(), payload=payload, word=0)
        moves.work_off(node)


def fill_last_bytes(moves):
    """A publication with headers, of which one form needs about as many bytes as are left for a connection; which form the connection gets is drawn."""
    joined(moves)
    node = moves.cluster.names[0]
    moves.ask("headers", node, conn=1, on=moves.draw.is_one_in(2))
    # Both payloads together have to stay below the limit of a script.
    for sid in range(16):
        moves.ask("sub", node, conn=1, pattern="foo", sid=str(sid))
    moves.ask("publish", node, conn=1, subject="foo", payload="x" * 520_000, word=0)
    moves.work_off(node)
    moves.ask("sub", node, conn=1, pattern="bar", queue=moves.draw.one_of([None, "q"]), sid="16")
    moves.collect(node)
    moves.hear_all()
    block, left = moves.draw.one_of(BLOCKS), OUTBOX_BYTES - sum(moves.server(node).shard_of(1).outboxes[1].entries)
    # A payload of as many bytes as are left is too large by what stands around it.
    around = size_of(Message("bar", None, block, "x" * left).text_for("16", moves.draw.is_one_in(2))) - left
    payload = "x" * (left - around + 1 - moves.draw.below(3))
    moves.ask(moves.draw.one_of(["publish", "deliver"]), node, conn=1, subject="bar", headers=block, payload=payload, word=0)
    moves.work_off(node)


def fill_window(moves):
    """More publications than a shard may be behind, of which some come from another server."""
    joined(moves)
    last = moves.cluster.names[:2][-1]
    moves.ask("sub", last, conn=1, pattern="foo", sid="1")
    moves.collect(last)
    moves.hear_all()
    for count in range(WINDOW + 3):
        moves.ask("publish", moves.cluster.names[0], conn=1, subject="foo", payload=str(count), word=0)
        if moves.draw.is_one_in(2):
            moves.ask("begin", moves.cluster.names[0], shard=moves.cluster.shards)
            moves.ask("end", moves.cluster.names[0], shard=moves.cluster.shards)
    for frame in range(moves.handed + 1, len(moves.cluster.frames) + 1):
        moves.ask("receive", last, frame=frame)
    while moves.ask("publish", last, conn=1, subject="foo", payload="late", word=0):
        pass


def fill_sessions(moves):
    """More sessions than may stand."""
    joined(moves)
    for _ in range(SESSIONS + 2):
        word = moves.draw.one_of(["accept", "dial"])
        moves.ask(word, moves.cluster.names[0], peer=moves.cluster.names[-1] if word == "dial" else None)


def fill_names(moves):
    """More queue names for a subject than a publication may have, over up to two servers."""
    joined(moves)
    nodes = moves.cluster.names[:2]
    for number in range(QUEUE_NAMES + 1):
        node = moves.draw.one_of(nodes)
        moves.ask("sub", node, conn=1, pattern="foo", queue=f"g{number}", sid=str(number))
        if number >= QUEUE_NAMES - 1:
            for each in nodes:
                moves.collect(each)
            moves.hear_all()
            moves.ask("publish", nodes[0], conn=1, subject="foo", payload="", word=moves.draw.below(99))
    for each in nodes:
        moves.hear_all()
        moves.work_off(each)


def fill_route(moves):
    """More frames for a peer than may wait for it: messages, and then a change of interest."""
    joined(moves)
    first, last = moves.cluster.names[0], moves.cluster.names[:2][-1]
    moves.ask("sub", last, conn=1, pattern="foo", sid="1")
    moves.ask("sub", last, conn=1, pattern="foo", queue="q", sid="2")
    moves.collect(last)
    moves.hear_all()
    for count in range(ROUTE_FRAMES + 2):
        moves.ask("publish", first, conn=1, subject="foo", payload="", word=count)
        moves.work_off(first)
        moves.handed = len(moves.cluster.frames)
    if moves.draw.is_one_in(2):
        moves.ask("take", first, peer=last, n=1)
    moves.ask("sub", first, conn=1, pattern="bar", sid="3")
    moves.ask("sub", first, conn=1, pattern="bar.*", sid="4")
    moves.collect(first)


def fill_share(moves):
    """More bytes of subscriptions than a shard's share."""
    joined(moves)
    node, long = moves.cluster.names[0], "x" * 1_000
    for number in range(260):
        if not moves.ask("sub", node, conn=1, pattern=f"{number}.{long}", sid=str(number)):
            break
    moves.ask("sub", node, conn=1, pattern="foo", sid="foo")
    moves.ask("unsub", node, conn=1, sid="0")
    moves.ask("sub", node, conn=1, pattern="foo", sid="foo")


def publish_hot_and_cold(moves, node):
    """Publications of the server on one subject that comes again and again, and on others that come once or twice; all of their work is done."""
    moves.collect(node)
    moves.hear_all()
    for _ in range(16):
        subject = moves.draw.one_of(["hot", "hot", f"cold.{moves.draw.below(CHANGES)}", f"cold.{moves.draw.below(CHANGES)}.x"])
        moves.ask("publish", node, conn=1, subject=subject, payload=str(len(moves.steps)), word=moves.draw.below(1_000))
        if moves.draw.is_one_in(2):
            moves.hear_all()
            for each in moves.cluster.names[:2]:
                moves.work_off(each)
    moves.hear_all()
    for each in moves.cluster.names[:2]:
        moves.work_off(each)


def change_many(moves):
    """Many subscriptions are opened before their hub is told of any, and many are closed before it is told again."""
    joined(moves)
    node = moves.draw.one_of(moves.cluster.names[:2])
    sids = [str(number) for number in range(CHANGES + moves.draw.below(CHANGES))]
    for sid in sids:
        pattern = moves.draw.one_of([f"cold.{sid}", f"cold.{sid}", f"cold.{sid}.*", f"*.{sid}", "hot"])
        moves.ask("sub", node, conn=1, pattern=pattern, queue=moves.draw.one_of(QUEUES), sid=sid)
    publish_hot_and_cold(moves, moves.cluster.names[0])
    kept = moves.draw.up_to(8)
    for sid in sids:
        if not moves.draw.is_one_in(kept):
            moves.ask("unsub", node, conn=1, sid=sid)
    publish_hot_and_cold(moves, moves.cluster.names[0])


# Each with how many of a thousand lists begin so, and how many shards the servers have at most.
BEGINNINGS = [(open_servers, 560, FEW_SHARDS), (change_many, 40, FEW_SHARDS), (open_many, 30, SHARDS), (blind, 120, FEW_SHARDS), (fill_outbox, 80, FEW_SHARDS),
              (fill_window, 60, FEW_SHARDS), (fill_sessions, 30, 2), (fill_names, 30, 2), (fill_bytes, 16, FEW_SHARDS), (fill_share, 12, SHARDS),
              (fill_route, 12, 1), (fill_last_bytes, 10, FEW_SHARDS)]


def beginning_of(draw):
    left = draw.below(1_000)
    for beginning, part, shards in BEGINNINGS:
        if left < part:
            return beginning, shards
        left -= part
    raise AssertionError("the parts of the beginnings are a thousand")


def drawn(seed, events=EVENTS, beginning=None):
    """The list of this seed."""
    draw = Draw(seed)
    begin, most = beginning_of(draw)
    if beginning is not None:
        begin, most = beginning, FEW_SHARDS
    shards = SHARDS if begin is fill_share else draw.up_to(most)
    servers = draw.up_to(SERVERS if begin is open_many else FEW_SERVERS)
    moves = Moves(draw, draw.one_of(NAMES)[:servers], shards)
    begin(moves)
    least = max(events, moves.cluster.step + 50)
    while moves.cluster.step < least:
        moves.move()
    return Script(seed, moves, begin.__name__)


# ---- clusters at rest

def prepare(moves):
    """Servers that are up and joined, with subscriptions; each has told of them, and none has heard of any."""
    names = moves.cluster.names
    for node in names:
        moves.ask("start", node, inc=moves.draw.up_to(3))
        for _ in range(moves.draw.up_to(3)):
            moves.ask("attach", node, shard=moves.draw.up_to(moves.cluster.shards))
            if moves.draw.is_one_in(2):
                moves.choose_headers(node)
    for is_joined in (False, True):
        for place, node in enumerate(names):
            for _ in range(moves.draw.below(5)):
                moves.subscribe(node)
            moves.collect(node)
            for peer in [] if is_joined else names[:place]:
                moves.ask("join", node, peer=peer)


def tells(frame):
    """Whether the frame tells of a subscription."""
    return frame.kind == "RS+" or frame.kind == "RSS" and bool(frame.body)


def brought_to_rest(seed, is_held_back):
    """The cluster of this seed at rest, and deliveries there, each as one step or with its work in an order that is drawn. Or the same cluster with one
    frame held back that tells of a subscription; none where there is no such frame."""
    draw = Draw(seed)
    moves = Moves(draw, draw.one_of(NAMES)[:draw.up_to(FEW_SERVERS)], draw.up_to(FEW_SHARDS))
    prepare(moves)
    telling = [number for number, frame in enumerate(moves.cluster.frames, 1) if tells(frame)]
    held = draw.one_of(telling) if is_held_back and telling else None
    if is_held_back and held is None:
        return None
    for number in range(1, len(moves.cluster.frames) + 1):
        node = moves.addressee(number)
        if node and number != held:
            moves.ask("receive", node, frame=number)
    for _ in range(draw.up_to(4)):
        if draw.is_one_in(3):
            moves.choose_headers(moves.node())
        deliver = moves.deliver if is_held_back or draw.is_one_in(2) else moves.deliver_in_any_order
        deliver(moves.node())
    script = Script(seed, moves, "held back" if is_held_back else "at rest")
    script.is_at_rest = not is_held_back
    return script
