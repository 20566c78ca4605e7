"""Drawn steps of a script: one, or a few that belong together."""
import random

from .cluster import Cluster, Delivery

PATTERNS = ["foo", "foo", "foo", "bar", "foo.*", "foo.>", "*", ">", "*.x", "foo.*.y", "grün.*"]
QUEUES = [None, None, None, "q", "q", "r", "é"]
SUBJECTS = ["foo", "foo", "foo", "bar", "foo.x", "foo.x.y", "grün.x"]
REPLIES = [None, None, "answers", "answers.1"]
PAYLOADS = ["", "\r\n", "ein Gruß"]

# Header blocks. No more of one is asked than how it begins.
BLOCKS = ["NATS/1.0\r\n\r\n", "NATS/1.0\r\nA: b\r\n\r\n", "NATS/1.0 503\r\n\r\n", "NATS/1.0", "NATS/1.0\r\nGruß: é\r\nA:\r\n\r\n"]

# The greatest incarnation that there is.
LAST_INCARNATION = 9_007_199_254_740_991


class Draw:
    """Numbers that are drawn, the same for the same seed."""

    def __init__(self, seed):
        self.random = random.Random(seed)

    def below(self, bound):
        return int(self.random.random() * bound)

    def up_to(self, last):
        return 1 + self.below(last)

    def is_one_in(self, many):
        return self.below(many) == 0

    def one_of(self, values):
        return values[self.below(len(values))]


class Moves:
    """The steps that were drawn so far, and the model's cluster that made them, by which the next ones are drawn."""

    def __init__(self, draw, names, shards):
        self.draw, self.cluster, self.steps = draw, Cluster(names, shards), []
        # The last frame that was handed over in turn, and the greatest incarnation that each server was started in.
        self.handed, self.incs = 0, {}

    def ask(self, do, node, **members):
        """Makes a step; members that are None are left out. Tells whether its last event was done."""
        step = {"do": do, "node": node, **{name: value for name, value in members.items() if value is not None}}
        self.steps.append(step)
        return not self.cluster.make(step)[-1].startswith("refused")

    # ---- what is there

    def node(self):
        return self.draw.one_of(self.cluster.names)

    def server(self, node):
        """The model's server of this name; none where it is down."""
        return self.cluster.running.get(self.cluster.place_of(node))

    def shard(self):
        """A shard's number, now and then of none."""
        return self.draw.below(self.cluster.shards + 2) if self.draw.is_one_in(40) else self.draw.up_to(self.cluster.shards)

    def conn(self, node):
        """A connection of the server, now and then any number."""
        server = self.server(node)
        conns = [conn for shard in server.shards for conn in shard.outboxes] if server else []
        return self.draw.one_of(conns) if conns and not self.draw.is_one_in(10) else self.draw.below(9)

    def sid(self):
        return str(self.draw.up_to(5))

    def headers(self):
        """A header block, or most often none."""
        return self.draw.one_of(BLOCKS) if self.draw.is_one_in(4) else None

    # ---- servers

    def start(self, node):
        """Most often in an incarnation that the server never had."""
        greatest = self.incs.get(node, 0)
        inc = self.draw.up_to(8) if self.draw.is_one_in(6) else greatest + self.draw.up_to(2)
        inc = LAST_INCARNATION if self.draw.is_one_in(400) else min(inc, LAST_INCARNATION)
        self.incs[node] = max(greatest, inc)
        self.ask("start", node, inc=inc)

    def restart(self, node):
        self.ask("stop", node)
        self.start(node)

    def join(self, node, peer):
        """Another server is dialed; now and then the connection breaks in between."""
        if self.draw.is_one_in(3):
            self.ask("join", node, peer=peer)
            return
        if not self.ask("dial", node, peer=peer) or not self.ask("accept", peer) or self.draw.is_one_in(8):
            return
        info = len(self.cluster.frames)
        dialed, accepted = self.server(node).last_session, self.server(peer).last_session
        if self.ask("info", node, session=dialed, frame=info) and not self.draw.is_one_in(8):
            self.ask("connect", peer, session=accepted, frame=info + 1)

    def greet(self, node):
        """Any greeting on any session of the server, or now and then any frame."""
        server = self.server(node)
        word = self.draw.one_of(["info", "connect"])
        numbers = [number for number, frame in enumerate(self.cluster.frames, 1) if frame.kind == word.upper()]
        frame = self.draw.one_of(numbers) if numbers and not self.draw.is_one_in(12) else self.draw.below(len(self.cluster.frames) + 2)
        sessions = sorted(server.sessions) if server else []
        session = self.draw.one_of(sessions) if sessions and not self.draw.is_one_in(8) else self.draw.below(8)
        self.ask(word, node, session=session, frame=frame)

    def addressee(self, number):
        """The name of the server that a numbered frame is for; none of another frame."""
        frame = self.cluster.frames[number - 1]
        return self.cluster.names[frame.to] if frame.is_numbered() else None

    def hand_over(self, count, lost=16):
        """The next frames are handed to the servers that they are for; one in so many gets lost, where any does."""
        while count and self.handed < len(self.cluster.frames):
            count -= 1
            self.handed += 1
            node = self.addressee(self.handed)
            if node and not (lost and self.draw.is_one_in(lost)):
                self.ask("receive", node, frame=self.handed)

    def hear_all(self):
        """Each frame that was not handed over in turn is."""
        self.hand_over(len(self.cluster.frames), lost=0)

    def hand_over_any(self, node):
        """Some frame, late or once more, most often to the server that it is for."""
        frame = self.draw.below(len(self.cluster.frames) + 2)
        if 1 <= frame <= len(self.cluster.frames) and not self.draw.is_one_in(5):
            node = self.addressee(frame) or node
        self.ask("receive", node, frame=frame)

    def repeat(self):
        """A message comes again, now and then behind a cut of the session that it came by, and a new one; all of its work is done."""
        numbers = [number for number, frame in enumerate(self.cluster.frames, 1) if frame.kind == "RMSG"]
        if not numbers:
            return
        number = self.draw.one_of(numbers[-12:])
        node, peer = self.addressee(number), self.cluster.frames[number - 1].sender
        kept = self.server(node).kept_for(peer) if self.server(node) else None
        if kept and self.draw.is_one_in(2):
            self.ask("cut", node, session=kept.number)
            if self.draw.is_one_in(2):
                self.join(node, self.cluster.names[peer])
        self.ask("receive", node, frame=number)
        if self.server(node):
            self.work_off(node)

    def collect(self, node):
        for shard in range(1, self.cluster.shards + 1):
            self.ask("collect", node, shard=shard)

    def drain(self, node):
        """A server or one of its shards drains, sometimes for the second time."""
        if self.draw.is_one_in(2):
            self.ask("drain", node)
        else:
            self.ask("drainshard", node, shard=self.shard())

    def route(self, node):
        """A session is cut, or frames are taken that wait for a peer."""
        server = self.server(node)
        if self.draw.is_one_in(2):
            sessions = sorted(server.sessions) if server else []
            self.ask("cut", node, session=self.draw.one_of(sessions) if sessions and not self.draw.is_one_in(4) else self.draw.below(7))
        else:
            self.ask("take", node, peer=self.node(), n=self.draw.below(5))

    # ---- clients

    def attach(self, node):
        self.ask("attach", node, shard=None if self.draw.is_one_in(4) else self.shard())

    def subscribe(self, node):
        self.ask("sub", node, conn=self.conn(node), pattern=self.draw.one_of(PATTERNS), queue=self.draw.one_of(QUEUES), sid=self.sid())

    def unsubscribe(self, node):
        self.ask("unsub", node, conn=self.conn(node), sid=self.sid(), max=self.draw.below(5) if self.draw.is_one_in(2) else None)

    def choose_headers(self, node):
        """A connection takes headers from now on, or takes none."""
        self.ask("headers", node, conn=self.conn(node), on=not self.draw.is_one_in(3))

    def client(self, node):
        if self.draw.is_one_in(6):
            self.ask("detach", node, conn=self.conn(node))
        else:
            peer = self.node() if self.draw.is_one_in(8) else None
            self.ask("take", node, conn=self.conn(node), n=self.draw.below(9), peer=peer)

    def publish(self, node):
        payload = self.draw.one_of(PAYLOADS) if self.draw.is_one_in(4) else str(len(self.steps))
        echo = self.draw.one_of([None, None, True, False])
        self.ask("publish", node, conn=self.conn(node), subject=self.draw.one_of(SUBJECTS), reply=self.draw.one_of(REPLIES), headers=self.headers(),
                 payload=payload, echo=echo, word=self.draw.below(1_000) if not self.draw.is_one_in(20) else 2 ** 64 - 1)

    def deliver(self, node):
        """It is asked whether the cluster is settled for a subject, and something is delivered on it."""
        subject = self.draw.one_of(SUBJECTS)
        self.ask("settled", node, subject=subject)
        echo = False if self.draw.is_one_in(6) else None
        self.ask("deliver", node, conn=self.conn(node), subject=subject, headers=self.headers(), payload=str(len(self.steps)), echo=echo,
                 word=self.draw.below(1_000))

    def deliver_in_any_order(self, node):
        """The same of a publication whose work the script makes step by step, in an order that is drawn. The cluster is settled for it."""
        subject, sent = self.draw.one_of(SUBJECTS), len(self.cluster.frames)
        self.ask("settled", node, subject=subject)
        self.ask("publish", node, conn=self.conn(node), subject=subject, headers=self.headers(), payload=str(len(self.steps)),
                 word=self.draw.below(1_000))
        self.cluster.deliveries.append(Delivery(None, self.server(node).last_publication()))
        self.work_in_any_order(node, sent)

    def work_in_any_order(self, node, sent):
        """All work of the publication that the server made last, whose frames are behind so many others: each frame comes before the work of its
        server, and what a shard does stands in its order."""
        frames = list(range(sent + 1, len(self.cluster.frames) + 1))
        shards = self.steps_of_shards(node, self.server(node).shards[0].waiting[-1].queues)
        while frames or shards:
            which = self.draw.below(len(frames) + len(shards))
            if which < len(frames):
                number = frames.pop(which)
                self.ask("receive", self.addressee(number), frame=number)
                shards += self.steps_of_shards(self.addressee(number), self.cluster.frames[number - 1].body[1])
            else:
                do, other, members = shards[which - len(frames)].pop(0)
                self.ask(do, other, **members)
                shards = [steps for steps in shards if steps]

    # ---- shards

    def steps_of_shards(self, node, queues):
        """For each shard of the server the steps of its work on a job with these queue names."""
        return [[("begin", node, {"shard": shard.number}),
                 *[("claim", node, {"shard": shard.number, "index": index}) for index in range(len(queues))],
                 ("end", node, {"shard": shard.number})] for shard in self.server(node).shards]

    def work(self, node, shard):
        """A shard works a job off, name by name; now and then it is left there, ended too early, or claims out of turn."""
        self.ask("begin", node, shard=shard)
        if self.draw.is_one_in(12):
            self.ask("end", node, shard=shard)
        if self.draw.is_one_in(12):
            self.ask("claim", node, shard=shard, index=self.draw.below(3))
        for index in range(4):
            if not self.ask("claim", node, shard=shard, index=index):
                break
        if not self.draw.is_one_in(10):
            self.ask("end", node, shard=shard)

    def work_off(self, node):
        """Each shard of the server ends all that waits for it."""
        for shard in self.server(node).shards:
            if shard.hand:
                self.ask("drop", node, shard=shard.number)
            while shard.waiting:
                self.ask("begin", node, shard=shard.number)
                for index in range(len(shard.hand.queues)):
                    self.ask("claim", node, shard=shard.number, index=index)
                self.ask("end", node, shard=shard.number)

    def settle(self):
        """All interest is told and heard, and all work is done; then something is published, and all work of it is done."""
        running = [self.cluster.names[place] for place in sorted(self.cluster.running)]
        for node in running:
            self.collect(node)
        self.hear_all()
        if running:
            self.publish(self.draw.one_of(running))
        self.hear_all()
        for node in running:
            self.work_off(node)
        if self.draw.is_one_in(2):
            self.deliver(self.node())
            for node in running:
                self.work_off(node)

    # ---- one move

    def client_move(self, node):
        which = self.draw.below(17)
        if which < 2:
            self.attach(node)
        elif which < 7:
            self.subscribe(node)
        elif which < 8:
            self.unsubscribe(node)
        elif which < 10:
            self.client(node)
        elif which < 11:
            self.choose_headers(node)
        else:
            self.publish(node)

    def route_move(self, node):
        which = self.draw.below(40)
        if which < 2:
            self.join(node, self.node())
        elif which < 3 and self.draw.is_one_in(2):
            self.restart(node)
        elif which < 4 and self.draw.is_one_in(2):
            self.start(node)
        elif which < 5:
            self.route(node)
        elif which < 8:
            self.hand_over_any(node)
        elif which < 9:
            self.greet(node)
        elif which < 10:
            self.repeat()
        elif which < 14:
            self.collect(node)
        elif which < 15 and self.draw.is_one_in(20):
            self.drain(node)
        else:
            self.hand_over(self.draw.up_to(6))

    def move(self):
        node = self.node() if not self.draw.is_one_in(200) else "n99"
        which = self.draw.below(16)
        if self.draw.is_one_in(60):
            self.settle()
        elif which < 6:
            self.client_move(node)
        elif which < 13:
            self.route_move(node)
        elif which == 13 and self.draw.is_one_in(4):
            self.ask("drop", node, shard=self.shard())
        else:
            self.work(node, self.shard())
