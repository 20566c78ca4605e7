"""The model of a shard: its connections, their subscriptions, and the jobs that it works off (docs/PROTOCOL.md, "Who gets a message")."""
from .values import OUTBOX_BYTES, OUTBOX_ENTRIES, SLOW_CONSUMER, SUBSCRIPTION_BYTES, SUBSCRIPTION_COST, SUBSCRIPTIONS, Outbox, Sub, is_match, refuse_if, size_of


def cost_of(pattern, queue):
    return size_of(pattern) + size_of(queue or "") + SUBSCRIPTION_COST


def is_wanted(job, sub):
    """Whether the subscription matches the job's message, and is not the publisher's own where `echo` is off."""
    return is_match(sub.pattern, job.message.subject) and (job.echo or sub.conn != job.publisher)


class Shard:
    """A shard of a server with so many of them. Its connections have its number, and then each as much more as there are shards."""

    def __init__(self, number, shards):
        self.number, self.shards, self.next_conn = number, shards, number
        self.outboxes, self.subs, self.opened, self.is_draining = {}, [], 0, False
        self.waiting, self.hand, self.next_index, self.finished = [], None, 0, 0
        # What the hub was not told yet: a key, and whether a subscription of it opened or closed.
        self.deltas = []
        # What the last events placed (the publication, the subscription, the queue name, and whether its connection takes headers) and closed, until
        # the cluster notes it.
        self.placed, self.closed = [], []

    def attach(self):
        conn = self.next_conn
        self.next_conn += self.shards
        self.outboxes[conn] = Outbox()
        return conn

    def box_of(self, conn, may_be_shut=False):
        box = self.outboxes.get(conn)
        refuse_if(box is None or box.is_shut and not may_be_shut, 50)
        return box

    def called(self, conn, sid):
        return next((sub for sub in self.subs if (sub.conn, sub.sid) == (conn, sid)), None)

    def subscribe(self, conn, pattern, queue, sid):
        """The subscription that opened; none where the connection has that id open."""
        self.box_of(conn)
        refuse_if(self.is_draining, 59)
        if self.called(conn, sid):
            return None
        spent = sum(cost_of(sub.pattern, sub.queue) for sub in self.subs)
        refuse_if(len(self.subs) >= SUBSCRIPTIONS // self.shards, 54)
        refuse_if(spent + cost_of(pattern, queue) > SUBSCRIPTION_BYTES // self.shards, 54)
        self.opened += 1
        sub = Sub(self.opened, conn, pattern, queue, sid)
        self.subs.append(sub)
        self.deltas.append((sub.key, True))
        return sub

    def drain(self):
        refuse_if(self.is_draining, 59)
        self.is_draining = True

    def unsubscribe(self, conn, sid, maximum):
        self.box_of(conn)
        sub = self.called(conn, sid)
        if sub is None:
            return
        if maximum is None:
            self.close([sub])
            return
        if sub.delivered >= maximum:
            self.close([sub])
        else:
            sub.maximum = maximum

    def set_headers(self, conn, is_on):
        self.box_of(conn).takes_headers = is_on

    def detach(self, conn):
        self.box_of(conn, may_be_shut=True)
        self.close([sub for sub in self.subs if sub.conn == conn])
        del self.outboxes[conn]

    def take(self, conn, count):
        return self.box_of(conn, may_be_shut=True).take(count)

    def close(self, subs):
        """These close, in this order."""
        serials = {sub.serial for sub in subs}
        self.subs = [sub for sub in self.subs if sub.serial not in serials]
        self.deltas += [(sub.key, False) for sub in subs]
        self.closed += subs

    def put(self, job, sub, queue):
        """The message is placed for the subscription."""
        box = self.outboxes[sub.conn]
        box.entries.append(box.size_for(job.message, sub.sid))
        sub.delivered += 1
        self.placed.append((job.source, sub, queue, box.takes_headers))

    def has_room(self, job, sub):
        box = self.outboxes[sub.conn]
        return box.has_room(box.size_for(job.message, sub.sid))

    def has_room_for_all(self, message):
        """Whether each connection has room for the messages of all its subscriptions that match."""
        for conn, box in self.outboxes.items():
            subs = [sub for sub in self.subs if sub.conn == conn and is_match(sub.pattern, message.subject)]
            size = sum(box.size_for(message, sub.sid) for sub in subs)
            if subs and (len(box.entries) + len(subs) > OUTBOX_ENTRIES or sum(box.entries) + size > OUTBOX_BYTES):
                return False
        return True

    def begin(self):
        """How many messages are placed, and how many connections shut for want of room."""
        refuse_if(self.hand is not None, 51)
        refuse_if(not self.waiting, 52)
        job = self.hand = self.waiting.pop(0)
        self.next_index = 0
        placed, shut, ended = 0, 0, []
        for sub in [sub for sub in self.subs if sub.queue is None and is_wanted(job, sub)]:
            box = self.outboxes[sub.conn]
            if box.is_shut:
                continue
            if self.has_room(job, sub):
                self.put(job, sub, None)
                placed += 1
                ended += [sub] if sub.is_at_end() else []
            else:
                box.entries.append(len(SLOW_CONSUMER))
                box.is_shut = True
                shut += 1
                ended += [other for other in self.subs if other.conn == sub.conn and other not in ended]
        self.close(ended)
        return placed, shut

    def candidate(self, name):
        job = self.hand
        found = [sub for sub in self.subs if sub.queue == name and is_wanted(job, sub) and self.has_room(job, sub)]
        return found[job.turn % len(found)] if found else None

    def claim(self, index, won):
        """The subscription that got the message, `lost` or `nobody`; `won` has the turns and indices that were won at the server."""
        refuse_if(self.hand is None, 52)
        refuse_if(index != self.next_index or index >= len(self.hand.queues), 55)
        name = self.hand.queues[index]
        sub = self.candidate(name)
        self.next_index += 1
        if sub is None:
            return "nobody"
        if (self.hand.turn, index) in won:
            return "lost"
        won.add((self.hand.turn, index))
        self.put(self.hand, sub, name)
        if sub.is_at_end():
            self.close([sub])
        return f"won {self.number}.{sub.serial}"

    def end(self):
        refuse_if(self.hand is None, 52)
        refuse_if(self.next_index != len(self.hand.queues), 56)
        self.finish(self.hand)

    def drop(self):
        """The job in hand is dropped, or else the first that waits."""
        refuse_if(self.hand is None and not self.waiting, 52)
        self.finish(self.hand or self.waiting.pop(0))

    def finish(self, job):
        self.finished, self.hand, self.next_index = job.turn, None, 0
