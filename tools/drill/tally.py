"""What came about in all lists: events done and refused, kinds of answers, refusals by their numbers, and planted flaws."""
import re
from collections import Counter

# Each kind of answer that a script can get: the word of its event, and what is written without its numbers (docs/SCRIPTS.md).
ANSWERS = [
    "start ok", "stop ok", "attach conn", "sub sub", "sub same", "unsub ok", "headers ok", "detach ok", "publish turn frames", "receive turn", "receive view",
    "collect changes frames", "drain changes frames", "drainshard ok", "begin placed closed", "claim won", "claim lost", "claim nobody", "end ok", "drop ok", "dial session",
    "accept session", "info kept", "info kept instead of", "connect kept", "connect kept instead of", "cut ok", "take took", "settled yes", "settled no",
    "delivered",
]

# Each refusal that a script can meet (docs/PROTOCOL.md, "Numbers of refusals"). No script comes to the others of servers: 53 wants another job than
# the first that waits, 57, 62 and 75 counters at their ends, and 69 news of interest that no server tells.
REFUSALS = [50, 51, 52, 54, 55, 56, 58, 59, 60, 61, 63, 64, 65, 66, 67, 68, 70, 71, 72, 73, 74, 80, 81, 82, 83]


def kind_of(word, told):
    """The kind of an answer: its event's word, and what is written of it without numbers."""
    return " ".join([word, *re.findall(r"[a-z]+", told)])


class Tally:
    def __init__(self):
        self.lists, self.differing, self.placed = Counter(), 0, 0
        self.done, self.refused, self.streams, self.answers = 0, 0, 0, 0
        self.kinds, self.numbers = Counter(), Counter()
        # For each plant, how often it was planted, and how often found.
        self.planted, self.found = Counter(), Counter()

    def note_list(self, script, text):
        """Notes the events of a list, by what the program wrote of each."""
        self.lists[script.kind] += 1
        for (_, word), line in zip(script.cluster.asked, text.split("\n")):
            told = line.partition(" ")[2]
            if told.startswith("refused "):
                self.refused += 1
                self.numbers[told.split()[1]] += 1
            else:
                self.done += word not in ("settled", "delivered")
                self.kinds[kind_of(word, told)] += 1
        self.placed += text.count("\nplaced ")

    def note_stream(self, stream):
        self.streams += 1
        self.answers += len(stream.client.pieces)

    def note_plant(self, name, is_found):
        self.planted[name] += 1
        self.found[name] += is_found

    def missed(self, names):
        """The plants of these that were not found each time, or never planted."""
        return [name for name in names if not self.planted[name] or self.found[name] != self.planted[name]]

    def lines(self, plants):
        """What is told at the end."""
        yield f"lists: {sum(self.lists.values())} ({', '.join(f'{kind} {count}' for kind, count in sorted(self.lists.items()))})"
        yield f"events done: {self.done}, refused: {self.refused}; messages placed: {self.placed}"
        yield f"streams of one client: {self.streams}, answers: {self.answers}"
        yield f"what differs: {self.differing}"
        yield from told_of("answers", self.kinds, ANSWERS)
        yield from told_of("refusals", self.numbers, [str(number) for number in REFUSALS])
        for name in plants:
            yield f"planted: {self.planted[name]}, found: {self.found[name]}: {name}"


def told_of(title, counts, known):
    """How often each came that is known or came, and which never did."""
    came = [*[name for name in known if counts[name]], *sorted(set(counts) - set(known))]
    yield f"{title} that came: {', '.join(f'{name} ({counts[name]})' for name in came) or 'none'}"
    yield f"{title} that never came: {', '.join(name for name in known if not counts[name]) or 'none'}"
