"""The script of one publication that reaches a member of a queue group at another server (docs/SCRIPTS.md has its words), disturbed behind each of its
events: the other server stops and starts again, each session that is kept is cut, or every frame that was sent comes once more at both servers."""
from .lists import Script
from .moves import Moves

NAMES = ["n1", "n2"]

# The incarnation in which n2 starts again.
LATER = 100

EVENTS = [
    ("start", "n1", {"inc": 1}),
    ("start", "n2", {"inc": 4}),
    ("dial", "n1", {"peer": "n2"}),
    ("accept", "n2", {}),
    ("info", "n1", {"session": 1, "frame": 1}),
    ("connect", "n2", {"session": 1, "frame": 2}),
    ("attach", "n2", {}),
    ("sub", "n2", {"conn": 1, "pattern": "foo", "queue": "q", "sid": "1"}),
    ("collect", "n2", {"shard": 1}),
    ("receive", "n1", {"frame": 4}),
    ("receive", "n1", {"frame": 5}),
    ("attach", "n1", {}),
    ("publish", "n1", {"conn": 1, "subject": "foo", "payload": "hi", "word": 0}),
    ("receive", "n2", {"frame": 6}),
    ("receive", "n2", {"frame": 6}),
    ("begin", "n2", {"shard": 1}),
    ("claim", "n2", {"shard": 1, "index": 0}),
    ("end", "n2", {"shard": 1}),
    ("stop", "n2", {}),
    ("start", "n2", {"inc": 5}),
    ("receive", "n2", {"frame": 6}),
]


def undisturbed(_):
    """Nothing happens."""


def restarted(moves):
    moves.ask("stop", "n2")
    moves.ask("start", "n2", inc=LATER)


def cut_off(moves):
    for place, node in enumerate(NAMES):
        server = moves.cluster.running.get(place)
        for number in sorted(server.sessions) if server else []:
            if server.sessions[number].peer is not None:
                moves.ask("cut", node, session=number)


def sent_again(moves):
    for node in NAMES:
        for frame in range(1, len(moves.cluster.frames) + 1):
            moves.ask("receive", node, frame=frame)


def disturbed():
    """Each of these scripts."""
    for disturb in (undisturbed, restarted, cut_off, sent_again):
        for last in range(1, len(EVENTS) + 1) if disturb is not undisturbed else [len(EVENTS)]:
            moves = Moves(None, NAMES, 1)
            for number, (word, node, members) in enumerate(EVENTS, 1):
                moves.ask(word, node, **members)
                if number == last:
                    disturb(moves)
            yield Script(last, moves, disturb.__name__)
