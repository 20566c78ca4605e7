"""The two drawings of docs/ARCHITECTURE.md: the layers with their arrows, and one publication over two servers.

What stands where is said here; that each arrow is in crates.txt is seen when the drawings are made.
"""
from repository import libraries_of, lines_of_crates
from svg import Picture

# The layers: their names as in crates.txt, what they are in two lines, and from where to where they reach.
LAYERS = [
    ("Programs", ("what is run",), 12, 104),
    ("Threads and sockets", ("servers under locks,", "and the loop of sockets"), 116, 332),
    ("Node and cluster", ("servers and clusters", "as values; their laws"), 344, 498),
    ("Parts of a node", ("what a server", "is made of"), 510, 690),
    ("Bytes and frames", ("names, lines,", "payloads, frames"), 702, 834),
]

# The middle of each crate's box, and its upper edge.
PLACES = {
    "nats_mesh": (520, 24), "mesh_pipe": (650, 66), "mesh_tools": (880, 24),
    "mesh_serve": (240, 134), "thread_report": (540, 134), "node_net": (90, 186), "thread_node": (350, 186),
    "net_streams": (210, 236), "node_threads": (400, 236), "thread_law": (540, 236), "job_lane": (365, 288), "claim_cells": (520, 288),
    "mesh_script": (880, 360), "node_parts": (480, 408), "node_core": (630, 408), "cluster_world": (790, 408),
    "cluster_law": (340, 456), "node_law": (480, 456), "world_law": (640, 456), "settled_law": (770, 456), "script_form": (900, 456),
    "server_calls": (190, 532), "hub_core": (400, 532), "route_session": (530, 532), "shard_core": (680, 532),
    "client_calls": (190, 588), "interest": (340, 588), "claim_race": (505, 588), "outbox": (640, 588), "sub_table": (756, 588), "sub_trie": (884, 588),
    "pick": (420, 644), "pattern_trie": (884, 644),
    "route_frames": (84, 720), "client_conn": (230, 720), "publication_runs": (392, 720), "client_frames": (566, 720), "job_block": (710, 720),
    "subj": (860, 720),
    "route_values": (84, 776), "wire_cut": (566, 776), "line_fields": (700, 776), "list_laws": (860, 776),
}

# Which crate stands on which, of those that carry the design.
ARROWS = {
    "nats_mesh": ["mesh_serve", "mesh_pipe"],
    "mesh_tools": ["mesh_script"],
    "mesh_pipe": ["node_core"],
    "mesh_serve": ["node_net", "thread_node"],
    "thread_report": ["thread_node", "thread_law"],
    "node_net": ["net_streams", "server_calls", "route_frames"],
    "thread_node": ["node_threads", "server_calls"],
    "thread_law": ["node_threads"],
    "node_threads": ["job_lane", "claim_cells", "node_parts"],
    "mesh_script": ["cluster_world", "script_form"],
    "cluster_world": ["node_core", "world_law", "settled_law"],
    "settled_law": ["world_law"],
    "world_law": ["node_law"],
    "node_core": ["node_parts"],
    "node_parts": ["node_law"],
    "node_law": ["cluster_law", "hub_core", "route_session", "shard_core"],
    "server_calls": ["client_calls", "hub_core"],
    "client_calls": ["client_conn"],
    "hub_core": ["interest", "pick", "claim_race"],
    "shard_core": ["outbox", "sub_table", "job_block"],
    "sub_trie": ["sub_table", "pattern_trie"],
    "client_conn": ["publication_runs"],
    "publication_runs": ["client_frames"],
    "job_block": ["subj"],
    "client_frames": ["wire_cut"],
    "wire_cut": ["line_fields"],
    "line_fields": ["list_laws"],
    "subj": ["list_laws"],
    "route_frames": ["route_values"],
}

BOX = 30


def width_of(crate):
    return 9.1 * len(crate) + 18


def border(crate, other):
    """Where the line between the middles of two boxes leaves the first one."""
    (x, top), (ox, otop) = PLACES[crate], PLACES[other]
    y, dx, dy = top + BOX / 2, ox - x, otop - top
    across = (width_of(crate) / 2 + 2) / abs(dx) if dx else float("inf")
    down = (BOX / 2 + 2) / abs(dy) if dy else float("inf")
    part = min(across, down)
    return x + dx * part, y + dy * part


def check_arrows():
    """Ends this process where an arrow is drawn that crates.txt does not have."""
    lines = lines_of_crates()
    for crate, others in ARROWS.items():
        for other in others:
            if other not in libraries_of(lines[crate]):
                raise SystemExit(f"tools/dev plots: {crate} is drawn on {other}, and does not stand on it")


def layers():
    check_arrows()
    picture = Picture(1180, 846, "The layers of nats_mesh",
                      "Programs stand on threads and sockets, these on servers as values, these on the parts of a node, and all on bytes and frames.")
    for name, words, top, bottom in LAYERS:
        picture.rect(12, top, 1156, bottom - top, fill="band", stroke=None, radius=8)
        picture.text(982, top + 26, name, size=16, strong=True)
        for place, line in enumerate(words):
            picture.text(982, top + 47 + 19 * place, line, fill="muted", size=14)
    picture.text(982, 818, "most crates stand on subj", fill="muted", size=14)
    for crate, others in ARROWS.items():
        for other in others:
            picture.line([border(crate, other), border(other, crate)], arrow=True)
    for crate, (x, top) in PLACES.items():
        picture.rect(x - width_of(crate) / 2, top, width_of(crate), BOX)
        picture.text(x, top + 20, crate, anchor="middle", size=15, code=True)
    return picture.whole()


def titled(picture, x, y, width, title, line, height=48):
    """A box with a title, and a line below it."""
    picture.rect(x, y, width, height)
    picture.text(x + 10, y + 20, title, size=14, strong=True)
    picture.text(x + 10, y + 38, line, fill="muted", size=14)


def step(picture, x, y, number):
    """The number of a hop."""
    picture.circle(x, y, 10, "ink")
    picture.text(x, y + 4.5, str(number), fill="ground", anchor="middle", size=12, strong=True)


def lane(picture, x, name, job):
    """A lane from the hub to a shard, with a job in it."""
    picture.line([(x, 280), (x, 300)], stroke="lane", thick=2)
    picture.rect(x - 62, 300, 124, 26, stroke="lane", thick=2, radius=13)
    picture.text(x, 318, job, fill="lane", anchor="middle", size=14, code=True)
    picture.text(x + 70, 318, name, fill="muted", size=14)
    picture.line([(x, 326), (x, 352)], stroke="lane", thick=2, arrow=True)


def lock(picture, x, y, width, height, name):
    """What stands under a lock."""
    picture.rect(x, y, width, height, fill="none", stroke="lock", dashed=True, radius=8, thick=1.6)
    picture.text(x + width - 10, y + 15, name, fill="lock", anchor="end", size=14)


def shards(picture, lines):
    """Shards 1 and 2 of a server, each at its place and with what it does, under a lock of its own."""
    for name, (x, line) in zip(["shard 1", "shard 2"], lines):
        lock(picture, x, 354, 240, 170, f"{name}'s lock")
        titled(picture, x + 12, 382, 216, name, line)


def first_server(picture):
    """The server whose client publishes."""
    titled(picture, 36, 12, 216, "client P", "PUB foo 5, hello", 46)
    picture.line([(144, 58), (144, 106)], arrow=True)
    step(picture, 164, 84, 1)
    titled(picture, 36, 108, 216, "connection of P", "cut, read: a publication")
    step(picture, 252, 108, 2)
    picture.line([(36, 140), (24, 140), (24, 480), (46, 480)], arrow=True)
    step(picture, 24, 250, 3)
    picture.line([(144, 156), (144, 212)], arrow=True)
    lock(picture, 36, 180, 510, 100, "hub's lock")
    titled(picture, 52, 214, 216, "Hub", "number 4, turn 9; q: n2")
    step(picture, 268, 214, 4)
    titled(picture, 322, 214, 208, "frames for n2", "RMSG, number 4, foo | q")
    picture.line([(270, 238), (320, 238)], arrow=True)
    lane(picture, 150, "lane 1", "turn 9: no q")
    lane(picture, 420, "lane 2", "turn 9: no q")
    step(picture, 74, 313, 5)
    shards(picture, [(36, "begins turn 9: A wants it"), (306, "begins turn 9: nobody here")])
    step(picture, 264, 382, 6)
    titled(picture, 48, 456, 216, "outboxes of P and A", "+OK; MSG foo 1 5")
    step(picture, 264, 456, 7)
    picture.line([(156, 430), (156, 454)], arrow=True)
    titled(picture, 150, 544, 282, "race of n1", "issued 9, finished 9, 9; no claim", 46)
    picture.line([(90, 504), (90, 628)], arrow=True)
    step(picture, 110, 612, 8)
    titled(picture, 36, 630, 216, "client A, subscribed", "MSG foo 1 5, hello", 46)


def second_server(picture):
    """The server that serves the queue group."""
    titled(picture, 598, 108, 236, "route from n1", "RMSG .. 4 $G foo | q 5, hello")
    picture.line([(530, 238), (572, 238), (572, 132), (596, 132)], stroke="ink", thick=2, arrow=True)
    picture.text(572, 120, "route", anchor="middle", fill="muted", size=14)
    picture.line([(716, 156), (716, 212)], arrow=True)
    lock(picture, 598, 180, 516, 100, "hub's lock")
    titled(picture, 614, 214, 236, "Hub", "mark 3: 4 is taken, once; turn 5")
    step(picture, 850, 214, 4)
    lane(picture, 714, "lane 1", "turn 5: [q]")
    lane(picture, 988, "lane 2", "turn 5: [q]")
    step(picture, 638, 313, 5)
    shards(picture, [(598, "candidate for q: B"), (874, "candidate for q: C")])
    step(picture, 1102, 382, 6)
    titled(picture, 886, 456, 216, "outbox of C", "MSG foo 7 5")
    step(picture, 1102, 456, 7)
    picture.line([(994, 430), (994, 454)], arrow=True)
    picture.text(616, 484, "nothing is placed", fill="muted", size=14)
    titled(picture, 716, 544, 280, "race of n2", "turn 5, q: won by shard 2", 46)
    picture.line([(780, 430), (780, 542)], stroke="claim", thick=2, arrow=True)
    picture.text(772, 538, "lost", fill="claim", anchor="end", size=14)
    picture.line([(886, 406), (856, 406), (856, 542)], stroke="claim", thick=2, arrow=True)
    picture.text(848, 538, "won", fill="claim", anchor="end", size=14)
    picture.line([(1060, 504), (1060, 628)], arrow=True)
    step(picture, 1080, 612, 8)
    titled(picture, 898, 630, 216, "client C, member of q", "MSG foo 7 5, hello", 46)


def publication():
    picture = Picture(1150, 716, "One PUB over two servers",
                      "At n1 the hub numbers the publication, gives its job to two lanes and a frame to n2; at n2 both shards claim q, and one wins.")
    for x, width, name in [(12, 548, "n1"), (584, 554, "n2")]:
        picture.rect(x, 70, width, 540, fill="band", stroke=None, radius=8)
        picture.text(x + 16, 98, name, size=16, strong=True)
    first_server(picture)
    second_server(picture)
    picture.line([(290, 690), (330, 690)], stroke="lock", thick=1.6, dashed=True)
    picture.text(338, 694, "one lock", fill="muted", size=14)
    picture.line([(420, 690), (460, 690)], stroke="lane", thick=2)
    picture.text(468, 694, "a lane: jobs in order of turns", fill="muted", size=14)
    picture.line([(690, 690), (730, 690)], stroke="claim", thick=2)
    picture.text(738, 694, "a claim, without a lock", fill="muted", size=14)
    return picture.whole()
