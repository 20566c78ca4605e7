"""Draws the pictures of docs/: two drawings, and the tables of docs/MEASURES.md as plots.

Usage: tools/dev plots            writes docs/drawings/*.svg
       tools/dev plots --check    sees that they are what the sources and the tables say, and writes nothing

Every figure of a plot is read from a table of docs/MEASURES.md, and no other is stored anywhere. An arrow of the drawing of the layers that
crates.txt does not have is refused.
"""
import math
import os
import re
import sys

import drawings
from repository import TOP
from svg import Picture

PAGE = os.path.join(TOP, "docs", "MEASURES.md")
ROOM = os.path.join(TOP, "docs", "drawings")

# How each size of a payload is marked: its figure in the table, its name, its colour and its shape.
SIZES = [("16", "16 bytes", "first", "circle"), ("4,096", "4 KiB", "second", "square"), ("65,536", "64 KiB", "third", "diamond")]

# Between two names beside a plot, at least.
LEAST_GAP = 16


def table_below(heading):
    """The rows of the first table below a heading of the page, each a list of its cells; the first has the names of the columns."""
    rows, is_below = [], False
    with open(PAGE, encoding="utf-8") as file:
        for line in file:
            if line.startswith("#"):
                if rows:
                    break
                is_below = line.lstrip("#").strip() == heading
            elif is_below and line.startswith("|"):
                rows.append([cell.strip() for cell in line.strip().strip("|").split("|")])
            elif rows:
                break
    if len(rows) < 3:
        sys.exit(f"tools/dev plots: docs/MEASURES.md has no table below '{heading}'")
    return [rows[0], *rows[2:]]


def value_of(cell):
    """The number in a cell; None where it has none."""
    found = re.fullmatch(r"[\d,]+(?:\.\d+)?", cell)
    return float(cell.replace(",", "")) if found else None


class Scale:
    """A logarithmic scale: which place stands for which number."""

    def __init__(self, least, most, start, end):
        self.least, self.most, self.start, self.end = least, most, start, end

    def place(self, value):
        part = math.log(value / self.least) / math.log(self.most / self.least)
        return self.start + part * (self.end - self.start)


def round_figures(least, most):
    """Round figures, from the last that is not above the least to the first that is not below the most."""
    figures = [digit * 10.0 ** power for power in range(-3, 9) for digit in (1, 2, 5)]
    start = max(place for place, figure in enumerate(figures) if figure <= least)
    end = min(place for place, figure in enumerate(figures) if figure >= most)
    return figures[start:end + 1]


def by_arrangement(column):
    """For each arrangement of the table beside nats-server, in order, the figure of a column for each size."""
    head, *rows = table_below("Beside nats-server")
    place, arrangements, last = head.index(column), {}, ""
    for row in rows:
        name = row[0]
        if name.startswith("the same"):
            name = name.replace("the same", last.rpartition(",")[0], 1)
        else:
            last = name
        arrangements.setdefault(name, {})[row[1]] = value_of(row[place])
    return arrangements


def mark(picture, shape, x, y, fill):
    if shape == "circle":
        picture.circle(x, y, 5.5, fill)
    elif shape == "square":
        picture.square(x, y, 5, fill)
    else:
        picture.diamond(x, y, 7, fill)


def beside(column, title, sentence, better):
    """A row for each arrangement, with a mark for each size, on a scale on which 1 is what nats-server has."""
    arrangements = by_arrangement(column)
    height = 96 + 34 * len(arrangements) + 44
    picture = Picture(940, height, title, sentence)
    known = [figure for figures in arrangements.values() for figure in figures.values() if figure]
    ticks = round_figures(min(known + [1]), max(known + [1]))
    scale = Scale(ticks[0], ticks[-1], 350, 910)
    picture.text(20, 32, title, size=16, strong=True)
    for place, (_, name, fill, shape) in enumerate(SIZES):
        x = 360 + 110 * place
        mark(picture, shape, x, 56, fill)
        picture.text(x + 14, 60.5, name, fill="muted", size=12)
    top, bottom = 78, 86 + 34 * len(arrangements)
    for figure in ticks:
        x = scale.place(figure)
        picture.line([(x, top), (x, bottom)], stroke="ink" if figure == 1 else "muted", thick=1.6 if figure == 1 else 0.4)
        picture.text(x, bottom + 18, f"{figure:g}", fill="ink" if figure == 1 else "muted", anchor="middle", size=12)
    picture.text(scale.place(1), bottom + 36, "as nats-server", anchor="middle", size=12)
    picture.text(910, bottom + 36, better, fill="muted", anchor="end", size=12)
    for place, (name, figures) in enumerate(arrangements.items()):
        y = 102 + 34 * place
        picture.text(334, y + 4.5, name, anchor="end")
        shown = [scale.place(figure) for figure in figures.values() if figure]
        picture.line([(min(shown), y), (max(shown), y)], thick=1)
        for size, _, fill, shape in SIZES:
            if figures.get(size):
                mark(picture, shape, scale.place(figures[size]), y, fill)
    return picture.whole()


def apart(places):
    """These places, each at least a gap below the one before it."""
    moved = []
    for place in places:
        moved.append(max(place, moved[-1] + LEAST_GAP) if moved else place)
    return moved


def subscriptions():
    """A line for each measure, over how many subscriptions are open."""
    head, *rows = table_below("Cost by number of subscriptions")
    counts = [value_of(cell) for cell in head[1:]]
    measured = [(name, [value_of(cell) for cell in cells]) for name, *cells in rows if all(cells)]
    known = [figure for _, figures in measured for figure in figures]
    ticks = round_figures(min(known), max(known))
    picture = Picture(900, 520, "Cost by number of subscriptions", "Instructions of one publication, where more subscriptions are open.")
    picture.text(20, 32, "Cost by number of subscriptions", size=16, strong=True)
    picture.text(20, 54, "instructions of one publication, both scales logarithmic", fill="muted", size=12)
    across, up = Scale(counts[0], counts[-1], 110, 620), Scale(ticks[0], ticks[-1], 460, 80)
    for figure in ticks:
        y = up.place(figure)
        picture.line([(110, y), (620, y)], thick=0.4)
        picture.text(100, y + 4.5, f"{figure:,.0f}", fill="muted", anchor="end", size=12)
    for count in counts:
        x = across.place(count)
        picture.line([(x, 80), (x, 460)], thick=0.4)
        picture.text(x, 480, f"{count:,.0f}", fill="muted", anchor="middle", size=12)
    picture.text(365, 504, "subscriptions that are open", fill="muted", anchor="middle", size=12)
    measures = []
    for name, figures in measured:
        points = [(across.place(count), up.place(figure)) for count, figure in zip(counts, figures)]
        measures.append((points[-1][1], name, points))
    measures.sort()
    for (_, name, points), y in zip(measures, apart([end for end, _, _ in measures])):
        fill = "first" if name.startswith("hot") else "second"
        picture.line(points, stroke=fill, thick=2)
        for point in points:
            picture.circle(*point, 4, fill)
        picture.line([points[-1], (644, y)], thick=0.6)
        picture.text(650, y + 4.5, name, size=12.5)
    return picture.whole()


def pictures():
    """By the names of their files, all pictures."""
    return {
        "layers.svg": drawings.layers(),
        "publication.svg": drawings.publication(),
        "rates.svg": beside("Rate", "Rate beside nats-server", "Messages a second as parts of those of nats-server, by arrangement and size.", "faster →"),
        "processor.svg": beside("Processor time", "Processor time of a message beside nats-server",
                                "Processor time of a message as part of that of nats-server, by arrangement and size.", "more →"),
        "subscriptions.svg": subscriptions(),
    }


def is_as(path, text):
    """Whether the file has this text."""
    try:
        with open(path, encoding="utf-8") as file:
            return file.read() == text
    except OSError:
        return False


def main(words):
    if words not in ([], ["--check"]):
        return None
    made = pictures()
    if words:
        old = [name for name, text in made.items() if not is_as(os.path.join(ROOM, name), text)]
        for name in old:
            print(f"tools/dev plots: docs/drawings/{name} is not what the sources say: run tools/dev plots", file=sys.stderr)
        return 1 if old else 0
    os.makedirs(ROOM, exist_ok=True)
    for name, text in made.items():
        with open(os.path.join(ROOM, name), "w", encoding="utf-8") as file:
            file.write(text)
    return 0
