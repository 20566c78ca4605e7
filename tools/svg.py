"""Pictures as SVG that can be read on a light and on a dark page: each has a ground of its own, and colours for both."""
from xml.sax.saxutils import escape

# By kind: how its fill or stroke looks on a light and on a dark page.
FILLS = {
    "ground": ("#ffffff", "#0d1117"),
    "band": ("#f3f5f8", "#161b22"),
    "box": ("#ffffff", "#21262d"),
    "ink": ("#1f2328", "#e6edf3"),
    "muted": ("#59636e", "#9198a1"),
    "lock": ("#8a5a00", "#d9a441"),
    "lane": ("#0860c4", "#6cb0ff"),
    "claim": ("#7440d0", "#b794f6"),
    "first": ("#4089cf", "#4a76a8"),
    "second": ("#1f6fc9", "#6cb0ff"),
    "third": ("#0a2f5c", "#d6ebff"),
}

STROKES = ("ink", "muted", "lock", "lane", "claim", "first", "second", "third")

SANS = "ui-sans-serif,system-ui,'Segoe UI',Helvetica,Arial,sans-serif"
MONO = "ui-monospace,SFMono-Regular,Menlo,Consolas,'Liberation Mono',monospace"


def rules(place):
    """The rules of one of the two looks."""
    fills = [f".f-{kind}{{fill:{colours[place]}}}" for kind, colours in FILLS.items()]
    strokes = [f".s-{kind}{{stroke:{FILLS[kind][place]}}}" for kind in STROKES]
    return "".join(fills + strokes)


STYLE = (f"text{{font-family:{SANS}}}.code{{font-family:{MONO}}}.none{{fill:none}}.strong{{font-weight:600}}"
         f"{rules(0)}@media (prefers-color-scheme:dark) {{{rules(1)}}}")


def number(value):
    """A coordinate, no longer than it has to be."""
    return f"{value:.1f}".rstrip("0").rstrip(".")


class Picture:
    """A picture of so many units, with a title and a sentence for whoever cannot see it."""

    def __init__(self, width, height, title, sentence):
        self.width, self.height, self.title, self.sentence, self.parts = width, height, title, sentence, []

    def rect(self, x, y, width, height, fill="box", stroke="muted", dashed=False, radius=6, thick=1.2):
        dash = ' stroke-dasharray="6 4"' if dashed else ""
        edge = f' class="f-{fill} s-{stroke}" stroke-width="{thick}"{dash}' if stroke else f' class="f-{fill}"'
        if fill == "none":
            edge = f' class="none s-{stroke}" stroke-width="{thick}"{dash}'
        self.parts.append(f'<rect x="{number(x)}" y="{number(y)}" width="{number(width)}" height="{number(height)}" rx="{radius}"{edge}/>')

    def text(self, x, y, words, fill="ink", anchor="start", size=13, code=False, strong=False):
        looks = f"f-{fill}" + (" code" if code else "") + (" strong" if strong else "")
        self.parts.append(f'<text x="{number(x)}" y="{number(y)}" class="{looks}" font-size="{size}" text-anchor="{anchor}">{escape(words)}</text>')

    def line(self, points, stroke="muted", thick=1.3, arrow=False, dashed=False):
        """A line through these points; with an arrow, its head is at the last."""
        dash = ' stroke-dasharray="4 4"' if dashed else ""
        path = " ".join(f"{number(x)},{number(y)}" for x, y in points)
        self.parts.append(f'<polyline points="{path}" class="none s-{stroke}" stroke-width="{thick}"{dash}/>')
        if arrow:
            self.head(points[-2], points[-1], stroke)

    def head(self, before, end, fill):
        """The head of an arrow that comes from the first point to the second."""
        (bx, by), (x, y) = before, end
        length = ((x - bx) ** 2 + (y - by) ** 2) ** 0.5 or 1
        ux, uy = (x - bx) / length, (y - by) / length
        corners = [(x, y), (x - 8 * ux + 3.6 * uy, y - 8 * uy - 3.6 * ux), (x - 8 * ux - 3.6 * uy, y - 8 * uy + 3.6 * ux)]
        path = " ".join(f"{number(cx)},{number(cy)}" for cx, cy in corners)
        self.parts.append(f'<polygon points="{path}" class="f-{fill}"/>')

    def circle(self, x, y, radius, fill):
        self.parts.append(f'<circle cx="{number(x)}" cy="{number(y)}" r="{number(radius)}" class="f-{fill}"/>')

    def square(self, x, y, half, fill):
        self.parts.append(f'<rect x="{number(x - half)}" y="{number(y - half)}" width="{number(2 * half)}" height="{number(2 * half)}" class="f-{fill}"/>')

    def diamond(self, x, y, half, fill):
        corners = [(x, y - half), (x + half, y), (x, y + half), (x - half, y)]
        path = " ".join(f"{number(cx)},{number(cy)}" for cx, cy in corners)
        self.parts.append(f'<polygon points="{path}" class="f-{fill}"/>')

    def whole(self):
        """The text of the picture."""
        head = (f'<svg xmlns="http://www.w3.org/2000/svg" viewBox="0 0 {self.width} {self.height}" width="{self.width}" height="{self.height}" role="img">\n'
                f"<title>{escape(self.title)}</title>\n<desc>{escape(self.sentence)}</desc>\n<style>{STYLE}</style>\n"
                f'<rect width="{self.width}" height="{self.height}" rx="8" class="f-ground"/>\n')
        return head + "\n".join(self.parts) + "\n</svg>\n"
