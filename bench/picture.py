"""A picture as one SVG: shapes and texts on a white ground, each text cut to the room that it has.

All texts have letters of one width, so that what fits here fits in every viewer. What was cut stands whole in the
title of its text, which viewers show beside the pointer. The same calls give the same bytes.
"""
import contextlib
from xml.sax.saxutils import escape, quoteattr

LETTER = 0.61
INK = "#1a1a1a"
FAINT = "#5a5a5a"
RULE = "#c9ced4"
PAPER = "#ffffff"
WARNING = "#a33c00"
# Eight colours that are told apart also by those who see fewer of them. A ninth thread has the first one, broken.
COLOURS = ["#0072b2", "#e69f00", "#009e73", "#d55e00", "#56b4e9", "#cc79a7", "#f0e442", "#4d4d4d"]


def letters_in(width, size):
    """How many letters of a size have room."""
    return int(width / (LETTER * size))


def cut(words, letters):
    """The words, or their front and an ellipsis where they are longer."""
    return words if len(words) <= letters else words[:max(letters - 1, 0)] + "…"


def attributes(pairs):
    """The attributes that are given, numbers without more digits than they need."""
    given = [(name, value) for name, value in pairs if value is not None]
    words = [(name, f"{value:g}" if isinstance(value, float) else str(value)) for name, value in given]
    return "".join(f" {name}={quoteattr(word)}" for name, word in words)


def titled(title):
    return f"<title>{escape(title)}</title>" if title else ""


class Picture:
    """The parts of a picture in the order in which they are painted, and how far they reach."""

    def __init__(self):
        self.parts = []
        self.right = self.bottom = 0

    def reach(self, x, y):
        self.right = max(self.right, x)
        self.bottom = max(self.bottom, y)

    @contextlib.contextmanager
    def group(self, title):
        """What is painted meanwhile has this title."""
        self.parts.append(f"<g>{titled(title)}")
        yield
        self.parts.append("</g>")

    def rectangle(self, x, y, width, height, fill, stroke=None, thick=1, dash=None, corner=None, at=None):
        """A rectangle, painted last, or as the part of this number."""
        self.reach(x + width, y + height)
        part = "<rect" + attributes([
            ("x", x), ("y", y), ("width", width), ("height", height), ("rx", corner), ("fill", fill),
            ("stroke", stroke), ("stroke-width", thick if stroke else None), ("stroke-dasharray", dash)]) + "/>"
        self.parts.insert(len(self.parts) if at is None else at, part)

    def line(self, x, y, to_x, to_y, stroke, thick=1):
        self.parts.append("<line" + attributes([
            ("x1", x), ("y1", y), ("x2", to_x), ("y2", to_y), ("stroke", stroke), ("stroke-width", thick)]) + "/>")

    def circle(self, x, y, radius, fill, stroke, thick=1):
        self.parts.append("<circle" + attributes([
            ("cx", x), ("cy", y), ("r", radius), ("fill", fill), ("stroke", stroke), ("stroke-width", thick)]) + "/>")

    def triangle(self, x, y, to_x, to_y, half):
        """An arrow's head with its point at (to_x, to_y), and half its foot to each side of (x, y)."""
        across, along = (0, half) if y == to_y else (half, 0)
        points = f"{to_x},{to_y} {x - across},{y - along} {x + across},{y + along}"
        self.parts.append("<polygon" + attributes([("points", points), ("fill", INK)]) + "/>")

    def cross(self, x, y, half):
        for turn in (1, -1):
            self.line(x - half, y - half * turn, x + half, y + half * turn, WARNING, 2)

    def text(self, x, y, words, width, size=11, fill=INK, bold=False, anchor=None, slant=None):
        """Words in the room of a width, on the line y."""
        if not words:
            return
        shown = cut(words, letters_in(width, size))
        whole = words if shown != words else None
        self.parts.append("<text" + attributes([
            ("x", x), ("y", y), ("font-size", size if size != 11 else None), ("fill", fill if fill != INK else None),
            ("font-weight", "bold" if bold else None), ("text-anchor", anchor), ("font-style", slant)]) +
            f">{titled(whole)}{escape(shown)}</text>")
        self.reach(x, y)

    def stripe(self, x, y, height, thread):
        """A thread's colour, broken from the ninth thread on."""
        colour = COLOURS[thread % len(COLOURS)]
        broken = thread >= len(COLOURS)
        self.rectangle(x, y, 6, height, PAPER if broken else colour, FAINT, 0.5)
        for part in range(3 if broken else 0):
            self.rectangle(x, y + part * height * 2 / 5, 6, height / 5, colour)

    def svg(self, title, description, margin):
        """The whole picture."""
        width, height = self.right + margin, self.bottom + margin
        head = attributes([
            ("xmlns", "http://www.w3.org/2000/svg"), ("width", width), ("height", height),
            ("viewBox", f"0 0 {width} {height}"), ("role", "img")])
        family = attributes([
            ("font-family", "'DejaVu Sans Mono', Menlo, Consolas, monospace"), ("font-size", 11), ("fill", INK)])
        ground = "<rect" + attributes([("width", width), ("height", height), ("fill", PAPER)]) + "/>"
        return "\n".join([
            f"<svg{head}>", titled(title), f"<desc>{escape(description)}</desc>", ground, f"<g{family}>",
            *self.parts, "</g>", "</svg>", ""])
