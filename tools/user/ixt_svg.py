"""Small SVG pictures: shapes and text in a fixed-width font, whose widths are known, so that no
text comes to lie over another."""
from typing import NamedTuple
from xml.sax.saxutils import escape, quoteattr

# A page of paper, less its margins, in pixels of 1/96 inch: the greatest width and height of a
# picture that lies or stands.
LYING = (1040, 720)
STANDING = (720, 1040)

FONT = "DejaVu Sans Mono, Menlo, Consolas, Liberation Mono, monospace"
ADVANCE = 0.61  # the width of a character, by the size of the font
INK = "#1a1a1a"
PALE = "#6b6b6b"
HAIR = "#d9d9d9"

ALARM = "#b3261e"


class Shade(NamedTuple):
    """A fill, the ink that is read on it, and an edge of the same colour that is seen on white."""

    fill: str
    ink: str
    edge: str


# They differ in colour and, from light to dark, in grey.
SHADES = [
    Shade("#fff3c4", INK, "#b8962e"),
    Shade("#bfe3b4", INK, "#4f9a43"),
    Shade("#7fbfe0", INK, "#2a7fb0"),
    Shade("#8d78c2", "#ffffff", "#5b46a0"),
    Shade("#43305f", "#ffffff", "#2a1b42"),
]


def number(value):
    """A length as SVG has it, to a tenth of a pixel."""
    return f"{value:.1f}".rstrip("0").rstrip(".")


def text_width(words, size):
    return len(words) * size * ADVANCE


def fitted(words, size, room):
    """The words, cut where they are wider than the room."""
    most = int(room / (size * ADVANCE))
    if len(words) <= most:
        return words
    return words[: most - 1] + "…" if most > 1 else ""


def step_of(wide, words_wide):
    """How many columns of a width lie from one number above them to the next, so that numbers keep
    apart."""
    return next((step for step in (1, 5, 10, 50, 100) if words_wide + 3 <= wide * step), 1000)


def visible(words):
    """The words without characters that XML does not have."""
    return "".join(it if it.isprintable() else "?" for it in words)


class Picture:
    """A picture to which shapes are added; later ones lie over earlier ones."""

    def __init__(self, title):
        self.title = title
        self.shapes = []

    def _add(self, name, places, tip="", **style):
        parts = [f'{key}="{number(value)}"' for key, value in places.items()]
        parts += [
            f"{key.replace('_', '-')}={quoteattr(str(value))}"
            for key, value in style.items()
            if value is not None
        ]
        inside = f"<title>{escape(visible(tip))}</title>" if tip else ""
        self.shapes.append(
            f"<{name} {' '.join(parts)}>{inside}</{name}>"
            if inside
            else f"<{name} {' '.join(parts)}/>"
        )

    def rectangle(self, left, top, width, height, tip="", **style):
        self._add("rect", {"x": left, "y": top, "width": width, "height": height}, tip, **style)

    def line(self, x1, y1, x2, y2, **style):
        style.setdefault("stroke", HAIR)
        self._add("line", {"x1": x1, "y1": y1, "x2": x2, "y2": y2}, **style)

    def circle(self, x, y, radius, tip="", **style):
        self._add("circle", {"cx": x, "cy": y, "r": radius}, tip, **style)

    def polygon(self, points, tip="", **style):
        self._add(
            "polygon",
            {},
            tip,
            points=" ".join(f"{number(x)},{number(y)}" for x, y in points),
            **style,
        )

    def path(self, points, **style):
        """A line from point to point."""
        style.setdefault("stroke", INK)
        self._add(
            "polyline",
            {},
            fill="none",
            points=" ".join(f"{number(x)},{number(y)}" for x, y in points),
            **style,
        )

    def text(self, x, y, words, size, anchor="start", fill=INK, weight=None, turn=None):
        """Words whose base line is at y; they begin, have their middle or end at x."""
        parts = [f'x="{number(x)}" y="{number(y)}" font-size="{number(size)}" fill="{fill}"']
        if anchor != "start":
            parts.append(f'text-anchor="{anchor}"')
        if weight:
            parts.append(f'font-weight="{weight}"')
        if turn:
            parts.append(f'transform="rotate({number(turn)} {number(x)} {number(y)})"')
        self.shapes.append(
            f'<text {" ".join(parts)} xml:space="preserve">{escape(visible(words))}</text>'
        )

    def whole(self, width, height):
        """The text of the picture, on white."""
        head = (
            '<svg xmlns="http://www.w3.org/2000/svg" '
            f'width="{number(width)}" height="{number(height)}" '
            f'viewBox="0 0 {number(width)} {number(height)}" font-family="{FONT}" role="img">'
        )
        ground = f'<rect width="{number(width)}" height="{number(height)}" fill="#ffffff"/>'
        return "\n".join(
            [
                head,
                f"<title>{escape(visible(self.title))}</title>",
                ground,
                *self.shapes,
                "</svg>",
                "",
            ]
        )


class Legend:
    """Signs with words beside them, laid out in lines below a picture."""

    def __init__(self, picture, left, top, room, size=9):
        self.picture = picture
        self.left, self.room, self.size = left, room, size
        self.x, self.y = left, top
        self.height = size + 7

    def add(self, sign_width, words, draw):
        """`draw(x, y)` draws the sign, whose left edge and base line are given."""
        words = fitted(words, self.size, self.room - sign_width - 5)
        wide = sign_width + 5 + text_width(words, self.size) + 16
        if self.x > self.left and self.x + wide > self.left + self.room:
            self.x, self.y = self.left, self.y + self.height
        draw(self.x, self.y)
        self.picture.text(self.x + sign_width + 5, self.y, words, self.size)
        self.x += wide

    def bottom(self):
        return self.y + 6
