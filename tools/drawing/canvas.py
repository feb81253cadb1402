"""A canvas of 1,200 pixels that gives an SVG picture with its title above it, and refuses a text
that is cut or crowded, and a colour without another for dark screens."""
import re
from html import escape

WIDTH = 1200
SMALLEST = 16  # pixels: 11 where a page shows the picture 838 pixels wide
HEAD = 48  # the height of what stands above a picture: its title
PROSE = "Verdana, 'DejaVu Sans', sans-serif"
CODE = "'DejaVu Sans Mono', Menlo, Consolas, monospace"
LINES = {
    "thin": 'stroke-width="1.5"',
    "bold": 'stroke-width="4"',
    "thick": 'stroke-width="4"',
    "broken": 'stroke-width="3" stroke-dasharray="8 5"',
    "warm": 'stroke-width="4"',
    "dashed": 'stroke-width="1.5" stroke-dasharray="7 5"',
    "dotted": 'stroke-width="2.5" stroke-dasharray="2 6" stroke-linecap="round"',
    "faint": 'stroke-width="1" stroke-opacity="0.35"',
}
# Blue is what a picture is about: its legend says what that is. Thick and broken lines are blue,
# and what they enclose has a tint of it. The warm colour is for what goes wrong. In grey the lines
# are dark and the tint is light, so both are still told from black and white.
INK, TINT, WARM, GLOW = "#0b4f8a", "#c8def2", "#a63a00", "#fbdcc8"
INKS = {"thick": INK, "broken": INK, "warm": WARM}
HEADS = {"black": "head", INK: "blue-head", WARM: "warm-head"}
TINTS = {INK: TINT, WARM: GLOW}
# The greys of columns that are of another kind than the blue ones.
DARK_GREY, LIGHT_GREY = "#595959", "#dcdcdc"
# What stands for each colour where the reader's screen is dark.
AT_NIGHT = {
    "white": "#0d1117", "black": "#e6edf3", INK: "#79c0ff", TINT: "#17395c", WARM: "#ffa657",
    GLOW: "#5c2d0f", DARK_GREY: "#b8b8b8", LIGHT_GREY: "#4a4a4a",
}
# How wide the letters of the widest likely font are, in parts of the size.
NARROW = {**dict.fromkeys("ijl|'", 0.32), **dict.fromkeys("ft,.:;()[]! Ir", 0.43)}
WIDE = {**dict.fromkeys("mwMW%@", 0.99), **dict.fromkeys("ABCDEFGHJKLNOPQRSTUVXYZ×=+→", 0.82)}


def number(value):
    """A coordinate with at most one decimal."""
    return f"{value:.1f}".rstrip("0").rstrip(".")


def width_of(text, size, code=False, bold=False):
    """How wide a text is at most, in pixels."""
    if code:
        return len(text) * size * 0.61
    parts = sum(NARROW.get(it) or WIDE.get(it) or 0.64 for it in text)
    return parts * size * (1.12 if bold else 1)


def in_lines(text, size, within):
    """A text in lines of at most so many pixels."""
    lines = [""]
    for word in text.split():
        longer = f"{lines[-1]} {word}".strip()
        if width_of(longer, size) <= within:
            lines[-1] = longer
        else:
            lines.append(word)
    return lines


class Canvas:
    """A picture that grows by shapes and texts. `text` is where all texts go through."""

    def __init__(self, name, title, height):
        self.name, self.title, self.height = name, title, height
        self.shapes, self.texts = [], []
        if width_of(title, 19, bold=True) > WIDTH - 24:
            raise ValueError(f"{name}: the title '{title}' is too long")

    def line(self, points, style="thin", arrow=False):
        path = "M" + " L".join(f"{number(x)} {number(y)}" for x, y in points)
        ink = INKS.get(style, "black")
        head = f' marker-end="url(#{HEADS[ink]})"' if arrow else ""
        self.shapes.append(f'<path d="{path}" fill="none" stroke="{ink}" {LINES[style]}{head}/>')

    def box(self, x, y, width, height, style="thin", fill=None, round=0):
        """A box, if nothing else is said white, or with a coloured edge in its tint."""
        fill = fill or TINTS.get(INKS.get(style), "white")
        place = f'x="{number(x)}" y="{number(y)}" width="{number(width)}" height="{number(height)}"'
        ink = INKS.get(style, "black")
        edge = f'stroke="{ink}" {LINES[style]}' if style else 'stroke="none"'
        self.shapes.append(f'<rect {place} rx="{round}" fill="{fill}" {edge}/>')

    def mark(self, x, y, form, size=7, style="thin"):
        """A mark on a curve of this style: a disc, a ring, a square, a diamond or a triangle."""
        ink = INKS.get(style, "black")
        if form == "triangle":
            corners = [(x - size, y + size), (x + size, y + size), (x, y - size - 2)]
            path = "M" + " L".join(f"{number(at)} {number(down)}" for at, down in corners) + " z"
            self.shapes.append(f'<path d="{path}" fill="{ink}"/>')
            return
        if form in ("disc", "ring"):
            fill = ink if form == "disc" else "white"
            place = f'cx="{number(x)}" cy="{number(y)}" r="{size}"'
            self.shapes.append(f'<circle {place} fill="{fill}" stroke="{ink}" stroke-width="2"/>')
            return
        turned = f' transform="rotate(45 {number(x)} {number(y)})"' if form == "diamond" else ""
        place = f'x="{number(x - size)}" y="{number(y - size)}"'
        place += f' width="{2 * size}" height="{2 * size}"'
        self.shapes.append(f'<rect {place} fill="{ink}"{turned}/>')

    def text(
        self, x, y, text, size=17, at="start", code=False, bold=False, within=None, halo=False,
        style="thin",
    ):
        """Writes a text whose base line is at y, in the colour of lines of this style. It has to
        fit into `within` pixels, if given. With a halo, lines below it end before they touch it."""
        width = width_of(text, size, code, bold)
        left = x - {"start": 0, "middle": width / 2, "end": width}[at]
        self.fits(text, size, width, left, y, within)
        look = f'font-size="{size}" text-anchor="{at}"' + (' font-weight="bold"' if bold else "")
        if code:
            look += f' font-family="{CODE}"'
        if style in INKS:
            look += f' fill="{INKS[style]}"'
        if halo:
            look += ' stroke="white" stroke-width="8" paint-order="stroke"'
        place = f'x="{number(x)}" y="{number(y)}"'
        shape = f"<text {place} {look}>{escape(text)}</text>"
        self.texts.append(((left, y - size, left + width, y), text, shape))

    def fits(self, text, size, width, left, y, within):
        """Refuses a text that is too small, leaves its place or runs into another one."""
        place = f"{self.name}: '{text}'"
        if size < SMALLEST:
            raise ValueError(f"{place} has {size} pixels, fewer than {SMALLEST}")
        if within is not None and width > within:
            raise ValueError(f"{place} is {width:.0f} pixels wide and has {within:.0f}")
        if left < 4 or left + width > WIDTH - 4 or y - size < 4 or y + size / 3 > self.height - 2:
            raise ValueError(f"{place} leaves the picture")
        for (low, top, high, bottom), other, _ in self.texts:
            if left < high and low < left + width and y - size < bottom and top < y:
                raise ValueError(f"{place} runs into '{other}'")

    def legend(self, x, y, looks, size=17, space=36):
        """A box of each style, or of a style and a fill, with what it means, one below the other.
        Returns the next height."""
        for style, text, *fill in looks:
            self.box(x, y - 19, 52, 26, style, *fill)
            self.text(x + 68, y, text, size)
            y += space
        return y

    def lines(self, x, y, texts, size=17, space=26):
        """Texts one below the other, the first with its base line at y, each in as many lines as it
        takes."""
        for text in texts:
            for line in in_lines(text, size, WIDTH - 20 - x):
                self.text(x, y, line, size)
                y += space

    def night(self):
        """The rules by which the picture's colours turn where the screen is dark."""
        rules = "".join(
            f'[fill="{day}"]{{fill:{it}}}[stroke="{day}"]{{stroke:{it}}}'
            for day, it in AT_NIGHT.items()
        )
        letters = f"text{{fill:{AT_NIGHT['black']}}}"
        return f"<style>@media (prefers-color-scheme: dark){{{letters}{rules}}}</style>"

    def see_that_colours_turn(self):
        """Refuses a colour that has no other where the screen is dark."""
        drawn = "".join([*self.shapes, *(shape for _, _, shape in self.texts)])
        used = set(re.findall(r'(?:fill|stroke)="([^"]+)"', drawn)) - {"none"}
        if not used <= set(AT_NIGHT):
            raise ValueError(f"{self.name}: no colour at night for {sorted(used - set(AT_NIGHT))}")

    def svg(self):
        """The picture as the text of an SVG file."""
        self.see_that_colours_turn()
        place = f"0 {-HEAD} {WIDTH} {self.height + HEAD}"
        head = f'<svg xmlns="http://www.w3.org/2000/svg" viewBox="{place}"'
        name = f'x="20" y="{34 - HEAD}" font-size="19" font-weight="bold"'
        size = 'viewBox="0 0 10 8" refX="9" refY="4" markerWidth="13" markerHeight="11"'
        turned = 'markerUnits="userSpaceOnUse" orient="auto"'
        return "\n".join([
            f'{head} font-family="{PROSE}">',
            f"<title>{escape(self.title)}</title>",
            *(
                f'<defs><marker id="{name}" {size} {turned}>'
                f'<path d="M0 0 L10 4 L0 8 z" fill="{ink}"/></marker></defs>'
                for ink, name in HEADS.items()
            ),
            self.night(),
            f'<rect y="{-HEAD}" width="{WIDTH}" height="{self.height + HEAD}" fill="white"/>',
            f"<text {name}>{escape(self.title)}</text>",
            *self.shapes,
            *(shape for _, _, shape in self.texts),
            "</svg>\n",
        ])
