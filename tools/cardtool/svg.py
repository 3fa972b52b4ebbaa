"""SVG parts, and places for labels that keep clear of what is drawn."""
import math
import re
from html import escape

from .colours import INK
from .curve import Buckets

FORBIDDEN = re.compile('[^\t\n\r\x20-\ud7ff\ue000-\ufffd\U00010000-\U0010ffff]')  # what XML has no room for
CELL, MARKED = 4, 10  # pixels of a cell that a curve may take, and what a label pays for covering one
HALO = ' text-anchor="middle" paint-order="stroke" stroke="#fff" stroke-width="%s" stroke-linejoin="round"'


def safe(words):
    """Words that may stand in XML."""
    return escape(FORBIDDEN.sub('?', words))


def room(words, size):
    """About how wide and high a label is."""
    return 0.62 * size * len(words), 0.95 * size


class Svg:
    """The parts of a picture, and what is taken on the page."""

    def __init__(self, reach=60):
        self.parts = []
        self.boxes, self.labels, self.marks = Buckets(reach), Buckets(reach), set()

    def put(self, part):
        self.parts.append(part)

    def line(self, points, colour, width, more=''):
        self.put(f'<polyline points="{points}" fill="none" stroke="{colour}" stroke-width="{width:g}"{more}/>')

    def text(self, x, y, words, size, colour=INK, more=''):
        self.put(f'<text x="{x:.1f}" y="{y:.1f}" font-size="{size:g}" fill="{colour}"{more}>{safe(words)}</text>')

    def circle(self, x, y, r, sign):
        dashes = f' stroke-dasharray="{0.29 * r:.1f} {0.22 * r:.1f}"' if sign == 'virtual' else ''
        self.put(
            f'<circle cx="{x:.1f}" cy="{y:.1f}" r="{r:g}" fill="{INK if sign == "defect" else "#fff"}" stroke="{INK}" '
            f'stroke-width="{0.145 * r:.2g}"{dashes}/>'
        )

    def taken_by_curve(self, curve):
        """Marks the cells that a curve passes through."""
        for x, y in curve.along(CELL):
            self.marks.add((int(x // CELL), int(y // CELL)))

    def price(self, box, most):
        """How much of a place is taken; counted no further than past `most`."""
        x0, y0, x1, y1 = box
        bad = 0.0
        for i in range(int(x0 // CELL), int(x1 // CELL) + 1):
            for j in range(int(y0 // CELL), int(y1 // CELL) + 1):
                bad += MARKED * ((i, j) in self.marks)
        wide = (x0 - 9, y0 - 9, x1 + 9, y1 + 9)
        for found, near, price in ((self.boxes, 0, 2), (self.labels, 2, 1), (self.labels, 9, 0.06)):
            if bad > most:
                break
            for a, b, c, d in found.near(wide):
                bad += price * max(0, min(x1, c) - max(x0, a) + near) * max(0, min(y1, d) - max(y0, b) + near)
        return bad

    def label(self, spots, words, size, colour, more='', most=None):
        """Writes a label at the best of some spots, given as centres, best first.

        Where even that is worse than `most`, nothing. Whether it fitted.
        """
        w, h = room(words, size)
        best = None
        for rank, (x, y) in enumerate(spots):
            box = (x - w / 2, y - h / 2, x + w / 2, y + h / 2)
            if best is not None and best[0] <= 0.6 * rank:
                break
            bad = 0.6 * rank + self.price(box, math.inf if most is None else most)
            if best is None or bad < best[0]:
                best = (bad, x, y, box)
        bad, x, y, box = best
        if most is not None and bad > most:
            return False
        self.labels.add(box)
        self.text(x, y + 0.36 * size, words, size, colour, HALO % f'{0.22 * size:.2g}' + more)
        return True

    def whole(self, wide, tall):
        """The file."""
        return (
            f'<svg xmlns="http://www.w3.org/2000/svg" width="{wide / 4:g}mm" height="{tall / 4:g}mm" '
            f'viewBox="0 0 {wide:g} {tall:g}" '
            f'font-family="Helvetica, Arial, \'DejaVu Sans\', sans-serif">\n'
            f'<rect width="{wide:g}" height="{tall:g}" fill="#fff"/>\n' + '\n'.join(self.parts) + '\n</svg>\n'
        )
