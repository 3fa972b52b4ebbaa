"""The picture of a graph with its growths as SVG: squared paper for a small graph, a panel for each layer of a large
one.
"""
import math

from . import colours, legend
from .colours import GRID, INK, LINE, OVER
from .nests import outlines
from .scene import Scene
from .sentences import left
from .svg import Svg, room

LEGIBLE = 4.0  # the smallest letters, in pixels


class Picture:
    """A scene, how the clusters stand on it, and the SVG that is made of both."""

    def __init__(self, scene, standing):
        self.scene, self.standing, self.svg = scene, standing, Svg(60 if scene.paper else 20)
        self.top = 34 if scene.script.title else 0
        self.over, self.full, self.ticks, self.dropped = [], [], False, 0

    def colour(self, e, side):
        return colours.of_node(self.standing.holders[e][side])

    def background(self):
        scene = self.scene
        if scene.paper:
            step = next(k for k in (1, 2, 5, 10, 20, 50, 100, 1000) if k * scene.square >= 7)
            grid = ''.join(f'M{k * scene.square:g},0v{scene.tall:g}' for k in range(0, scene.across + 1, step))
            grid += ''.join(f'M0,{k * scene.square:g}h{scene.wide:g}' for k in range(0, scene.down + 1, step))
            self.svg.put(f'<path d="{grid}" stroke="{GRID}" stroke-width="1" fill="none"/>')
        for p in scene.panels:
            if p.name:
                place = f'x="{p.x:.1f}" y="{p.y:.1f}" width="{p.wide:.1f}" height="{p.tall:.1f}"'
                self.svg.put(f'<rect {place} fill="none" stroke="{GRID}"/>')
                self.svg.text(p.x + 4, p.y - 5, p.name, 12)

    def growth(self, stroke, e):
        """The growths of an edge along one of its strokes."""
        (gl, gr), weight, thick = (
            self.standing.growths[e],
            self.standing.weights[e],
            self.scene.thick * (1 if stroke.whole else 0.7),
        )
        tl, tr = (min(gl / weight, 1), min(gr / weight, 1)) if weight else (gl > 0, gr > 0)
        parts = [(0, tl, self.colour(e, 0)[0], -0.3), (1 - tr, 1, self.colour(e, 1)[0], 0.3)]
        for t0, t1, colour, off in parts:
            if t0 >= t1:
                continue
            if gl + gr > weight:  # beside each other, red where both are
                self.svg.line(stroke.curve.part(t0, t1, off * thick), colour, 0.5 * thick)
                self.svg.line(stroke.curve.part(max(t0, 1 - tr), min(t1, tl), off * thick), OVER, 0.5 * thick)
            else:
                self.svg.line(stroke.curve.part(t0, t1), colour, thick)
        if weight and gl + gr == weight:
            rim = (self.scene.radius * 1.14) / stroke.curve.length
            t = min(max(tl, rim), max(1 - rim, 0.5))
            bar = (*stroke.curve.beside(t, -0.9 * thick), *stroke.curve.beside(t, 0.9 * thick))
            self.svg.line('%.1f,%.1f %.1f,%.1f' % bar, INK, 0.22 * thick)

    def tick(self, stroke, weight):
        """A tick for each unit, where there is room."""
        if stroke.whole and 0 < weight <= 60 and stroke.curve.length / weight >= 5:
            self.ticks = self.ticks or weight > 1
            for k in range(1, weight):
                self.svg.line(
                    '%.1f,%.1f %.1f,%.1f' % (*stroke.curve.beside(k / weight, -3), *stroke.curve.beside(k / weight, 3)),
                    LINE,
                    0.9,
                )

    def edges(self, measured):
        thin = 1.5 if self.scene.paper else max(0.4, 0.03 * self.scene.spacing)
        for e, weight in enumerate(self.standing.weights):
            gl, gr = self.standing.growths[e]
            if gl + gr > weight:
                self.over.append(e)
            elif weight and gl + gr == weight:
                self.full.append(e)
            for stroke in self.scene.strokes[e]:
                if self.scene.paper or gl or gr:  # on a large page labels keep clear of growth alone
                    self.svg.taken_by_curve(stroke.curve)
                self.svg.line(
                    stroke.curve.part(0, 1), LINE, thin, '' if stroke.whole else f' stroke-dasharray="{2 * thin:g}"'
                )
                self.growth(stroke, e)
                if measured is None and self.scene.paper:
                    self.tick(stroke, weight)

    def vertices(self):
        scene, r = self.scene, self.scene.radius
        defects = set(self.standing.defects().values())
        for v, spots in enumerate(scene.spots):
            sign = 'defect' if v in defects else 'virtual' if v in scene.graph.virtual else 'vertex'
            for x, y in spots:
                small = r * (0.6 if v in scene.shared else 0.85 if sign == 'virtual' and not scene.paper else 1)
                self.svg.circle(x, y, small, sign)
                self.svg.boxes.add((x - r, y - r, x + r, y + r))
                size = 1.1 * r if scene.paper else min(0.9 * r, 2.0 * small / room(str(v), 1)[0])
                if size >= LEGIBLE:
                    self.svg.text(
                        x,
                        y + 0.36 * size,
                        str(v),
                        round(size, 1),
                        '#fff' if sign == 'defect' else INK,
                        ' text-anchor="middle"',
                    )

    def spots_beside(self, curve, ts, sides, gaps, words, size):
        """Centres for a label beside a curve, clear of it by a gap."""
        w, h = room(words, size)
        clear = lambda t: (abs(curve.at(t)[1][1]) * w + abs(curve.at(t)[1][0]) * h) / 2
        return [curve.beside(t, side * (gap + clear(t))) for gap in gaps for side in sides for t in ts]

    def put_label(self, spots, words, size, colour, more=''):
        if size < LEGIBLE or not self.svg.label(spots, words, size, colour, more, None if self.scene.paper else 14):
            self.dropped += 1

    def label_edge(self, e, curve):
        """Amounts and weight of an edge."""
        scene, size, gap = self.scene, self.scene.size, self.scene.thick * (1 if self.scene.paper else 0.5) + 1
        (gl, gr), weight, opened = self.standing.growths[e], self.standing.weights[e], scene.edges[e][2]
        u, v = curve.at(0.5)[1]
        side = 1 if u < -0.01 or abs(u) <= 0.01 and v < 0 else -1  # above the edge, or at its right
        for g, end in ((gl, 0), (gr, 1)):
            if g:
                middle = max(0.25 if e in self.over or not weight else g / weight / 2, 1.6 * scene.radius / curve.length)
                ts = [abs(end - f * middle) for f in (1, 1.2, 0.8, 1.4, 0.6)]
                self.put_label(
                    self.spots_beside(curve, ts, (-side, side), (gap, gap + 5), str(g), size),
                    str(g),
                    size,
                    OVER if e in self.over else self.colour(e, end)[1],
                    ' font-weight="bold"',
                )
        words = f'{weight}'
        if e in self.over:
            known = self.standing.gaps.get(e)
            words = f'{gl} + {gr} > {weight}' if known is None else f'{weight}, {left(known)}'
        words += f' (opened {opened})' if weight != opened else ''
        if scene.paper or gl or gr or weight != opened:
            self.put_label(
                self.spots_beside(
                    curve, (0.5, 0.42, 0.58, 0.33, 0.67), (side, -side), (gap, gap + 6, gap + 14), words, size
                ),
                words,
                size,
                OVER if e in self.over else INK,
            )

    def label_node(self, node, v):
        scene, size = self.scene, self.scene.size - (1 if self.scene.paper else 0)
        x, y = scene.spots[v][0]
        away = [(0, -1), (0, 1), (1, -1), (-1, -1), (1, 1), (-1, 1), (1, 0), (-1, 0)]
        words, r = f'node {node}', scene.radius
        near = 4 if scene.paper else 1
        spots = [
            (x + i * (r + near + 0.31 * size * len(words)), y + j * (r + 0.8 * size + more))
            for more in (0, 5)
            for i, j in away
        ]
        self.put_label(spots, words, size, INK, ' font-style="italic"')

    def labels(self):
        shown = set(self.over)
        for e, strokes in enumerate(self.scene.strokes):
            if self.scene.paper or any(self.standing.growths[e]) or e in shown:
                self.label_edge(e, strokes[0].curve)
        for node, v in self.standing.defects().items():
            self.label_node(node, v)

    def nests(self):
        """An outline around the vertices of each blossom, and of each blossom in it."""
        for colour, path in outlines(self.scene, self.standing):
            r = self.scene.radius
            self.svg.put(
                f'<path d="{path}" fill="{colour}" fill-opacity="0.10" stroke="{colour}" '
                f'stroke-width="{0.18 * r:.2g}" stroke-dasharray="{0.6 * r:.1f} {0.3 * r:.1f}"/>'
            )

    def draw(self, notes=()):
        """The SVG file."""
        measured = measure(self.scene)
        self.background()
        self.nests()
        self.edges(measured)
        self.vertices()
        self.labels()
        drawn, self.svg.parts = self.svg.parts, []
        if self.scene.script.title:
            self.svg.text(14, 23, self.scene.script.title, 15, INK, ' font-weight="bold"')
        y = legend.key(self, self.top + self.scene.tall + 22, measured, list(notes))
        self.svg.parts.insert(0, f'<g transform="translate(0 {self.top})">\n' + '\n'.join(drawn) + '\n</g>')
        return self.svg.whole(self.scene.wide, y)


def measure(scene):
    """What a square stands for, where it is the same on every edge."""
    if not scene.paper or any(w == 0 for _, _, w in scene.edges):
        return None
    ratios = [math.dist(scene.squares[a][:2], scene.squares[b][:2]) / w for a, b, w in scene.edges]
    if not ratios or max(ratios) > 1.02 * min(ratios):
        return None
    f = sum(ratios) / len(ratios)
    for squares, units in [(1, 1), (2, 1), (3, 1), (4, 1)] + [(1, u * 10**k) for k in range(6) for u in (1, 2, 5)]:
        if abs(f - squares / units) < 0.02 * f:
            return (
                f"{squares if squares > 1 else 'One'} square{'s are' if squares > 1 else ' is'} "
                f"{units if units > 1 else 'one'} unit{'s' if units > 1 else ''} of weight."
            )
    return None


def picture(script, standing, notes=()):
    """The SVG of a script whose clusters stand so."""
    return Picture(Scene(script), standing).draw(notes)
