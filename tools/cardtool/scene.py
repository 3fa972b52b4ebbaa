"""Where a graph stands on the page: vertices, and edges as strokes. Pictures and the page with steps are made of it.

A vertex has a place in squares and may have a layer; each layer is a panel. An edge between two panels, or to a
virtual vertex that many edges share, is drawn as a short stroke at either end: each stroke shows the whole edge.
"""
import math
from typing import Dict, List, NamedTuple, Tuple

from . import layout
from .curve import Buckets, Curve
from .faults import BadInput

WIDEST = 760  # pixels of squared paper; four are a millimetre
SHARED = 5  # edges from which on a virtual vertex without a place is drawn at each of them
PAPER = 90  # vertices up to which the page is squared paper
SPACING = 34  # pixels between neighbours on a page without squares
MOST_WIDE = 3600  # pixels
LONG = 8  # distances between neighbours


class Stroke(NamedTuple):
    """A curve from left to right.

    `whole`: both its ends are vertices; else `tip` is the end that is only pointed to.
    """

    curve: Curve
    whole: bool
    tip: str = ''  # left or right


class Panel(NamedTuple):
    """A layer on the page: where it stands, how large it is, and its name."""

    x: float
    y: float
    wide: float
    tall: float
    name: str


class Scene:
    """Pixels of every vertex (`spots`; more than one for a shared virtual vertex) and every edge (`strokes`)."""

    def __init__(self, script):
        g = script.graph
        self.script, self.graph, self.edges = script, g, g.edges
        self.shared = self.shared_virtuals()
        self.squares = self.places()
        layers = sorted({p[2] for p in self.squares.values() if len(p) > 2})
        self.layers = layers if len(layers) > 1 else []
        self.paper = not self.layers and g.V <= PAPER and not self.shared
        self.panels: List[Panel] = []
        self.set_out()
        self.strokes: List[List[Stroke]] = self.draw_edges()

    def shared_virtuals(self):
        """Virtual vertices without a place of their own, where others have one."""
        given = self.script.at
        if not given:
            count: Dict[int, int] = {}
            for a, b, _ in self.edges:
                for v in (a, b):
                    count[v] = count.get(v, 0) + 1
            return {v for v in self.graph.virtual if count.get(v, 0) >= SHARED}
        return {v for v in self.graph.virtual if v not in given}

    def places(self):
        """The place of each vertex that has one, in squares."""
        g, given = self.graph, self.script.at
        if given:
            missing = [v for v in range(g.V) if v not in given and v not in self.shared]
            if missing:
                raise BadInput(f'no place for vertex {missing[0]}: at is given for {len(given)} of {g.V} vertices')
            layered = any(len(p) > 2 for p in given.values())
            return {v: (p + (0.0,))[:3] if layered else p for v, p in given.items() if v < g.V}
        if not self.shared:
            return dict(enumerate(layout.places(g.V, g.edges)))
        kept = [v for v in range(g.V) if v not in self.shared]
        number = {v: k for k, v in enumerate(kept)}
        inner = [(number[a], number[b], w) for a, b, w in g.edges if a in number and b in number]
        return dict(zip(kept, layout.places(len(kept), inner))) if kept else {}

    def layer(self, v):
        return self.squares[v][2] if self.layers and len(self.squares[v]) > 2 else None

    def neighbour_distance(self):
        """What is usual between neighbours, in squares."""
        far = sorted(
            math.dist(self.squares[a][:2], self.squares[b][:2])
            for a, b, _ in self.edges
            if a in self.squares and b in self.squares and self.layer(a) == self.layer(b)
        )
        far = [d for d in far if d > 0]
        layers = {}
        for v, p in self.squares.items():
            layers.setdefault(self.layer(v), set()).add(p[:2])
        apart = max(map(layout.nearest, map(list, layers.values())), default=1.0)
        return min(far[len(far) // 4], 1.2 * apart) if far else 1.0

    def set_out(self):
        """Scale, panels, and the pixels of every vertex."""
        xs, ys = [p[0] for p in self.squares.values()] or [0], [p[1] for p in self.squares.values()] or [0]
        self.low, self.high = (math.floor(min(xs)), math.floor(min(ys))), (math.ceil(max(xs)), math.ceil(max(ys)))
        if self.paper:
            self.set_out_paper()
        else:
            self.set_out_panels()
        self.spots: List[List[Tuple[float, float]]] = [[] for _ in range(self.graph.V)]
        for v, p in self.squares.items():
            self.spots[v] = [self.pixel(p)]

    def set_out_paper(self):
        """Whole squares, of 10 or 5 millimetres where that fits."""
        margin, (low, high) = 2, (self.low, self.high)
        self.across, self.down = high[0] - low[0] + 2 * margin, high[1] - low[1] + 2 * margin
        most = max(self.across, self.down)
        self.square = 40 if most <= WIDEST / 40 else 20 if most <= WIDEST / 20 else WIDEST / most
        while margin * self.square < 56:
            margin, self.across, self.down = margin + 1, self.across + 2, self.down + 2
        need = max(580, 8.6 * len(self.script.title) + 28)
        while self.across * self.square < need:
            self.across += 2
        self.left, self.above = low[0] - (self.across - (high[0] - low[0])) // 2, high[1] + margin
        self.wide, self.tall = self.across * self.square, self.down * self.square
        self.thick, self.radius, self.size = (10, 11, 14) if self.square >= 30 else (8, 9, 12)
        self.spacing = self.neighbour_distance() * self.square
        self.pixel = lambda p: ((p[0] - self.left) * self.square, (self.above - p[1]) * self.square)

    def set_out_panels(self):
        """A panel for each layer, side by side; one panel where there are none."""
        near, count = self.neighbour_distance(), max(len(self.layers), 1)
        wide, tall = (self.high[0] - self.low[0] + 1.6 * near), (self.high[1] - self.low[1] + 1.6 * near)
        columns = max(1, round(math.sqrt(count * 1.6 * tall / wide)))
        columns = math.ceil(count / math.ceil(count / columns))
        self.square = min(SPACING / near, MOST_WIDE / (columns * wide))
        self.spacing = near * self.square
        self.thick, self.radius, self.size = (
            max(1.5, 0.2 * self.spacing),
            max(2.0, 0.19 * self.spacing),
            max(3.0, 0.17 * self.spacing),
        )
        head = 20 if self.layers else 0
        pw, ph = wide * self.square, tall * self.square
        for k, name in enumerate(self.layers or ['']):
            self.panels.append(
                Panel(
                    k % columns * (pw + 12),
                    k // columns * (ph + head + 12) + head,
                    pw,
                    ph,
                    f'layer {name:g}' if self.layers else '',
                )
            )
        last = self.panels[-1]
        self.wide, self.tall = max(columns * (pw + 12), 580), last.y + last.tall + 8
        index = {name: k for k, name in enumerate(self.layers)}

        def pixel(p):
            panel = self.panels[index[p[2]] if self.layers and len(p) > 2 else 0]
            return (
                panel.x + (p[0] - self.low[0] + 0.8 * near) * self.square,
                panel.y + (self.high[1] + 0.8 * near - p[1]) * self.square,
            )

        self.pixel = pixel

    def is_whole(self, a, b):
        return a in self.squares and b in self.squares and self.layer(a) == self.layer(b)

    def draw_edges(self):
        """The strokes of every edge."""
        whole = [e for e, (a, b, _) in enumerate(self.edges) if self.is_whole(a, b)]
        bend = self.bends(whole)
        out: List[List[Stroke]] = [[] for _ in self.edges]
        taken: Dict[int, List[float]] = {}  # angles at which strokes leave a vertex
        for e in whole:
            a, b, _ = self.edges[e]
            p, q = self.spots[a][0], self.spots[b][0]
            out[e] = [Stroke(Curve(p, q, bend[e]), True)]
            angle = math.atan2(q[1] - p[1], q[0] - p[0])
            taken.setdefault(a, []).append(angle)
            taken.setdefault(b, []).append(angle + math.pi)
        for e, (a, b, _) in enumerate(self.edges):
            if not out[e]:
                out[e] = self.stubs(a, b, taken)
        return out

    def stubs(self, a, b, taken):
        """A short stroke at either end that has a place."""
        out = []
        for here, there, tip in ((a, b, 'right'), (b, a, 'left')):
            if here not in self.squares:
                continue
            x, y = self.spots[here][0]
            angle = self.free_angle(here, there, taken)
            end = (x + 0.5 * self.spacing * math.cos(angle), y + 0.5 * self.spacing * math.sin(angle))
            out.append(Stroke(Curve((x, y), end) if tip == 'right' else Curve(end, (x, y)), False, tip))
            if there in self.shared:
                self.spots[there].append(end)
        return out

    def free_angle(self, here, there, taken):
        """An angle for a short stroke: near where the other end lies, up for a later layer and down for an earlier
        one, clear of other strokes.
        """
        used = taken.setdefault(here, [])
        if there in self.squares:
            (x, y), (u, v) = self.squares[here][:2], self.squares[there][:2]
            up = 1 if self.squares[there][2] > self.squares[here][2] else -1
            far = math.hypot(u - x, v - y) or 1
            wanted = math.atan2(-(v - y) / far - 0.8 * up, (u - x) / far)
        else:
            dx, dy = sum(math.cos(t) for t in used), sum(math.sin(t) for t in used)
            wanted = math.atan2(-dy, -dx) if math.hypot(dx, dy) > 1e-6 else math.pi
        apart = lambda s, t: abs((s - t + math.pi) % (2 * math.pi) - math.pi)
        cost = lambda t: apart(t, wanted) + sum(max(0, 0.5 - apart(t, s)) * 8 for s in used)
        best = min((wanted + k * math.pi / 12 for k in range(24)), key=lambda t: (round(cost(t), 6), t))
        used.append(best)
        return best

    def bends(self, whole):
        """How far each edge bows out: parallel edges beside each other, and an edge around a vertex that it would
        pass through.
        """
        room = min(self.square, 40) if self.paper else 0.5 * self.spacing
        spots = Buckets(4 * room)
        for v in self.squares:
            x, y = self.spots[v][0]
            spots.add((x, y, x, y), v)
        seen: Dict[Tuple[int, int], int] = {}
        out = {}
        for e in whole:
            a, b, _ = self.edges[e]
            pair = (min(a, b), max(a, b))
            k = seen[pair] = seen.get(pair, -1) + 1
            if k == 0 and self.passes_through(a, b, spots, 0.6 * room):
                k = seen[pair] = 1
            out[e] = (1 if a < b else -1) * ((k + 1) // 2) * (-1) ** k * 0.9 * room
        return out

    def passes_through(self, a, b, spots, near):
        """Whether the straight line between two vertices comes too near to a third."""
        (x, y), (u, v) = self.spots[a][0], self.spots[b][0]
        r2 = (u - x) ** 2 + (v - y) ** 2 or 1
        if not self.paper and r2 > (LONG * self.spacing) ** 2:
            return False  # across the whole page an edge is straight
        box = (min(x, u) - near, min(y, v) - near, max(x, u) + near, max(y, v) + near)
        for c in spots.near(box) - {a, b}:
            p, q = self.spots[c][0]
            t = ((p - x) * (u - x) + (q - y) * (v - y)) / r2
            if 0 < t < 1 and math.dist((p, q), (x + t * (u - x), y + t * (v - y))) < near:
                return True
        return False
