"""A decoding graph from a detector error model.

Detectors are vertices. Mechanisms with the same detectors are one edge, its probability that of an odd number of
them. A mechanism of one detector is an edge to a virtual vertex. Weights are ln((1-p)/p), scaled so that the greatest
becomes `greatest`, each then the nearest even whole number; or they stand in a sheet, as decimals of four places, and
the library makes the numbers.
"""
import math
from typing import Dict, List, NamedTuple, Tuple

from . import package  # noqa: F401
from cluster_growth import sizes

from .faults import BadInput
from .plain import many
from .script import Script
from .sheets import counted
from .words import Item


class Edge(NamedTuple):
    """A merged mechanism: its detectors (one or two), probability, observables, the line of the first, and how many
    there were.
    """

    detectors: Tuple[int, ...]
    probability: float
    observables: Tuple[int, ...]
    line: int
    count: int


class Notes:
    """What importing did that is not in the graph."""

    def __init__(self):
        self.lines: List[str] = []

    def add(self, count, what, words):
        """A line about so many of something, where there are any."""
        if count:
            self.lines.append(f'{many(count, what)} {words}')


def merged(model, notes):
    """The edges, in the order in which their first mechanisms stand."""
    found: Dict[Tuple[int, ...], Edge] = {}
    likeliest: Dict[Tuple[int, ...], float] = {}
    never, parallel, split = 0, 0, set()
    for m in model.mechanisms:
        if m.probability == 0:
            never += 1
            continue
        if m.probability > 0.5:
            raise BadInput(f'probability {m.probability:g} is above 0.5: its weight would be negative', m.line)
        e = found.get(m.detectors)
        if e is None:
            found[m.detectors] = Edge(m.detectors, m.probability, m.observables, m.line, 1)
            likeliest[m.detectors] = m.probability
            continue
        parallel += 1
        observables = e.observables
        if m.observables != e.observables:
            split.add(m.detectors)
        if m.probability > likeliest[m.detectors]:
            likeliest[m.detectors], observables = m.probability, m.observables
        p = e.probability * (1 - m.probability) + m.probability * (1 - e.probability)
        found[m.detectors] = Edge(e.detectors, p, observables, e.line, e.count + 1)
    notes.add(never, 'mechanism', 'of probability 0 left out')
    notes.add(parallel, 'mechanism', 'merged with another of the same detectors')
    notes.add(len(split), 'edge', 'whose mechanisms flip different observables: those of the likeliest are kept')
    if not found:
        raise BadInput('no error has a probability above 0')
    return list(found.values())


def components(count, edges):
    """The connected parts of the detectors, greatest first, each as a sorted list."""
    group = list(range(count))

    def root(v):
        while group[v] != v:
            group[v] = v = group[group[v]]
        return v

    for e in edges:
        if len(e.detectors) == 2:
            group[root(e.detectors[0])] = root(e.detectors[1])
    parts: Dict[int, List[int]] = {}
    for v in range(count):
        parts.setdefault(root(v), []).append(v)
    return sorted(parts.values(), key=lambda p: (-len(p), p[0]))


def weights(edges, greatest, notes):
    """Even whole weights."""
    if greatest % 2 or not 2 <= greatest <= sizes.MOST_WEIGHT:
        raise BadInput(f'the greatest weight is an even number from 2 to {sizes.MOST_WEIGHT}, not {greatest}')
    logs = [math.log((1 - e.probability) / e.probability) for e in edges]
    most = max(logs)
    if most <= 0:
        raise BadInput('all probabilities are 0.5: there is no weight above 0')
    out = [2 * math.floor(greatest / 2 * x / most + 0.5) for x in logs]
    off = max(abs(w - greatest * x / most) for w, x in zip(out, logs))
    notes.lines.append(
        f'weights are ln((1-p)/p) from {min(logs):.4g} to {most:.4g}, times {greatest / most:.6g}, '
        f'to even numbers: off by at most {off:.2g}'
    )
    notes.add(sum(w == 0 for w in out), 'edge', 'got weight 0, which the check does not cover')
    return out


def values(edges, greatest, notes):
    """The weights of a sheet, in ten-thousandths."""
    if greatest != sizes.MOST_WEIGHT:
        raise BadInput(f'--greatest beside --sheet: of a sheet the greatest weight becomes {sizes.MOST_WEIGHT}')
    logs = [math.log((1 - e.probability) / e.probability) for e in edges]
    out = [math.floor(10_000 * x + 0.5) for x in logs]
    if max(out) <= 0:
        raise BadInput('in four decimal places there is no weight above 0')
    notes.lines.append(
        f'weights are ln((1-p)/p) from {min(logs):.4g} to {max(logs):.4g}, to four decimal places: off by at most '
        f'{max(abs(v / 10_000 - x) for v, x in zip(out, logs)):.2g}'
    )
    notes.lines.append(counted(out, sum(0 < 1_000_000 * v < max(out) for v in out)))
    return out


def direction(vertex, at, near):
    """Away from the neighbours in the plane."""
    x, y = at[vertex][:2]
    dx = sum(x - at[u][0] for u in near if at.get(u, at[vertex])[2:] == at[vertex][2:])
    dy = sum(y - at[u][1] for u in near if at.get(u, at[vertex])[2:] == at[vertex][2:])
    r = math.hypot(dx, dy)
    return (dx / r, dy / r) if r > 1e-9 else (-1.0, 0.0)


class Places:
    """Where the picture has detectors and virtual vertices.

    The third coordinate is the layer; one coordinate is a line.
    """

    def __init__(self, model, chosen):
        number = {d: v for v, d in enumerate(chosen)}
        self.at = {
            number[d]: (c + (0.0, 0.0))[: max(2, min(len(c), 3))] for d, c in model.coordinates.items() if d in number
        }
        self.whole = len(self.at) == len(chosen)

    def beside(self, vertex, near):
        """A place for a virtual vertex beside a detector, away from its neighbours."""
        mine = self.at[vertex]
        there = [u for u in near if self.at[u][2:] == mine[2:] and u != vertex]
        step = min((math.dist(self.at[u][:2], mine[:2]) for u in there), default=1.0) or 1.0
        dx, dy = direction(vertex, self.at, there)
        return (round(mine[0] + 0.7 * step * dx, 3), round(mine[1] + 0.7 * step * dy, 3)) + mine[2:]


def script(model, greatest=sizes.MOST_WEIGHT, component=None, title='', sheet=False):
    """The Script of a model, with the notes about what was done, and the detector of each vertex."""
    notes = Notes()
    edges = merged(model, notes)
    parts = components(model.detectors, edges)
    if component is not None:
        if not 0 <= component < len(parts):
            raise BadInput(f'component {component}: there are 0 to {len(parts) - 1}, the greatest first')
        keep = set(parts[component])
        edges = [e for e in edges if e.detectors[0] in keep]
        if not edges:
            raise BadInput(f'component {component} is detector {parts[component][0]} alone, without an error')
        chosen = parts[component]
    else:
        chosen = list(range(model.detectors))
    if len(chosen) >= sizes.MOST_VERTICES or len(edges) > sizes.MOST_EDGES:
        several = [len(p) for p in parts if len(p) > 1]
        raise BadInput(
            f'{len(chosen)} detectors and {len(edges)} edges: the library takes {sizes.MOST_VERTICES} vertices, '
            f'virtual ones among them, and {sizes.MOST_EDGES} edges'
            + (f'. --component takes one of the parts of {several[:4]} detectors' if len(several) > 1 else '')
        )
    builder = Builder(model, edges, chosen, notes, title)
    if not sheet:
        return builder.build(weights(edges, greatest, notes))
    builder.out.sheet = [(v, None) for v in values(edges, greatest, notes)]
    return builder.build([0] * len(edges))


class Builder:
    """Puts a script together from edges and their weights."""

    def __init__(self, model, edges, chosen, notes, title):
        self.model, self.edges, self.chosen, self.notes = model, edges, chosen, notes
        self.out = Script()
        self.out.title = title
        self.number = {d: v for v, d in enumerate(chosen)}
        self.places = Places(model, chosen)

    def virtuals(self):
        """The virtual vertex of each detector with a boundary edge: its own where all have room, else one for all."""
        ends = [self.number[e.detectors[0]] for e in self.edges if len(e.detectors) == 1]
        free = sizes.MOST_VERTICES - len(self.chosen)
        own = len(ends) <= free
        if ends and not own:
            self.notes.lines.append(f'{len(ends)} boundary edges share one virtual vertex: {free} would have room')
        return {v: len(self.chosen) + (k if own else 0) for k, v in enumerate(ends)}, own

    def build(self, weight):
        virtual, own = self.virtuals()
        near: Dict[int, List[int]] = {v: [] for v in range(len(self.chosen))}
        rows = []
        for e, w in zip(self.edges, weight):
            a, *b = [self.number[d] for d in e.detectors]
            rows.append((a, b[0] if b else virtual[a], w))
            if b:
                near[a].append(b[0])
                near[b[0]].append(a)
        names = sorted(set(virtual.values()))
        fields = (
            [('graph', [len(self.chosen) + len(names), len(rows)])]
            + [('edge', list(r)) for r in rows]
            + [('virtual', [v]) for v in names]
        )
        self.out.items = [Item(k, word, f) for k, (word, f) in enumerate(fields, 1)]
        if self.places.whole:
            self.out.at = dict(self.places.at)
            for v, name in virtual.items():
                if own:
                    self.out.at[name] = self.places.beside(v, near[v])
        for k, e in enumerate(self.edges):
            for o in e.observables:
                self.out.observables.setdefault(o, []).append(k)
        self.out.detectors = self.chosen
        return self.out, self.notes
