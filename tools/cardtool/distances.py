"""The growth table worked out afresh, from shortest distances and dual variables alone.

For a side at u of an edge of weight w to v: if no defect's dual variable y is above its distance to u, the growth is
0. Otherwise let a be that defect and g = y(a) - d(a,u). If v is farther from a by the whole weight, the growth is the
smaller of g and w; if v is nearer by the whole weight, it is 0; else it is g. Nothing here calls the library. Without
blossoms and with weights above 0 the library reads this table.
"""
import heapq
from typing import Dict, List, NamedTuple, Optional, Tuple

from .faults import NotCovered

FAR = 10**15  # above every distance


class Search(NamedTuple):
    """Distances from a defect, as far as they were needed, and the edge by which each vertex was reached."""

    distance: Dict[int, int]
    came: Dict[int, Optional[Tuple[int, int]]]

    def path(self, vertex):
        """The edges from the defect to a vertex, with the vertices that they lead to."""
        out = []
        while self.came[vertex] is not None:
            before, edge = self.came[vertex]
            out.append((edge, vertex))
            vertex = before
        return out[::-1]


class Side(NamedTuple):
    """The side at u of an edge to v."""

    edge: int
    name: str  # left or right
    u: int
    v: int
    weight: int


class Derivation(NamedTuple):
    """How the growth of a side follows."""

    side: Side
    growth: int
    rule: str
    defect: Optional[int] = None  # the vertex of the defect that covers u
    y: int = 0
    near: int = 0  # d(a,u)
    far: int = 0  # d(a,v)


class Distances:
    """A graph, the dual variables of its defects by vertex, and the searches that were made."""

    def __init__(self, vertices, edges, duals, virtual=()):
        self.edges, self.duals, self.virtual = edges, dict(duals), virtual
        self.at: List[List[Tuple[int, int, int]]] = [[] for _ in range(vertices)]
        for e, (a, b, w) in enumerate(edges):
            self.at[a].append((b, w, e))
            self.at[b].append((a, w, e))
        self.greatest = max((w for _, _, w in edges), default=0)
        self.searches: Dict[int, Search] = {}
        self.covers: Dict[int, int] = {}  # vertex: the defect whose dual variable is above its distance
        for a, y in sorted(self.duals.items()):
            if y > 0:
                self.cover(a, y)

    def search(self, start, bound):
        """Dijkstra's search from a vertex, over all distances up to a bound."""
        distance, came, todo = {}, {}, [(0, start, None)]
        while todo:
            d, v, by = heapq.heappop(todo)
            if v in distance:
                continue
            if d > bound:
                break
            distance[v], came[v] = d, by
            for u, w, e in self.at[v]:
                if u not in distance:
                    heapq.heappush(todo, (d + w, u, (v, e)))
        return Search(distance, came)

    def cover(self, a, y):
        """Notes which vertices a defect covers.

        The search goes as far as any end of an edge at one of them, and as any defect that it could meet.
        """
        self.searches[a] = self.search(a, y + max(self.greatest, max(self.duals.values())))
        for u, d in self.searches[a].distance.items():
            if d < y and u in self.virtual:
                raise NotCovered(
                    f'dual variable {y} of the defect at {a} is above its distance {d} to virtual vertex {u}: '
                    'not feasible'
                )
            z = self.duals.get(u, 0)
            if u != a and z > 0 and d < y + z:
                raise NotCovered(
                    f'dual variables {y} and {z} of the defects at {a} and {u} sum to more than their distance {d}: '
                    'not feasible'
                )
            if d < y:
                self.covers[u] = a

    def side(self, edge, name):
        a, b, w = self.edges[edge]
        return Side(edge, name, a, b, w) if name == 'left' else Side(edge, name, b, a, w)

    def derive(self, edge, name):
        """The growth of a side, and how it follows."""
        side = self.side(edge, name)
        a = self.covers.get(side.u)
        if a is None:
            return Derivation(side, 0, 'no dual variable is above the distance of its defect to this vertex: 0')
        y, found = self.duals[a], self.searches[a].distance
        near, far, w = found[side.u], found[side.v], side.weight
        g = y - near
        if far == near + w:
            return Derivation(
                side,
                min(g, w),
                f'{side.v} is farther by the whole weight: the smaller of {y} - {near} = {g} and {w}',
                a,
                y,
                near,
                far,
            )
        if near == far + w:
            return Derivation(side, 0, f'{side.v} is nearer by the whole weight: 0', a, y, near, far)
        return Derivation(
            side, g, f'{side.v} is neither farther nor nearer by the whole weight: {y} - {near} = {g}', a, y, near, far
        )

    def table(self):
        """The growths at the left and right side of every edge."""
        return [(self.derive(e, 'left').growth, self.derive(e, 'right').growth) for e in range(len(self.edges))]

    def nearest(self, vertex, most=3):
        """The defects nearest to a vertex, as (defect, distance, dual variable): why none covers it."""
        found = self.search(vertex, FAR).distance
        near = sorted((d, a) for a, d in ((a, found[a]) for a in self.duals if a in found))
        return [(a, d, self.duals[a]) for d, a in near[:most]]
