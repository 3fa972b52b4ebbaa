"""Pairs up the defects of a graph by letting all of them grow together. An example of a host, not a decoder of least
weight.

A defect that meets another growing one is paired with it, one that meets a virtual vertex is matched with that
vertex; both then stay. One that meets a defect that is matched already goes to its nearest virtual vertex. The
pairing is always valid. The sum of the dual variables is a lower bound for every pairing's cost, so where cost and
sum are equal this one is the lightest.
"""
from __future__ import annotations

import heapq
from dataclasses import dataclass, field
from typing import Any, Callable, Dict, List, Optional, Tuple

from .answers import Conflict, Free, NodeRead, TouchingVirtual
from .dual_module import DualModule
from .values import GrowState


class Unmatched(Exception):
    """A defect that no pairing reaches."""


@dataclass
class Matching:
    """Pairs of defects and defects with their virtual vertex, by vertices; the edges to flip; cost, and the sum of
    dual variables.
    """

    pairs: List[Tuple[int, int]] = field(default_factory=list)
    sides: List[Tuple[int, int]] = field(default_factory=list)
    edges: List[int] = field(default_factory=list)
    cost: int = 0
    dual_sum: int = 0
    rounds: int = 0


Near = List[List[Tuple[int, int, int]]]  # for each vertex: neighbours, weights and edges


def neighbours(module: DualModule) -> Near:
    """What lies around each vertex."""
    near: Near = [[] for _ in range(module.vertices)]
    for e, (a, b, w) in enumerate(module.edges):
        near[a].append((b, w, e))
        near[b].append((a, w, e))
    return near


def shortest_path(near: Near, start: int, goal: Callable[[int], bool]) -> Tuple[int, int, List[int]]:
    """The nearest vertex that is a goal, its distance and the edges on the way."""
    came: Dict[int, Optional[Tuple[int, int]]] = {}
    todo: List[Tuple[int, int, Optional[Tuple[int, int]]]] = [(0, start, None)]
    while todo:
        d, v, by = heapq.heappop(todo)
        if v in came:
            continue
        came[v] = by
        if goal(v):
            way: List[int] = []
            step = by
            while step is not None:
                way.append(step[1])
                step = came[step[0]]
            return v, d, way[::-1]
        for u, w, e in near[v]:
            if u not in came:
                heapq.heappush(todo, (d + w, u, (v, e)))
    raise Unmatched(f'from vertex {start} no way leads to where it could be matched')


class Growing:
    """The defects that still grow, by node, and what was matched so far."""

    def __init__(self, module: DualModule):
        self.module, self.near, self.found = module, neighbours(module), Matching()
        self.vertex: Dict[int, int] = {}
        for n in range(module.node_count()):
            told: Any = module.call('read_node', n)
            if not isinstance(told, NodeRead) or told.vertex is None or told.state != GrowState.GROW or told.dual:
                raise ValueError(f'node {n} is no growing defect of dual variable 0: all have to grow equally far')
            self.vertex[n] = told.vertex
        self.left = list(self.vertex)

    def rest(self, *nodes: int) -> None:
        """The nodes are matched and grow no more."""
        for n in nodes:
            self.module.set_grow_state(n, GrowState.STAY)
            self.left.remove(n)

    def pair(self, n: int, peer: int) -> None:
        """Two defects that met."""
        self.found.pairs.append((self.vertex[n], self.vertex[peer]))
        self.rest(n, peer)

    def side(self, n: int, vertex: Optional[int] = None) -> None:
        """A defect and a virtual vertex, the one that it met or the nearest."""
        if vertex is None:
            virtual = set(self.module.virtual)
            vertex, _, _ = shortest_path(self.near, self.vertex[n], virtual.__contains__)
        self.found.sides.append((self.vertex[n], vertex))
        self.rest(n)

    def round(self) -> None:
        """Asks every growing node once: either some are matched, or all grow by the least length that one of them
        has.
        """
        told = [(n, self.module.max_update_length(n)) for n in self.left]
        before = set(self.left)
        for n, answer in told:
            if n not in self.left or isinstance(answer, Free):
                continue
            if isinstance(answer, TouchingVirtual):
                self.side(n, answer.vertex)
            elif isinstance(answer, Conflict) and answer.peer in self.left:
                self.pair(n, answer.peer)
            elif isinstance(answer, Conflict) and answer.peer not in before:
                self.side(n)
            elif not isinstance(answer, Conflict):
                raise Unmatched(f'the defect at vertex {self.vertex[n]} meets nothing')
        if len(self.left) == len(before):
            least = min(a.length for _, a in told if isinstance(a, Free))
            for n in self.left:
                self.module.grow(n, least)
        self.found.rounds += 1


def match(module: DualModule) -> Matching:
    """Pairs up the defects of a module, which have just been inserted.

    All weights have to be even, so that no gap between two of them is ever odd.
    """
    odd = next((e for e, (_, _, w) in enumerate(module.edges) if w % 2), None)
    if odd is not None:
        raise ValueError(f'edge {odd} has an odd weight: at an odd gap of 1 two defects conflict that do not touch')
    growing = Growing(module)
    while growing.left:
        growing.round()
    found = growing.found
    flips: Dict[int, int] = {}
    for a, b in found.pairs + found.sides:
        _, d, way = shortest_path(growing.near, a, {b}.__contains__)
        found.cost += d
        for e in way:
            flips[e] = flips.get(e, 0) + 1
    found.edges = sorted(e for e, k in flips.items() if k % 2)
    found.dual_sum = sum(module.read_node(n).dual for n in range(module.node_count()))
    return found


def left_over(module: DualModule, defects: List[int], edges: List[int]) -> List[int]:
    """The vertices at which flipping these edges leaves a defect, or makes one: none for a valid correction."""
    odd = set(defects)
    for e in edges:
        odd ^= {module.edges[e][0], module.edges[e][1]}
    return sorted(odd - set(module.virtual))
