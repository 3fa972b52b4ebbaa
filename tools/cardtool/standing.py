"""How the clusters of a run stand: growths, who holds what, and the nodes."""
from typing import Dict, List, NamedTuple, Optional, Tuple

from . import package  # noqa: F401
from cluster_growth import Gap, Node


class Standing(NamedTuple):
    """Growths of each edge; the outermost node that holds each side and each vertex, or None; the nodes; the gap of
    each edge with growth; the present weight of each edge.

    Without the library nobody is known to hold, and no gap is known.
    """

    growths: List[Tuple[int, int]]
    holders: List[Tuple[Optional[int], Optional[int]]]
    vertex_holders: List[Optional[int]]
    nodes: List[Node]
    gaps: Dict[int, Gap]
    weights: List[int]

    def defects(self) -> Dict[int, int]:
        """The vertex of each defect node."""
        return {n.number: n.vertex for n in self.nodes if n.vertex is not None}

    def members(self, blossom: int) -> List[int]:
        """The nodes that lie directly in a blossom."""
        return [n.number for n in self.nodes if n.parent == blossom]

    def outermost(self) -> List[int]:
        """The clusters: nodes that lie in no blossom, without those that were opened."""
        return [n.number for n in self.nodes if n.parent is None and not n.removed]


def of_module(module):
    """How a module stands, read from its block."""
    block = module.block
    outer = [None] + [block.outermost(n) for n in range(block.count())]
    growth, holder = block.row('growth'), [outer[h] for h in block.row('holder')]
    return Standing(
        list(zip(growth[::2], growth[1::2])),
        list(zip(holder[::2], holder[1::2])),
        [outer[h] for h in block.row('vertex_holder')],
        [block.node(n) for n in range(block.count())],
        {e: module.gap(e) for e in range(len(module.edges)) if growth[2 * e] or growth[2 * e + 1]},
        block.weights(),
    )


def of_run(run):
    """How a run stands after its last call."""
    table = run.table()
    if run.made is not None:
        return of_module(run.made.module)
    nodes = []
    for i in run.script.items:
        said = run.answers.get(i.number, [''])[0].split()
        if i.word == 'clear' and said == ['done']:
            nodes = []
        elif said[:1] == ['node'] and i.word == 'defect':
            nodes.append(Node(len(nodes), i.fields[0], None, i.fields[1], None, 0))
        elif said[:1] == ['node'] and i.word == 'blossom':
            number = len(nodes)
            nodes = [
                Node(n.number, n.vertex, n.first_member, 0, number, n.dual) if n.number in i.fields[1:] else n
                for n in nodes
            ]
            nodes.append(Node(number, None, i.fields[1], i.fields[0], None, 0))
    weights = [w for _, _, w in run.graph.edges]
    return Standing(table, [(None, None)] * len(table), [None] * run.graph.V, nodes, {}, weights)
