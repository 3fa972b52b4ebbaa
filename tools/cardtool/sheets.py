"""Weights in decimals: the library makes even weights of the values of a sheet."""
from . import package  # noqa: F401
from cluster_growth import decimal, sizes

from . import made
from .faults import NoAnswer
from .plain import many

OUTSIDE = 'until reweighted, the graph lies outside the table equality'


def weigh(script):
    """The edges of a script with a sheet get the weights that the library writes, unless it refuses the opening."""
    graph = script.graph
    if not made.available():
        raise NoAnswer(f'the weights of a sheet are made by the library: {made.BUILD}', graph.where['sheet'][0])
    module = made.opened(graph)
    if isinstance(module, int):
        return
    graph.edges, graph.vanished = module.edges, module.vanished
    for item, edge in zip((i for i in script.items if i.word == 'edge'), module.edges):
        item.fields = list(edge)


def counted(values, vanished):
    """What became of the values, in words."""
    zeros = sum(v == 0 for v in values)
    out = f"sheet: {many(len(values), 'value')}, the largest, {decimal(max(values))}, becomes {sizes.MOST_WEIGHT}; "
    out += f"{many(vanished, 'positive one becomes', 'positive ones become')} 0"
    out += f", {many(zeros, 'is', 'are')} 0 in the sheet" if zeros else ''
    return out + (f': {OUTSIDE}' if vanished or zeros else '')
