"""Outlines around blossoms: the vertices that a blossom's defects have reached, nested as the blossoms are."""
import math

from . import colours


def hull(points):
    """The convex hull, counterclockwise."""
    points = sorted(set(points))
    if len(points) < 3:
        return points

    def half(ps):
        out = []
        for p in ps:
            while len(out) > 1 and (out[-1][0] - out[-2][0]) * (p[1] - out[-2][1]) <= (out[-1][1] - out[-2][1]) * (
                p[0] - out[-2][0]
            ):
                out.pop()
            out.append(p)
        return out[:-1]

    return half(points) + half(points[::-1])


def around(points, margin):
    """A path around points, at a margin from each."""
    ring = [
        (x + margin * math.cos(k * math.pi / 8), y + margin * math.sin(k * math.pi / 8))
        for x, y in points
        for k in range(16)
    ]
    return 'M' + ' L'.join('%.1f,%.1f' % p for p in hull(ring)) + ' Z'


def depth(standing, n):
    """How many blossoms lie in each other below a node."""
    return max((1 + depth(standing, m) for m in standing.members(n)), default=0)


def defects_in(standing, n):
    """The defect nodes that lie in a node."""
    node = standing.nodes[n]
    return [n] if node.vertex is not None else [d for m in standing.members(n) for d in defects_in(standing, m)]


def outlines(scene, standing):
    """Each blossom's colour and path, the outer ones first. One that was opened has none.

    In each panel the places that its defects stand at, and those it holds if it is outermost.
    """
    blossoms = [n for n in standing.nodes if n.vertex is None and not n.removed]
    for b in sorted(blossoms, key=lambda n: -depth(standing, n.number)):
        top = b.number
        while standing.nodes[top].parent is not None:
            top = standing.nodes[top].parent
        vertices = {standing.nodes[d].vertex for d in defects_in(standing, b.number)}
        if top == b.number:
            vertices |= {v for v, n in enumerate(standing.vertex_holders) if n == top}
        layers = {}
        for v in vertices:
            layers.setdefault(scene.layer(v), []).append(scene.spots[v][0])
        for points in layers.values():
            yield colours.of_node(top)[1], around(points, scene.radius * (1.5 + 0.55 * depth(standing, b.number)))
