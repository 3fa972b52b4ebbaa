"""The signs and clusters under a picture."""
from . import colours
from .colours import INK, LINE, OVER


def signs(picture):
    """The signs that the picture has, with their meaning."""
    scene, standing = picture.scene, picture.standing
    defects = set(standing.defects().values())
    plain = set(range(scene.graph.V)) - scene.graph.virtual - defects
    stubs = any(not s.whole for strokes in scene.strokes for s in strokes)
    items = [
        ('vertex', 'vertex', plain),
        ('virtual', 'virtual vertex', scene.graph.virtual),
        ('defect', 'defect', defects),
        ('weight', 'edge, its weight', scene.paper),
        ('growth', 'growth of a side', any(map(any, standing.growths))),
        ('full', 'full edge', picture.full),
        ('over', 'held twice, past its weight', picture.over),
        ('stub', 'the whole edge, as seen from either end', stubs),
    ]
    return [(sign, words) for sign, words, there in items if there]


def draw_sign(picture, sign, x, y):
    """One sign. How much wider than usual it is."""
    svg, (colour, dark) = picture.svg, colours.of_node(
        0 if picture.standing.nodes and picture.standing.holders[0] else None
    )
    line = lambda a, b, c, d, hue, width, more='': svg.line(f'{a},{b} {c},{d}', hue, width, more)
    if sign in ('vertex', 'virtual', 'defect'):
        svg.circle(x + 13, y, 8, sign)
    elif sign == 'growth':
        line(x, y, x + 26, y, LINE, 1.5)
        line(x, y, x + 17, y, colour, 8)
        svg.text(x + 37, y + 4, '2', 13, dark, ' text-anchor="middle" font-weight="bold"')
        return 17
    elif sign == 'full':
        line(x, y, x + 26, y, colour, 8)
        line(x + 13, y - 8, x + 13, y + 8, INK, 2.2)
    elif sign == 'over':
        line(x, y - 3, x + 26, y - 3, OVER, 4)
        line(x, y + 3, x + 26, y + 3, OVER, 4)
    elif sign == 'stub':
        line(x, y, x + 26, y, LINE, 1.5, ' stroke-dasharray="3"')
    else:
        line(x, y + 7, x + 26, y + 7, LINE, 1.5)
        svg.text(x + 13, y + 3, '4', 13, INK, ' text-anchor="middle"')
    return 0


def clusters(picture):
    """The clusters in words: (node, words)."""
    standing = picture.standing
    if all(h is None for h in standing.vertex_holders):
        return []
    size = {}
    for n in standing.vertex_holders:
        size[n] = size.get(n, 0) + 1
    out = []
    for n in standing.outermost():
        node = standing.nodes[n]
        what = (
            f'defect {node.vertex}'
            if node.vertex is not None
            else 'blossom of ' + ', '.join(map(str, standing.members(n)))
        )
        held = size.get(n, 0)
        out.append((n, f"node {n}: {what}, dual variable {node.dual}, {held} {'vertex' if held == 1 else 'vertices'}"))
    return out


def inner_blossoms(standing):
    """A sentence for each blossom that lies in another."""
    inner = [n for n in standing.nodes if n.vertex is None and n.parent is not None]
    members = lambda n: ', '.join(map(str, standing.members(n)))
    return [f'Node {n.number} is a blossom of {members(n.number)} in node {n.parent}.' for n in inner]


def opened_blossoms(standing):
    """A sentence for each blossom that was opened."""
    return [f'Node {n.number} was a blossom and has been opened.' for n in standing.nodes if n.removed]


def flow(picture, y, items, widths, draw):
    """Items beside each other, in lines. Where they end."""
    x = 14
    for item, w in zip(items, widths):
        if x + w > picture.scene.wide and x > 14:
            x, y = 14, y + 22
        x += w + draw(item, x, y)
    return y + 22 if items else y


def key(picture, y, measured, notes):
    """Everything under the picture. Where it ends."""
    svg, found = picture.svg, signs(picture)

    def sign(item, x, y):
        more = draw_sign(picture, item[0], x, y)
        svg.text(x + 33 + more, y + 4, item[1], 12)
        return more

    y = flow(picture, y, found, [54 + 6.4 * len(words) for _, words in found], sign)

    def cluster(item, x, y):
        svg.put(f'<rect x="{x:g}" y="{y - 6:g}" width="26" height="10" rx="2" fill="{colours.of_node(item[0])[0]}"/>')
        svg.text(x + 33, y + 4, item[1], 12)
        return 0

    named = clusters(picture)
    wide = max((54 + 6.3 * len(words) for _, words in named), default=0)
    y = flow(picture, y, named, [wide] * len(named), cluster)
    scale = measured or 'Each edge has its own scale: thick part to length is growth to weight' + (
        '; ticks are units.' if picture.ticks else '.'
    )
    notes = [scale] + inner_blossoms(picture.standing) + opened_blossoms(picture.standing) + notes
    if picture.dropped:
        notes.append(f'{picture.dropped} labels had no room.')
    for note in notes:
        svg.text(14, y + 4, note, 12)
        y += 20
    return y
