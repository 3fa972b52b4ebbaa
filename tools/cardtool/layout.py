"""Where the vertices of a graph stand, in squares: a chain on a line, any other graph by distances. No chance in it."""
import heapq
import math

SMALL = 90  # vertices up to which every pair counts
LONG = 120  # squares that a chain may have in one line


def scale(weights, chain):
    """The length in squares that an edge of each weight should have."""
    positive = [w for w in weights if w > 0]
    low, high = min(positive, default=1), max(positive, default=1)
    if len(positive) == len(weights) and high <= (10 if chain else 2.5) * low:
        unit = 1  # weight for one square: 1, 2, 5, 10, ...
        while low / unit > 6:
            unit *= 2.5 if str(unit)[0] == '2' else 2
            unit = int(unit)
        return {w: w / unit * (2 if low / unit < 2 else 1) for w in weights}
    return {w: 4 + 4 * math.log(w / low) / math.log(max(high / low, 2)) if w else 4 for w in weights}


def chain(count, edges):
    """The vertices of a path, in order, with the edges between them; nothing if the graph is none."""
    sides = [[] for _ in range(count)]
    for e, (a, b, _) in enumerate(edges):
        sides[a].append((e, b))
        sides[b].append((e, a))
    ends = [v for v in range(count) if len(sides[v]) == 1]
    if len(edges) != count - 1 or len(ends) != 2 or any(len(s) > 2 for s in sides):
        return None
    order, way, at, came = [ends[0]], [], ends[0], None
    while True:
        on = [(e, v) for e, v in sides[at] if e != came]
        if not on:
            return (order, way) if len(order) == count else None
        came, at = on[0]
        order.append(at)
        way.append(came)


def distances(count, edges, length):
    far = math.inf
    d = [[0 if i == j else far for j in range(count)] for i in range(count)]
    for a, b, w in edges:
        d[a][b] = d[b][a] = min(d[a][b], length[w])
    for k in range(count):
        for i in range(count):
            for j in range(count):
                d[i][j] = min(d[i][j], d[i][k] + d[k][j])
    apart = 1.2 * max(x for row in d for x in row if x < far) + 3
    return [[apart if x == far else x for x in row] for row in d]


def axes(d):
    """Two leading axes of the distances (classical scaling), as a start."""
    n = len(d)
    sq = [[x * x for x in row] for row in d]
    mean = [sum(row) / n for row in sq]
    whole = sum(mean) / n
    gram = [[(mean[i] + mean[j] - sq[i][j] - whole) / 2 for j in range(n)] for i in range(n)]
    found = []
    for k in range(2):
        x = [math.sin(3 * i + k + 1) for i in range(n)]
        for _ in range(120):
            for y in found:
                dot = sum(a * b for a, b in zip(x, y)) / (sum(b * b for b in y) or 1)
                x = [a - dot * b for a, b in zip(x, y)]
            y = [sum(g * a for g, a in zip(row, x)) for row in gram]
            size = math.sqrt(sum(a * a for a in y)) or 1
            value, x = size, [a / size for a in y]
        found.append([a * math.sqrt(value) for a in x])
    return [[x, y] for x, y in zip(*found)]


def spring(count, edges, length):
    """Places whose distances are as near as can be to those in the graph (stress majorization)."""
    d = distances(count, edges, length)
    at = axes(d)
    for i in range(count):  # no two on one spot
        at[i][1] += 0.01 * math.cos(5 * i)
    for _ in range(120):
        for i in range(count):
            x = y = total = 0
            for j in range(count):
                if i != j:
                    w, dx, dy = 1 / d[i][j] ** 2, at[i][0] - at[j][0], at[i][1] - at[j][1]
                    r = d[i][j] / (math.hypot(dx, dy) or 1)
                    x, y, total = x + w * (at[j][0] + dx * r), y + w * (at[j][1] + dy * r), total + w
            at[i] = [x / total, y / total]
    return [(round(x, 2), round(y, 2)) for x, y in at]


def ways(count, edges, length):
    """The neighbours of each vertex, with the length of the edge to them."""
    at = [{} for _ in range(count)]
    for a, b, w in edges:
        at[a][b] = at[b][a] = min(length[w], at[a].get(b, math.inf))
    return at


def reach(at, start):
    """Distances from a vertex; None where no way leads."""
    out, todo = [None] * len(at), [(0, start)]
    while todo:
        d, v = heapq.heappop(todo)
        if out[v] is None:
            out[v] = d
            for u, w in at[v].items():
                if out[u] is None:
                    heapq.heappush(todo, (d + w, u))
    return out


def pivots(at, count):
    """Some vertices far from each other, and the distances from each to all."""
    chosen, rows, near = [0], [], [math.inf] * len(at)
    for _ in range(count):
        rows.append(reach(at, chosen[-1]))
        near = [min(n, math.inf if d is None else d) for n, d in zip(near, rows[-1])]
        chosen.append(max(range(len(at)), key=lambda v: (near[v], -v)))
    far = 1.1 * max(d for row in rows for d in row if d is not None) + 3
    return chosen[:-1], [[far if d is None else d for d in row] for row in rows]


def leading(columns):
    """Two leading axes of vectors that are given by columns, by powers of their products."""
    k = len(columns)
    gram = [[sum(a * b for a, b in zip(columns[i], columns[j])) for j in range(k)] for i in range(k)]
    found = []
    for axis in range(2):
        x = [math.sin(3 * i + axis + 1) for i in range(k)]
        for _ in range(80):
            for y in found:
                dot = sum(a * b for a, b in zip(x, y))
                x = [a - dot * b for a, b in zip(x, y)]
            x = [sum(g * a for g, a in zip(row, x)) for row in gram]
            size = math.sqrt(sum(a * a for a in x)) or 1
            x = [a / size for a in x]
        found.append(x)
    return [[sum(c[v] * a for c, a in zip(columns, x)) for v in range(len(columns[0]))] for x in found]


def spread(count, edges, length):
    """Places of a large graph: distances to some pivots only, then each vertex set right against its neighbours and
    the pivots.
    """
    at = ways(count, edges, length)
    chosen, rows = pivots(at, min(12, count))
    squares = [[d * d for d in row] for row in rows]
    mean = [sum(col) / len(rows) for col in zip(*squares)]
    columns = [[mean[v] - row[v] + sum(row) / count - sum(mean) / count for v in range(count)] for row in squares]
    xs, ys = leading(columns)
    wanted = sum(length[w] for _, _, w in edges)
    now = sum(math.hypot(xs[a] - xs[b], ys[a] - ys[b]) for a, b, _ in edges) or 1
    place = [
        [x * wanted / now + 0.01 * math.sin(v), y * wanted / now + 0.01 * math.cos(5 * v)]
        for v, (x, y) in enumerate(zip(xs, ys))
    ]
    for _ in range(25):
        for v in range(count):
            x = y = total = 0
            for u, d in list(at[v].items()) + [(u, row[v]) for u, row in zip(chosen, rows)]:
                if u != v:
                    d = d or 0.5
                    dx, dy = place[v][0] - place[u][0], place[v][1] - place[u][1]
                    w, r = 1 / d**2, d / (math.hypot(dx, dy) or 1)
                    x, y, total = x + w * (place[u][0] + dx * r), y + w * (place[u][1] + dy * r), total + w
            if total:
                place[v] = [x / total, y / total]
    return [(round(x, 2), round(y, 2)) for x, y in opened_up(place, edges)]


def nearest(points):
    """What is usual between a point and the nearest other one."""
    xs, ys = [p[0] for p in points], [p[1] for p in points]
    size = max(max(xs) - min(xs), max(ys) - min(ys)) / math.sqrt(len(points)) or 1
    cells = {}
    for x, y in points:
        cells.setdefault((int(x // size), int(y // size)), []).append((x, y))
    far = []
    for x, y in points:
        i, j = int(x // size), int(y // size)
        near = [p for a in (-1, 0, 1) for b in (-1, 0, 1) for p in cells.get((i + a, j + b), ())]
        far.append(min((math.dist(p, (x, y)) for p in near if p != (x, y)), default=size))
    return sorted(far)[len(far) // 2]


def opened_up(place, edges):
    """The places as they are, or, where they lie in a heap, evenly in a disc: each in its direction and at its rank."""
    usual = sorted(math.dist(place[a], place[b]) for a, b, _ in edges)[len(edges) // 2]
    if nearest([tuple(p) for p in place]) > 0.2 * usual:
        return place
    x, y = (sum(p[k] for p in place) / len(place) for k in (0, 1))
    ranked = sorted(range(len(place)), key=lambda v: math.dist(place[v], (x, y)))
    out = [None] * len(place)
    for rank, v in enumerate(ranked):
        angle, r = math.atan2(place[v][1] - y, place[v][0] - x), 2 * math.sqrt(rank + 0.5)
        out[v] = (r * math.cos(angle), r * math.sin(angle))
    return out


def places(count, edges):
    """The place of each vertex, worked out."""
    if not edges:
        side = math.ceil(math.sqrt(count))
        return [(4 * (v % side), -4 * (v // side)) for v in range(count)]
    path = chain(count, edges)
    length = scale([w for _, _, w in edges], path is not None)
    if not path:
        return (spring if count <= SMALL else spread)(count, edges, length)
    at, x = [None] * count, 0
    whole = sum(length[w] for _, _, w in edges)
    row = whole if whole <= LONG else max(LONG / 2, 2 * math.sqrt(whole))  # a long chain goes to and fro
    for v, e in zip(path[0], [None] + path[1]):
        x += length[edges[e][2]] if e is not None else 0
        turn, along = divmod(x, row) if whole > LONG else (0, x)
        at[v] = (round(along if turn % 2 == 0 else row - along, 2), -4 * int(turn))
    return at
