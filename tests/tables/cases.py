"""Tables to check: of graph P and other worked examples, of random runs of the model, and spoiled ones."""
import os
import random
import sys

sys.path.insert(0, os.path.dirname(os.path.dirname(os.path.abspath(__file__))))
sys.path.insert(0, os.path.dirname(os.path.abspath(__file__)))
import model  # noqa: E402
import reading  # noqa: E402

# (V, edges, virtual vertices, defects, growth of each, in turns)
P1 = (4, [(0, 1, 4), (1, 2, 4), (2, 3, 4)], [0, 3], [1, 2], [(0, 2), (1, 2)])
P8 = (3, [(0, 1, 2), (1, 2, 6)], [2], [1], [(0, 2), (0, 3)])
P9 = (4, [(0, 1, 2), (0, 2, 2), (1, 2, 2), (2, 3, 20)], [3], [0], [(0, 2), (0, 3)])


def flat(edges):
    return [x for edge in edges for x in edge]


def rows(v, edges, defects):
    """The distances from each defect to every vertex, row behind row."""
    return [-1 if d is None else d for a in defects for d in reading.shortest(v, edges, [a])]


def handed(st, v, edges, virtuals, defects):
    """What a run of the model hands over."""
    growths = model.table(st)
    duals = [st.nodes[i].dual for i in range(len(defects))]
    e = flat(edges)
    return (v, len(edges), e, virtuals, defects, duals, growths, rows(v, e, defects))


def opened(v, edges, virtuals, defects):
    _, st = model.open_graph(v, len(edges), max(len(defects), 1), 65536, edges, virtuals)
    for a in defects:
        model.insert_defect(st, a, model.GROW)
    return st


def worked(v, edges, virtuals, defects, calls):
    """A worked example: prepare and grow in turn."""
    st = opened(v, edges, virtuals, defects)
    for node, by in calls:
        model.prepare(st, node, 1)
        assert model.grow(st, node, by) == ('done',), (node, by)
    return handed(st, v, edges, virtuals, defects)


def random_graph(rng, vmax=9, wmax=12):
    """A graph with positive weights in which every vertex reaches a virtual one; edges may be parallel."""
    v = rng.randint(2, vmax)
    edges = [(rng.randrange(i), i, rng.randint(1, wmax)) for i in range(1, v)]
    for _ in range(rng.randint(0, v)):
        a, b = rng.sample(range(v), 2)
        edges.append((a, b, rng.randint(1, wmax)))
    edges = [(b, a, w) if rng.random() < 0.5 else (a, b, w) for a, b, w in edges]
    rng.shuffle(edges)
    virtuals = rng.sample(range(v), rng.randint(1, max(1, v // 3)))
    return v, edges, virtuals


def random_run(rng, vmax=9):
    """A run of the model on a random graph: defects in any grow state, random growth and shrinking, no blossom."""
    v, edges, virtuals = random_graph(rng, vmax)
    real = [a for a in range(v) if a not in virtuals]
    defects = rng.sample(real, rng.randint(0, min(4, len(real)))) if real else []
    st = opened(v, edges, virtuals, defects)
    for _ in range(rng.randint(0, 12) if defects else 0):
        node = rng.randrange(len(defects))
        model.set_state(st, node, rng.choice([model.GROW, model.GROW, model.STAY, model.SHRINK]))
        if rng.random() < 0.5:
            model.advance(st, node)
        else:
            by = rng.randint(-4, 8)
            model.prepare(st, node, 1 if by >= 0 else 0)
            model.grow(st, node, by)
    return handed(st, v, edges, virtuals, defects)


def feasible(rng, vmax=9):
    """Feasible dual variables and their table, with two islands at times, each with a virtual vertex."""
    v, edges, virtuals = random_graph(rng, vmax)
    if rng.random() < 0.4:
        w, more, marks = random_graph(rng, vmax)
        edges += [(a + v, b + v, x) for a, b, x in more]
        virtuals += [a + v for a in marks]
        v += w
    e = flat(edges)
    defects = rng.sample(range(v), rng.randint(0, min(5, v)))
    far = [reading.shortest(v, e, [a]) for a in defects]
    reach = reading.shortest(v, e, virtuals)
    duals = []
    for k, a in enumerate(defects):
        most = min([reach[a]] + [far[k][defects[j]] - duals[j] for j in range(k) if far[k][defects[j]] is not None])
        duals.append(rng.choice([max(most, 0), rng.randint(0, max(most, 0))]))
    return (v, len(edges), e, virtuals, defects, duals, reading.afresh(v, e, defects, duals, far), rows(v, e, defects))


def numbers(t):
    """How many numbers a table has that can be changed."""
    return sum(len(part) for part in t[2:])


def changed(t, place, to):
    """The table with another number at a place: `to` is a function of the old one."""
    parts = [list(part) for part in t[2:]]
    for part in parts:
        if place < len(part):
            part[place] = to(part[place])
            break
        place -= len(part)
    return (*t[:2], *parts)


CHANGES = [
    lambda x: x + 1,
    lambda x: x - 1,
    lambda x: 0,
    lambda x: -1,
    lambda x: -2,
    lambda x: x + 2,
    lambda x: x ^ 1,
    lambda x: 1_023_000_001,
    lambda x: 1_000_000_001,
    lambda x: 1_100_000_000_001,
    lambda x: (1 << 63) - 1,
    lambda x: -(1 << 63),
]

# ---- decoders of our own making with a planted fault


def capped_twice_held(t):
    """An edge with one holder on both sides is never let past its weight."""
    growths = list(t[6])
    for i in range(t[1]):
        over = growths[2 * i] + growths[2 * i + 1] - t[2][3 * i + 2]
        if over > 0:
            growths[2 * i], growths[2 * i + 1] = min(growths[2 * i], t[2][3 * i + 2]), max(growths[2 * i + 1] - over, 0)
    return (*t[:6], growths, t[7])


def halved_stay_gap(t):
    """A defect grows by the whole gap, its greatest side only by half of what it has, as if every peer grew too."""
    growths = [x - x // 2 if i == max(range(len(t[6])), key=t[6].__getitem__) else x for i, x in enumerate(t[6])]
    return (*t[:6], growths, t[7])


def one_edge_dropped(t):
    """Of two edges that leave a covered vertex one is forgotten."""
    growths = list(t[6])
    growths[max(range(len(growths)), key=growths.__getitem__)] = 0
    return (*t[:6], growths, t[7])


def special():
    """Tables that each break one rule, or keep it at its limit."""
    p1 = worked(*P1)
    v, e, edges, virtuals, defects, duals, growths, distances = p1
    yield (v, e, edges, virtuals, [], [], [0] * 6, [])
    yield (v, e, edges, virtuals, [], [], [0, 0, 0, 0, 0, 1], [])
    yield (v, e, edges, [], defects, duals, growths, distances)
    yield (v, e, [0, 1, 0, *edges[3:]], virtuals, defects, duals, growths, distances)
    yield (v, e, edges, virtuals, [1, 1], duals, growths, distances)
    yield (v, e, edges, virtuals, [1, 0], [2, 0], [2, 2, 2, 0, 0, 0], rows(v, edges, [1, 0]))
    yield (v, e, edges, [0, 3, 3, 0], defects, duals, growths, distances)
    yield (v, e, edges, virtuals, defects, duals[:1], growths, distances)
    yield (v, e, edges, virtuals, defects, duals, growths[:5], distances)
    yield (v, e, edges, virtuals, defects, duals, growths, distances[:7])
    yield (0, e, edges, virtuals, defects, duals, growths, distances)
    yield (1025, e, edges, virtuals, defects, duals, growths, distances)
    yield (v, 0, edges, virtuals, defects, duals, growths, distances)
    yield (v, 4, edges, virtuals, defects, duals, growths, distances)
    # two islands: no way between the defects, each free up to its virtual vertex
    island = (4, 2, [0, 1, 4, 2, 3, 6], [1, 3], [0, 2], [4, 6], [4, 0, 6, 0], [0, 4, -1, -1, -1, -1, 0, 6])
    yield island
    yield (*island[:5], [4, 7], [4, 0, 6, 0], island[7])
    yield (*island[:7], [0, 4, -1, -1, -1, 1_023_000_000, 0, 6])
    yield (4, 2, island[2], [1], *island[4:])
    # a dual variable of 0 counts in its pair
    yield (4, 3, edges, virtuals, [1, 2], [5, 0], [4, 1, 5, 0, 0, 0], rows(v, edges, [1, 2]))
    # 1,023 heavy edges in a row: the greatest distance
    long = [x for i in range(1023) for x in (i, i + 1, 1_000_000)]
    yield (1024, 1023, long, [1023], [0], [0], [0] * 2046, [1_000_000 * i for i in range(1024)])


def stored():
    """The tables that the gate checks: the worked examples, each number of them changed by 1 either way, and the special ones."""
    for example in (P1, P8, P9):
        t = worked(*example)
        yield t
        for place in range(numbers(t)):
            for to in CHANGES[:2]:
                yield changed(t, place, to)
    yield from special()
    for broken in (capped_twice_held(worked(*P9)), halved_stay_gap(worked(*P8)), one_edge_dropped(worked(*P9))):
        yield broken


def seeded(seed, count):
    """Random tables, two in three of them spoiled at a random place."""
    rng = random.Random(seed)
    while count > 0:
        t = rng.choice([random_run, feasible])(rng)
        yield t
        count -= 1
        for _ in range(rng.randint(0, 4)):
            if count > 0 and numbers(t):
                yield changed(t, rng.randrange(numbers(t)), rng.choice(CHANGES))
                count -= 1


def file():
    """The file that the gate hands to the program: the stored tables, counts that fit no table, and an end inside one."""
    count = lambda x: x.to_bytes(8, 'little', signed=True)  # noqa: E731
    whole = b''.join(reading.words(*t) for t in stored())
    odd = count(0) + count(3) + 24 * b'\7' + count(9) + 72 * b'\xff'
    return whole + odd + reading.words(*worked(*P1)) + reading.words(*worked(*P8))[:-5]
