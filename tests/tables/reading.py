"""An independent reading of docs/SPECIFICATION.md 17 in Python: the verdict on a table from another decoder. Distances
by Dijkstra, the table by its rule."""
import heapq

WEIGHT, DUAL, GROWTH, DISTANCE = 1_000_000, 1_000_000_000, 1_100_000_000_000, 1_023_000_000


def refusal(v, e, edges, virtuals, defects, duals, growths, distances):
    """4 for sizes, 1 for lengths, 4 for numbers out of range or a defect twice; 0 for none. All lists are flat."""
    if not (1 <= v <= 1024 and 1 <= e <= 4096 and (len(edges) + 2) // 3 == e):
        return 4
    if len(duals) != len(defects) or len(growths) != 2 * e or len(distances) != len(defects) * v:
        return 1
    if len(edges) != 3 * e:
        return 4
    for i in range(e):
        a, b, w = edges[3 * i:3 * i + 3]
        if not (0 <= a < v and 0 <= b < v and a != b and 0 <= w <= WEIGHT):
            return 4
    if any(not 0 <= x < v for x in list(virtuals) + list(defects)) or len(set(defects)) < len(defects):
        return 4
    if any(not 0 <= y <= DUAL for y in duals) or any(not 0 <= x <= GROWTH for x in growths):
        return 4
    return 4 if any(not -1 <= d <= DISTANCE for d in distances) else 0


def shortest(v, edges, sources):
    """The distance from the nearest source to each vertex, None where there is no way."""
    at = [[] for _ in range(v)]
    for i in range(len(edges) // 3):
        a, b, w = edges[3 * i:3 * i + 3]
        at[a].append((b, w))
        at[b].append((a, w))
    far = [None] * v
    heap = [(0, s) for s in sources]
    while heap:
        d, u = heapq.heappop(heap)
        if far[u] is None:
            far[u] = d
            for t, w in at[u]:
                if far[t] is None:
                    heapq.heappush(heap, (d + w, t))
    return far


def afresh(v, edges, defects, duals, far):
    """The growth of each side, from distances and dual variables alone."""
    table = []
    for s in range(2 * (len(edges) // 3)):
        i = s // 2
        near, across, w = edges[3 * i + s % 2], edges[3 * i + 1 - s % 2], edges[3 * i + 2]
        growth = 0
        for k, y in enumerate(duals):
            d = far[k][near]
            if d is not None and d < y:
                f = far[k][across]
                growth = min(y - d, w) if f == d + w else 0 if d == f + w else y - d
                break
        table.append(growth)
    return table


def fault(v, e, edges, virtuals, defects, duals, growths, distances):
    """The first rule that fails, in the order of the section, and where; None where the answer is yes.

    Nothing refuses the call."""
    for i in range(e):
        if edges[3 * i + 2] == 0:
            return f"edge {i} has weight 0"
    reach = shortest(v, edges, sorted(set(virtuals)))
    for u in range(v):
        if reach[u] is None:
            return f"vertex {u} reaches no virtual vertex"
    far = [shortest(v, edges, [a]) for a in defects]
    for k, a in enumerate(defects):
        for u in range(v):
            right = -1 if far[k][u] is None else far[k][u]
            if distances[k * v + u] != right:
                return f"defect {k} at vertex {a}: the distance to vertex {u} is {right}, not {distances[k * v + u]}"
    for k, a in enumerate(defects):
        for j in range(k):
            d = far[k][defects[j]]
            if d is not None and duals[k] + duals[j] > d:
                return f"defects {j} and {k}: their dual variables sum to {duals[k] + duals[j]}, their distance is {d}"
    for k, a in enumerate(defects):
        if duals[k] > reach[a]:
            return f"defect {k} at vertex {a}: its dual variable is {duals[k]}, its nearest virtual vertex is at {reach[a]}"
    for s, x in enumerate(afresh(v, edges, defects, duals, far)):
        if growths[s] != x:
            return f"edge {s // 2}, {'right' if s % 2 else 'left'} side: the growth is {x}, not {growths[s]}"
    return None


def verdict(*handed):
    """'yes', 'no' or 'refused K'."""
    k = refusal(*handed)
    return f"refused {k}" if k else "no" if fault(*handed) else "yes"


def words(v, e, edges, virtuals, defects, duals, growths, distances):
    """A table as the program reads it: the count of words, then the words, 8 bytes each, little-endian."""
    numbers = [v, e, len(virtuals), len(defects), *edges, *virtuals, *defects, *duals, *growths, *distances]
    return b"".join(int(x).to_bytes(8, "little", signed=True) for x in [len(numbers), *numbers])


MOST = (1 << 63) - 1  # a negative word counts as this


def sizes_of(head):
    """The four sizes of a table in a file, None where one is out of range."""
    v, e, k, n = (MOST if x < 0 else x for x in head)
    return (v, e, k, n) if 1 <= v <= 1024 and 1 <= e <= 4096 and k <= v and n <= v else None


def lines(data):
    """The lines of a file: its tables one after another. Nothing is said behind a table that input ends in."""
    numbers = [int.from_bytes(data[i:i + 8], "little", signed=True) for i in range(0, len(data) - 7, 8)]
    at, k = 0, 0
    while 8 * at < len(data):
        k += 1
        if at == len(numbers):
            yield f"{k} refused 1"
            return
        count = MOST if numbers[at] < 0 else numbers[at]
        words = numbers[at + 1:at + 1 + count]
        at += 1 + count
        if len(words) < count:
            yield f"{k} refused 1"
            return
        sizes = sizes_of(words[:4]) if count >= 4 else None
        if count < 4:
            yield f"{k} refused 1"
        elif not sizes:
            yield f"{k} refused 4"
        else:
            v, e, m, n = sizes
            parts, rest = [], words[4:]
            for size in (3 * e, m, n, n, 2 * e):
                parts, rest = parts + [rest[:size]], rest[size:]
            whole = count == 4 + 5 * e + m + 2 * n + n * v
            yield f"{k} {verdict(v, e, *parts, rest) if whole else 'refused 1'}"
