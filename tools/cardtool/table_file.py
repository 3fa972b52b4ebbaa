"""Table files (docs/TABLE-FILE.md): writes them, runs the program tablecheck on them, and finds which rule fails first.
What is found is the tool's own search; proved is only the program's verdict."""
import heapq
import os
import subprocess

from .faults import BadInput, NoAnswer

TOP = os.path.dirname(os.path.dirname(os.path.dirname(os.path.abspath(__file__))))
PROGRAM = os.environ.get('TABLECHECK') or os.path.join(TOP, 'target', 'bin', 'tablecheck')
LIMITS = {'weight': 1_000_000, 'dual variable': 1_000_000_000, 'growth': 1_100_000_000_000, 'distance': 1_023_000_000}


def nearest(vertices, edges, sources):
    """The distance of each vertex to the nearest source, -1 where no way leads there."""
    beside = [[] for _ in range(vertices)]
    for left, right, weight in edges:
        beside[left].append((right, weight))
        beside[right].append((left, weight))
    found, waiting = [-1] * vertices, [(0, source) for source in sources]
    while waiting:
        far, vertex = heapq.heappop(waiting)
        if found[vertex] < 0:
            found[vertex] = far
            for other, weight in beside[vertex]:
                if found[other] < 0:
                    heapq.heappush(waiting, (far + weight, other))
    return found


class Table:
    """What a table file has of one table."""

    def __init__(self, vertices, edges, virtual, defects, duals, growths, distances):
        self.vertices, self.edges, self.virtual = vertices, edges, virtual
        self.defects, self.duals, self.growths, self.distances = defects, duals, growths, distances

    def words(self):
        """The count, then the words."""
        flat = [x for edge in self.edges for x in edge]
        rows = [x for row in self.distances for x in row]
        sizes = [self.vertices, len(self.edges), len(self.virtual), len(self.defects)]
        words = [*sizes, *flat, *self.virtual, *self.defects, *self.duals, *self.growths, *rows]
        return [len(words), *words]

    def out_of_range(self):
        """The first number that refuses the table, in words; None if there is none."""
        for e, (left, right, weight) in enumerate(self.edges):
            if not (0 <= left < self.vertices and 0 <= right < self.vertices and left != right):
                return f'edge {e}: {left} and {right} are not two vertices'
            if not 0 <= weight <= LIMITS['weight']:
                return f'edge {e}: weight {weight}'
        for name, list_ in (('virtual vertex', self.virtual), ('defect', self.defects)):
            for k, vertex in enumerate(list_):
                if not 0 <= vertex < self.vertices:
                    return f'{name} {k}: there is no vertex {vertex}'
        for k, vertex in enumerate(self.defects):
            if vertex in self.defects[:k]:
                return f'defect {k}: vertex {vertex} a second time'
        for k, dual in enumerate(self.duals):
            if not 0 <= dual <= LIMITS['dual variable']:
                return f'defect {k}: dual variable {dual}'
        for s, growth in enumerate(self.growths):
            if not 0 <= growth <= LIMITS['growth']:
                return f'{side(s)}: growth {growth}'
        for k, row in enumerate(self.distances):
            for vertex, far in enumerate(row):
                if not -1 <= far <= LIMITS['distance']:
                    return f'defect {k}: distance {far} to vertex {vertex}'
        return None

    def fails(self):
        """The rule that fails first, and where; None if none does. Every number is in range."""
        for e, (_, _, weight) in enumerate(self.edges):
            if weight == 0:
                return f'weights: edge {e} has weight 0'
        reach = nearest(self.vertices, self.edges, self.virtual)
        if -1 in reach:
            return f'reach: vertex {reach.index(-1)} reaches no virtual vertex'
        far = [nearest(self.vertices, self.edges, [a]) for a in self.defects]
        for k, (row, given) in enumerate(zip(far, self.distances)):
            for vertex, (right, found) in enumerate(zip(row, given)):
                if right != found:
                    return f'distances: from defect {k} to vertex {vertex} it is {right}, not {found}'
        for k in range(len(self.defects)):
            for j in range(k):
                between, sum_ = far[k][self.defects[j]], self.duals[k] + self.duals[j]
                if 0 <= between < sum_:
                    return f'pairs: the dual variables of defects {j} and {k} sum to {sum_}, their distance is {between}'
        for k, vertex in enumerate(self.defects):
            if self.duals[k] > reach[vertex]:
                return f'virtual vertices: defect {k} has {self.duals[k]}, the nearest is at {reach[vertex]}'
        for s in range(2 * len(self.edges)):
            growth = self.growth(s, far)
            if growth != self.growths[s]:
                return f'table: {side(s)} has growth {growth}, not {self.growths[s]}'
        return None

    def growth(self, s, far):
        """What the defect that covers the vertex of a side gives it, 0 where none does."""
        left, right, weight = self.edges[s // 2]
        here, there = (right, left) if s % 2 else (left, right)
        for k, dual in enumerate(self.duals):
            near, across = far[k][here], far[k][there]
            if 0 <= near < dual:
                if across == near + weight:
                    return min(dual - near, weight)
                return 0 if near == across + weight else dual - near
        return 0

    def said(self):
        """What there is to say beside a verdict that is not yes."""
        return self.out_of_range() or self.fails()


def side(s):
    return f"edge {s // 2}, {'right' if s % 2 else 'left'} side"


def of_run(graph, nodes, table):
    """The table of a run, with distances of the tool's own: nodes as (vertex, dual variable), growths by edge."""
    defects = [vertex for vertex, _ in nodes]
    growths = [x for e in range(len(graph.edges)) for x in table[e]]
    rows = [nearest(graph.V, graph.edges, [a]) for a in defects]
    return Table(graph.V, graph.edges, sorted(graph.virtual), defects, [y for _, y in nodes], growths, rows)


def encoded(table):
    return b''.join(x.to_bytes(8, 'little', signed=True) for x in table.words())


def tables_in(data):
    """The tables of a file as far as their counts and sizes fit, None for each that does not."""
    words = [int.from_bytes(data[i : i + 8], 'little', signed=True) for i in range(0, len(data) - 7, 8)]
    out, at = [], 0
    while at < len(words):
        count = words[at]
        out.append(table_of(words[at + 1 : at + 1 + count]) if 4 <= count < len(words) - at else None)
        at = at + 1 + count if count >= 0 else len(words)
    return out


def table_of(words):
    v, e, k, n = words[:4]
    sizes = 1 <= v <= 1024 and 1 <= e <= 4096 and 0 <= k <= v and 0 <= n <= v
    if not sizes or len(words) != 4 + 5 * e + k + 2 * n + n * v:
        return None
    rest, parts = iter(words[4:]), []
    for size in (3 * e, k, n, n, 2 * e, n * v):
        parts.append([next(rest) for _ in range(size)])
    edges = [tuple(parts[0][3 * i : 3 * i + 3]) for i in range(e)]
    return Table(v, edges, *parts[1:5], [parts[5][i * v : i * v + v] for i in range(n)])


def verdicts(data):
    """The program's lines for a file."""
    if not os.path.exists(PROGRAM):
        raise NoAnswer('the verdict comes from the program: tools/build-programs.sh tablecheck')
    done = subprocess.run([PROGRAM], input=data, stdout=subprocess.PIPE)
    if done.returncode:
        raise BadInput(f'tablecheck ended with status {done.returncode}')
    return done.stdout.decode('ascii').splitlines()


def report(data):
    """The program's lines, and behind each that is not yes what the tool finds. Whether all are yes."""
    lines, found = verdicts(data), tables_in(data)
    out = []
    for i, line in enumerate(lines):
        table = found[i] if i < len(found) else None
        why = '' if line.endswith(' yes') else table.said() if table else 'the count does not fit the sizes, or the file ends'
        out.append(f'{line}   {why}' if why else line)
    return out, all(line.endswith(' yes') for line in lines)
