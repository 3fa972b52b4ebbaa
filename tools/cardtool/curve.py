"""An edge on the page: a line, or a bow, from its left end to its right one."""
import bisect
import math


class Curve:
    """Points from the left end to the right end."""

    def __init__(self, a, b, bend=0.0):
        dx, dy = b[0] - a[0], b[1] - a[1]
        r = math.hypot(dx, dy) or 1
        c = ((a[0] + b[0]) / 2 - 2 * bend * dy / r, (a[1] + b[1]) / 2 + 2 * bend * dx / r)
        steps = 24 if bend else 1
        point = lambda t, i: (1 - t) ** 2 * a[i] + 2 * t * (1 - t) * c[i] + t * t * b[i]
        self.points = [(point(k / steps, 0), point(k / steps, 1)) for k in range(steps + 1)] if bend else [a, b]
        self.far = [0]
        for p, q in zip(self.points, self.points[1:]):
            self.far.append(self.far[-1] + math.dist(p, q))
        self.length = self.far[-1] or 1

    def at(self, t):
        """The point at the part t of the length, and the unit vector along the curve."""
        s = min(max(t, 0), 1) * self.length
        k = min(max(bisect.bisect_left(self.far, s), 1), len(self.far) - 1)
        (x, y), (u, v) = self.points[k - 1], self.points[k]
        step = self.far[k] - self.far[k - 1] or 1
        f = (s - self.far[k - 1]) / step
        return (x + f * (u - x), y + f * (v - y)), ((u - x) / step, (v - y) / step)

    def beside(self, t, off):
        (x, y), (u, v) = self.at(t)
        return x - off * v, y + off * u

    def part(self, t0, t1, off=0):
        """The points from one part of the length to another, set off to the right, as SVG has them."""
        n = 1 if len(self.points) == 2 else 16
        return ' '.join('%.1f,%.1f' % self.beside(t0 + (t1 - t0) * k / n, off) for k in range(n + 1))

    def along(self, step):
        """Points on the curve, a step apart."""
        return [self.at(k * step / self.length)[0] for k in range(int(self.length / step) + 1)]


class Buckets:
    """Boxes or points on the page, found by where they are."""

    def __init__(self, size):
        self.size, self.found = size, {}

    def cells(self, x0, y0, x1, y1):
        s = self.size
        for i in range(int(x0 // s), int(x1 // s) + 1):
            for j in range(int(y0 // s), int(y1 // s) + 1):
                yield i, j

    def add(self, box, what=None):
        for c in self.cells(*box):
            self.found.setdefault(c, []).append(box if what is None else what)

    def near(self, box):
        """What lies in the cells of a box, each once."""
        seen = []
        for c in self.cells(*box):
            seen += self.found.get(c, ())
        return set(seen)
