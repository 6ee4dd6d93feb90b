"""The lines of wires: a point for each gate that a wire crosses, in lane order, pulled tight, and bends cut by curves.

No two lines meet: cells are convex, the points of a gate keep the lanes' order, and joined pairs do not interleave in a place. That holds for any points
in lane order, so pulling them tight is free."""
import math

from crossings import pieces_by_box
from geometry import OUTWARD, REACH, Geometry
from talusdish import Out

RADIUS = .16                                                        # the greatest radius of a bend


def rim_of(job, row, column):
    """The rim by which a pin leaves directly: north and south before east and west at the corners."""
    return 'N' if row == 0 else 'S' if row == job.rows - 1 else 'W' if column == 0 else 'E'


def exit_side(job, pin, parts):
    """The rim where a wire leaves: N, E, S or W."""
    return rim_of(job, *pin) if parts[-1].side == 'p' else parts[-1].side.upper()


def hops(pin, parts):
    """[(from, to, lane)] of a wire, the first from its pin, the last over the rim; none for a wire that leaves directly."""
    at, found = (*pin, 'r'), []
    for part in parts:
        if not isinstance(part, Out):
            found.append((at, part[:3], part.lane))
            at = part[:3]
        elif part.side != 'p':
            found.append((at, (*at[:2], part.side.upper()), part.lane))
    return found


def link(u, v):
    """Two linked places, whichever comes first."""
    return (u, v) if u < v else (v, u)


def risen(wants, low, high):
    """The numbers next to `wants` that do not fall and lie in low .. high: adjacent violators are pooled."""
    pools = []
    for want in wants:
        pools.append((want, 1))
        while len(pools) > 1 and pools[-2][0] > pools[-1][0]:
            (x, n), (y, m) = pools[-2:]
            pools[-2:] = [((x * n + y * m) / (n + m), n + m)]
    return [min(max(x, low), high) for x, n in pools for _ in range(n)]


class Gate:
    """A gate that wires cross: where it lies, and for each lane its wire's line and the index of its point there."""

    def __init__(self, ends, lanes, pitch, is_rim):
        (self.x, self.y), (x, y) = ends
        self.dx, self.dy = x - self.x, y - self.y
        width = math.hypot(self.dx, self.dy)
        self.pitch = min(pitch, width / len(lanes)) / width
        self.lanes, self.is_rim = lanes, is_rim
        self.homes = [.5 + (i - (len(lanes) - 1) / 2) * self.pitch for i in range(len(lanes))]
        self.place(self.homes)

    def place(self, shares):
        """Puts the point of each lane at its share of the way from left to right."""
        for (line, at), share in zip(self.lanes, shares):
            line[at] = self.x + self.dx * share, self.y + self.dy * share

    def want(self, line, at, home):
        """Where a lane's point would lie: on the straight line between its neighbours, or at the rim at its neighbour's foot, and somewhat at home."""
        px, py = line[at - 1]
        px, py = px - self.x, py - self.y
        if self.is_rim:
            share = (px * self.dx + py * self.dy) / (self.dx ** 2 + self.dy ** 2)
        else:
            nx, ny = line[at + 1]
            ex, ey = nx - self.x - px, ny - self.y - py
            turn = self.dx * ey - self.dy * ex
            share = (px * ey - py * ex) / turn if abs(turn) > 1e-9 else home
        return min(max(.85 * share + .15 * home, -1), 2)

    def tighten(self):
        """Moves every point towards what it wants, lanes in order and a pitch apart."""
        wants = [self.want(*lane, home) - i * self.pitch for i, (lane, home) in enumerate(zip(self.lanes, self.homes))]
        low = self.pitch / 2
        high = max(low, 1 - low - (len(wants) - 1) * self.pitch)
        self.place([share + i * self.pitch for i, share in enumerate(risen(wants, low, high))])


class Layout:
    """The lines {pin: points} of a job's wires, from each pin to beyond the rim, and the loads {link: wires}."""

    def __init__(self, job, wires, progress=lambda done, of: None):
        self.job, self.wires, self.loads, self.lines = job, wires, {}, {}
        runs = {pin: hops(pin, parts) for pin, parts in wires.items()}
        passed = self._count(runs.values())
        self.geometry = Geometry(job, passed)
        gates = self._gates(runs)
        rounds = 40 if sum(self.loads.values()) <= 8000 else 16
        for done in range(rounds):
            progress(done, rounds)
            for gate in gates:
                gate.tighten()
        for pin in wires:
            self._lead_out(pin)

    def _count(self, runs):
        """Counts the loads of links; gives how many wires pass each centre."""
        passed = {}
        for u, v, _ in (hop for run in runs for hop in run):
            self.loads[link(u, v)] = self.loads.get(link(u, v), 0) + 1
            if u[2] == 'c':
                passed[u[:2]] = passed.get(u[:2], 0) + 1
        return passed

    def _gates(self, runs):
        """The gates that wires cross, each with a point for each lane at home."""
        lanes = {}
        for (row, column), run in runs.items():
            self.lines[row, column] = line = [(column, row)] + [None] * len(run)
            for at, (u, v, lane) in enumerate(run, 1):
                lanes.setdefault((u, v), {})[lane] = line, at
        return [Gate(self.geometry.gate(u, v), [found[lane] for lane in sorted(found)], self.geometry.pitch, v[2] in OUTWARD)
                for (u, v), found in lanes.items()]

    def _lead_out(self, pin):
        """Draws a wire straight out, to beyond the rim."""
        dx, dy = OUTWARD[exit_side(self.job, pin, self.wires[pin])]
        x, y = self.lines[pin][-1]
        self.lines[pin].append((x + REACH * dx, y + REACH * dy))

    def passing(self, place):
        """How many wires pass a place."""
        return sum(load for ends, load in self.loads.items() if place in ends) // 2


# Bends

def distance(x, y, p, q):
    """From a point to a chord."""
    ex, ey = q[0] - p[0], q[1] - p[1]
    share = ((x - p[0]) * ex + (y - p[1]) * ey) / (ex * ex + ey * ey or 1)
    share = 0 if share < 0 else 1 if share > 1 else share
    return math.hypot(x - p[0] - ex * share, y - p[1] - ey * share)


def radii(lines, progress=lambda done, of: None):
    """{pin: a radius for each inner point}: half the distance to the nearest chord of another wire, at most RADIUS.

    Curves within these radii do not cross: each keeps within d/2 of its bend, every other chord is d away, and two bends are the greater d apart."""
    size, found = 2 * RADIUS, {}
    boxes = pieces_by_box(lines, size)
    for done, (pin, points) in enumerate(lines.items()):
        progress(done, len(lines))
        found[pin] = []
        for x, y in points[1:-1]:
            i, j = math.floor(x / size), math.floor(y / size)
            around = (chord for di in (-1, 0, 1) for dj in (-1, 0, 1) for chord in boxes.get((i + di, j + dj), ()))
            found[pin].append(min([RADIUS, *(distance(x, y, p, q) / 2 for other, p, q in around if other != pin)]))
    return found


def bends(points, radii):
    """[(from, bend, to)] for each inner point: a quadratic curve that cuts it, at most half of each chord and at most its radius long."""
    found = []
    for p, x, q, radius in zip(points, points[1:], points[2:], radii):
        ends = []
        for end in (p, q):
            length = math.dist(x, end)
            share = min(.5, radius / length) if length else 0
            ends.append((x[0] + (end[0] - x[0]) * share, x[1] + (end[1] - x[1]) * share))
        found.append((ends[0], x, ends[1]))
    return found
