"""Where the places of a job lie in a drawing, in units of the pin pitch: x is the column to the east, y the row to the south.

A place is (row, column, kind): n e s w c of a tile, r for the pin of that row and column, N E S W for the outside beyond that side of a tile. Each place
is a convex cell, and two linked places share an edge, their gate; the gates lie on a cell's border in the clockwise order of document 01's table."""
import math

BEYOND = {'n': (-1, 0), 'e': (0, 1), 's': (1, 0), 'w': (0, -1)}     # the tile beyond a side
CLOCKWISE = {'n': 'e', 'e': 's', 's': 'w', 'w': 'n'}
OPPOSITE = {'n': 's', 'e': 'w', 's': 'n', 'w': 'e'}
PIN_OF = {'n': (0, 0), 'e': (0, 1), 's': (1, 1), 'w': (1, 0)}       # the corner of a tile whose pin is linked to a place
OUTWARD = {'N': (0, -1), 'E': (1, 0), 'S': (0, 1), 'W': (-1, 0)}
CORNER = .24 / math.cos(math.pi / 8)                                # from a pin to the corners of the octagon round it
EDGE = CORNER / math.sqrt(2)
PAD = .62 * CORNER                                                  # the radius of a pad
REACH = .42                                                         # how far a wire is drawn beyond the rim


def turned(points, side):
    """Points of a tile with its NW pin at (0, 0), given for the side n, turned to another side about the tile's centre."""
    for _ in range('nesw'.index(side)):
        points = [(1 - y, x) for x, y in points]
    return points


class Geometry:
    """Cells and gates of a job; `passed` has how many wires pass the centre of a tile."""

    def __init__(self, job, passed):
        self.job = job
        self.pitch = (1 - 2 * CORNER) / (job.o + 1)                  # from lane to lane on a side
        self.passed = passed

    def half(self, row, column):
        """Half the side of a centre's square: its corners leave room for the wires that pass it."""
        pitch = (math.sqrt(2) - 2 * CORNER) / (self.job.diagonal_of(row, column) + 1)
        return min(.26, (self.passed.get((row, column), 0) + .6) * pitch / 2 / math.sqrt(2))

    def cell(self, place):
        """The polygon of a place, clockwise."""
        row, column, kind = place
        a, b = CORNER, EDGE
        if kind == 'r':
            points = [(a, 0), (b, b), (0, a), (-b, b), (-a, 0), (-b, -b), (0, -a), (b, -b)]
        else:
            h = self.half(row, column)
            square = [(.5 - h, .5 - h), (.5 + h, .5 - h), (.5 + h, .5 + h), (.5 - h, .5 + h)]
            hexagon = [(a, 0), (1 - a, 0), (1 - b, b), (.5 + h, .5 - h), (.5 - h, .5 - h), (b, b)]
            points = square if kind == 'c' else turned(hexagon, kind)
        return [(column + x, row + y) for x, y in points]

    def middle(self, place):
        """The middle of a place's cell."""
        cell = self.cell(place)
        return sum(x for x, _ in cell) / len(cell), sum(y for _, y in cell) / len(cell)

    def along(self, side, start, end):
        """The part of a side, as it lies on the side n, from one lane to another: they count from the side's western or northern end, whichever tile names it."""
        places = (CORNER + lane * self.pitch for lane in (start, end))
        return [(x if side in 'ne' else 1 - x, 0) for x in places]

    def laid(self, row, column, side):
        """The dashes (from, to) of the wires already laid on a side, at its western or northern end; the gate is what they leave."""
        lanes = range(self.job.laid_on(row, column, side))
        return [[(column + x, row + y) for x, y in turned(self.along(side, lane + .2, lane + .8), side)] for lane in lanes]

    def edge(self, u, v):
        """The tile, the side and the edge, as it lies on the side n, that two linked places share."""
        row, column, kind = v if u[2] == 'r' else u
        other = u if u[2] == 'r' else v
        a, b, h = CORNER, EDGE, self.half(row, column)
        if other[2] == 'r':
            return row, column, kind, [(a, 0), (b, b)]
        if other[2] in OUTWARD or other[:2] != (row, column):
            return row, column, kind, self.along(kind, self.job.laid_on(row, column, kind), self.job.o + 1)
        if 'c' in (kind, other[2]):
            return row, column, other[2] if kind == 'c' else kind, [(.5 - h, .5 - h), (.5 + h, .5 - h)]
        return row, column, kind if CLOCKWISE[kind] == other[2] else other[2], [(1 - b, b), (.5 + h, .5 - h)]

    def gate(self, u, v):
        """The left and the right end of the gate between two linked places, for one who goes from u to v."""
        row, column, side, points = self.edge(u, v)
        p, q = ((column + x, row + y) for x, y in turned(points, side))
        if v[2] in OUTWARD:
            dx, dy = OUTWARD[v[2]]
        else:
            (ux, uy), (vx, vy) = self.middle(u), self.middle(v)
            dx, dy = vx - ux, vy - uy
        return (p, q) if (p[0] - q[0]) * dy > (p[1] - q[1]) * dx else (q, p)
