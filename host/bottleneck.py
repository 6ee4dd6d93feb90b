"""The bottleneck of a short job: what leads out of the near side that Shortfall gives, with its load and limit."""
from typing import NamedTuple

from geometry import BEYOND, OPPOSITE, PIN_OF
from layout import link
from talusdish import CHOSEN, MISSING


class Cut(NamedTuple):
    """A link from near to not near, or a centre or missing pin whose entry alone is near (`ahead` is None)."""
    what: str
    near: tuple
    ahead: tuple | None
    load: int
    limit: int


def beyond(job, row, column, side):
    """The place beyond a side of an open tile: in the next tile, outside, or None where that tile is closed."""
    dr, dc = BEYOND[side]
    if not job.has_tile(row + dr, column + dc):
        return row, column, side.upper()
    return (row + dr, column + dc, OPPOSITE[side]) if job.is_open(row + dr, column + dc) else None


class Bottleneck:
    """The cuts of a near side, the chosen pins in it and those beyond. Direct exits are no cuts: a pin that may leave directly is never near, as more wires
    would fit."""

    def __init__(self, layout, near):
        self.job, self.layout, self.near = layout.job, layout, near
        chosen = self.job.pins(CHOSEN)
        self.pins = [pin for pin in chosen if near.has(*pin, 'pin')]
        self.pins_beyond = len(chosen) - len(self.pins)
        self.cuts = [*self._sides(), *self._corners(), *self._passages(), *self._legs()]

    @property
    def ways(self):
        """How many ways lead out of the near side."""
        return sum(cut.limit for cut in self.cuts)

    def is_near(self, place):
        """Whether n, e, s or w of a tile is near; the outside never is."""
        return place[2] in 'nesw' and self.near.has(*place)

    def _near_sides(self):
        return [(r, c, side) for r, c in self.job.tiles(True) for side in 'nesw' if self.near.has(r, c, side)]

    def _cut(self, what, u, v, limit):
        return Cut(what, u, v, self.layout.loads.get(link(u, v), 0), limit)

    def _sides(self):
        for u in self._near_sides():
            v = beyond(self.job, *u)
            if v and not self.is_near(v) and self.job.side_limit(*u):
                yield self._cut('side', u, v, self.job.side_limit(*u))

    def _corners(self):
        limit = self.job.corner_limit()
        for u in self._near_sides() if limit else ():
            for side in 'nesw':
                v = (*u[:2], side)
                if side not in (u[2], OPPOSITE[u[2]]) and not self.is_near(v):
                    yield self._cut('corner', u, v, limit)

    def _passages(self):
        centres = [('centre', (r, c, 'c'), self.near.has(r, c, 'ci'), self.near.has(r, c, 'co'), self.job.centre_limit(r, c)) for r, c in self.job.tiles(True)]
        missing = [('missing ball', (r, c, 'r'), self.near.has(r, c, 'entry'), self.near.has(r, c, 'exit'), self.job.e) for r, c in self.job.pins(MISSING)]
        for what, place, entry, exit, limit in centres + missing:
            if entry and not exit and limit:
                yield Cut(what, place, None, self.layout.passing(place), limit)

    def _legs(self):
        for row, column in self.pins:
            for side, (dr, dc) in PIN_OF.items():
                v = (row - dr, column - dc, side)
                if self.job.is_open(*v[:2]) and not self.is_near(v):
                    yield self._cut('ball', (row, column, 'r'), v, 1)

    def faults(self):
        """What is wrong with it, as reasons: the sum is the greatest number, and every cut is full."""
        wires = len(self.layout.wires)
        if self.ways + self.pins_beyond != wires:
            yield f'the limits of the bottleneck and the chosen balls beyond it are {self.ways} and {self.pins_beyond}, and {wires} are wired'
        for cut in self.cuts:
            if cut.load != cut.limit:
                yield f'a {cut.what} of the bottleneck at {cut.near} carries {cut.load} of {cut.limit}'
