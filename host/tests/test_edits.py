"""Edits of a wired job: each takes out the wires that it has to, by their own places, and keeps every other."""
import random
import unittest

from layout import hops
from support import random_job
from talusdish import ADDED, CHOSEN, IDLE, MISSING, SIDES, Job, Out, To


def side_of(row, column, letter):
    """The side n, e, s or w of a tile, as n or w of a cell whichever tile names it."""
    return row + (letter == 's'), column + (letter == 'e'), 'n' if letter in 'ns' else 'w'


def crossed(u, v):
    """The side by which a hop leaves a tile; None where it leaves none."""
    return side_of(*u) if u[2] in SIDES and (v[2] in 'NESW' or v[2] in SIDES and u[:2] != v[:2]) else None


# What an edit takes out, as a test of a wire's pin and hops.

def at_pin(row, column):
    """The wires that start at a pin or pass it."""
    return lambda pin, run: pin == (row, column) or any(v == (row, column, 'r') for _, v, _ in run)


def in_tile(row, column):
    """The wires that meet a place of a tile."""
    return lambda pin, run: any(v[:2] == (row, column) and v[2] in 'neswc' for _, v, _ in run)


def in_lanes(side, limit):
    """The wires on a side's lanes from the limit on."""
    return lambda pin, run: any(crossed(u, v) == side and lane >= limit for u, v, lane in run)


def no_wire(pin, run):
    return False


def random_edit(job, draw):
    """Edits a job; gives the test of what that takes out."""
    row, column = draw.randrange(job.rows - 1), draw.randrange(job.columns - 1)
    kind = draw.randrange(3)
    if kind == 0:
        row, column, mark = draw.randrange(job.rows), draw.randrange(job.columns), draw.randrange(3)
        takes = no_wire if mark == job.mark_of(row, column) else at_pin(row, column)
        job.mark(row, column, mark)
    elif kind == 1:
        closes = job.is_open(row, column)
        takes = in_tile(row, column) if closes else no_wire
        job.close(row, column, int(closes))
    else:
        side, count = draw.choice(SIDES), draw.randint(0, job.o)
        takes = in_lanes(side_of(row, column, side), job.o - count) if count > job.laid_on(row, column, side) else no_wire
        job.lay(row, column, side, count)
    return takes


def places(parts):
    return [part[:-1] for part in parts]


class Edits(unittest.TestCase):
    def test_the_other_wires_keep_their_places_and_lanes_do_not_rise(self):
        stayed = went = shrunk = 0
        for seed in range(100):
            job, draw = random_job(seed), random.Random(seed)
            for _ in range(20):
                self.route(job)
                before = job.wires()
                takes = random_edit(job, draw)
                kept, fewer = self.kept(before, job.wires(), takes, seed)
                stayed, went, shrunk = stayed + kept, went + len(before) - kept, shrunk + fewer
        self.assertGreater(stayed, 20000)
        self.assertGreater(went, 500)
        self.assertGreater(shrunk, 100)

    def test_the_wires_past_an_edited_missing_ball_go(self):
        """Where a side takes one wire many pass missing balls; half of the edits are of a ball that some pass."""
        stayed = went = 0
        for seed in range(1, 31):
            job, draw = Job(), random.Random(seed)
            job.trial(14, 14, 1, *draw.choice(((1, 1), (2, 2))), seed, 30, 60, 0)
            for _ in range(8):
                self.route(job)
                before = job.wires()
                passed = [v[:2] for pin, parts in before.items() for _, v, _ in hops(pin, parts) if v[2] == 'r']
                row, column = draw.choice(draw.choice((passed, job.pins(MISSING))) or job.pins(MISSING))
                job.mark(row, column, draw.choice((IDLE, CHOSEN)))
                kept, _ = self.kept(before, job.wires(), at_pin(row, column), seed)
                stayed, went = stayed + kept, went + len(before) - kept
        self.assertGreater(stayed, 10000)
        self.assertGreater(went, 100)

    def kept(self, before, after, takes, seed):
        """Holds the wires after an edit to those before it; gives how many stay, and of how many parts the lane is lower."""
        kept = {pin: parts for pin, parts in before.items() if not takes(pin, hops(pin, parts))}
        self.assertEqual({pin: places(parts) for pin, parts in after.items()}, {pin: places(parts) for pin, parts in kept.items()}, seed)
        lanes = [(old.lane, new.lane) for pin in kept for old, new in zip(kept[pin], after[pin])]
        self.assertTrue(all(new <= old for old, new in lanes), seed)
        return len(kept), sum(new < old for old, new in lanes)

    def route(self, job):
        """Steps to the end, in as many additions as are lacking."""
        lacking = len(job.pins(CHOSEN)) - job.shortfall()[0] - len(job.wires())
        for _ in range(lacking):
            self.assertEqual(job.step(), ADDED)
        self.assertNotEqual(job.step(), ADDED)

    def test_an_edited_ball_keeps_the_wire_beside_it(self):
        """Two wires share the way to n of tile 1 1: without the wire in lane 0 the other has that lane, and no other place."""
        job = Job(5, 4, 1, 2, 2)
        for row, column in (0, 2), (1, 0), (1, 2), (2, 0), (2, 1), (2, 2), (3, 0), (3, 1), (3, 2):
            job.close(row, column, 1)
        job.mark(2, 1, CHOSEN)
        job.mark(2, 2, CHOSEN)
        job.mark(1, 1, MISSING)
        job.route()
        self.assertEqual(job.wires()[2, 2][2], To(1, 1, 'n', 1))
        job.mark(0, 0, CHOSEN)
        self.assertEqual(len(job.wires()), 2)
        job.mark(2, 1, 0)
        self.assertEqual(job.wires(), {(2, 2): [To(1, 1, 's', 0), To(1, 1, 'c', 0), To(1, 1, 'n', 0), To(0, 1, 's', 0), To(0, 1, 'c', 0), To(0, 1, 'n', 0), Out('n', 0)]})
        job.lay(1, 1, 'n', 1)
        self.assertEqual(job.wires(), {})
