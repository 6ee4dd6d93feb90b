"""The least length: the two last lines of a listing, held to its wires and to a min-cost flow of its own."""
import random
import unittest
from pathlib import Path

from layout import hops
from support import example, random_job
from talusdish import ADDED, ALL_WIRED, CHOSEN, IDLE, MISSING, SIDES, Job, total_of, wires_of

START, OUTSIDE = 'start', 'outside'
ROUND = {'n': (0, 0), 'e': (0, -1), 's': (-1, -1), 'w': (-1, 0)}    # the place that a pin leads to, by its tile less the pin


class Flow:
    """Arcs with what is left of their limit and what one wire more costs, each beside its way back; ways out by Bellman and Ford."""

    def __init__(self):
        self.out, self.head, self.left, self.cost = {}, [], [], []

    def add(self, u, v, limit, cost=0):
        for tail, head, left, price in ((u, v, limit, cost), (v, u, 0, -cost)):
            self.out.setdefault(tail, []).append(len(self.head))
            self.head.append(head)
            self.left.append(left)
            self.cost.append(price)

    def both(self, u, v, limit, cost=0):
        self.add(u, v, limit, cost)
        self.add(v, u, limit, cost)

    def way(self):
        """The arcs of a cheapest way out with something left, and its cost; None where there is none."""
        best, last, waits = {START: 0}, {}, [START]
        for u in waits:
            for arc in self.out.get(u, ()):
                v, cost = self.head[arc], best[u] + self.cost[arc]
                if self.left[arc] and cost < best.get(v, cost + 1):
                    best[v], last[v] = cost, arc
                    waits.append(v)
        if OUTSIDE not in best:
            return None
        arcs, at = [], OUTSIDE
        while at != START:
            arcs.append(last[at])
            at = self.head[last[at] ^ 1]
        return arcs, best[OUTSIDE]

    def fill(self):
        """How many wires fit, and what they cost at least."""
        wires = total = 0
        while (found := self.way()):
            for arc in found[0]:
                self.left[arc] -= 1
                self.left[arc ^ 1] += 1
            wires, total = wires + 1, total + found[1]
        return wires, total


def flow_of(job):
    """The network of a job, with the length as the cost: 10 for a side, 14 for a missing pin."""
    flow = Flow()
    many = job.rows * job.columns
    for r, c in job.tiles(True):
        for a, b in ('ne', 'es', 'sw', 'wn'):
            flow.both((r, c, a), (r, c, b), job.corner_limit())
        flow.add((r, c, 'in'), (r, c, 'out'), job.centre_limit(r, c))
        for side, (dr, dc) in (('n', (-1, 0)), ('e', (0, 1)), ('s', (1, 0)), ('w', (0, -1))):
            flow.add((r, c, side), (r, c, 'in'), many)
            flow.add((r, c, 'out'), (r, c, side), many)
            if not job.has_tile(r + dr, c + dc):
                flow.add((r, c, side), OUTSIDE, job.side_limit(r, c, side), 10)
            elif side in 'es' and job.is_open(r + dr, c + dc):
                flow.both((r, c, side), (r + dr, c + dc, 'w' if side == 'e' else 'n'), job.side_limit(r, c, side), 10)
    for r, c in job.pins(CHOSEN):
        flow.add(START, (r, c, 'pin'), 1)
        if r in (0, job.rows - 1) or c in (0, job.columns - 1):
            flow.add((r, c, 'pin'), OUTSIDE, 1)
        for side, place in around(job, r, c):
            flow.add((r, c, 'pin'), place, 1)
    for r, c in job.pins(MISSING):
        flow.add((r, c, 'entry'), (r, c, 'exit'), job.e, 14)
        for side, place in around(job, r, c):
            flow.add(place, (r, c, 'entry'), many)
            flow.add((r, c, 'exit'), place, many)
    return flow


def around(job, r, c):
    """The places that a pin leads to: n of the SE tile, e of SW, s of NW, w of NE."""
    return [(side, (r + dr, c + dc, side)) for side, (dr, dc) in ROUND.items() if job.is_open(r + dr, c + dc)]


def least_length(job):
    """The least total length of wires for every chosen pin; None where not all can have one."""
    wires, total = flow_of(job).fill()
    return total if wires == len(job.pins(CHOSEN)) else None


def length_of(wires):
    """10 for each side crossed, the rim included, and 14 for each missing pin passed."""
    total = 0
    for pin, parts in wires.items():
        for u, v, _ in hops(pin, parts):
            total += 14 if v[2] == 'r' else 10 if v[2] in 'NESW' or u[2] in SIDES and v[2] in SIDES and u[:2] != v[:2] else 0
    return total


class Length(unittest.TestCase):
    def total(self, job):
        """The total of a job's listing, whose two last lines are those of its wires."""
        listing = job.listing()
        wires = wires_of(listing)
        total = length_of(wires)
        self.assertEqual(total_of(listing), (total, *(divmod(total, len(wires)) if wires else (0, 0))))
        return total

    def test_lines_are_those_of_the_wires_at_every_step(self):
        for seed in range(40):
            job = random_job(seed, 9)
            self.assertEqual(self.total(job), 0)
            while job.step() == ADDED:
                self.total(job)

    def test_all_wired_is_the_least_and_moves_nothing_twice(self):
        wired = beyond = 0
        for seed in range(150):
            job = random_job(seed, 8)
            if job.route() == ALL_WIRED:
                self.assertEqual(self.total(job), least_length(job), seed)
                record = job.record
                self.assertEqual((job.step(), job.record), (ALL_WIRED, record), seed)
                wired, beyond = wired + 1, beyond + (self.total(job) > 0)
            else:
                self.assertIsNone(least_length(job), seed)
        self.assertGreater(min(wired, beyond), 20)

    def test_all_wired_shortens_what_an_edit_leaves(self):
        shortened = 0
        for seed in range(30):
            job, draw = Job(), random.Random(seed)
            job.trial(9, 9, 1, 2, 1, seed + 1, 20, 10, 15)
            if job.route() == ALL_WIRED:
                shortened += self.freed(job, draw, seed)
        self.assertGreater(shortened, 10)

    def freed(self, job, draw, seed):
        """How often an "all wired" shortens the wires of a job in which tiles are opened, counts lowered and pins given up, one after another."""
        found = 0
        frees = [lambda tile=tile: job.close(*tile, 0) for tile in job.tiles(False)]
        frees += [lambda side=side: job.lay(*side, 0) for side in job.laid_sides()]
        frees += [lambda pin=pin: job.mark(*pin, IDLE) for pin in job.pins(CHOSEN)]
        for free in draw.sample(frees, min(8, len(frees))):
            free()
            pins, before, record = list(job.wires()), self.total(job), job.record
            self.assertEqual(job.step(), ALL_WIRED, seed)
            self.assertEqual((list(job.wires()), self.total(job)), (pins, least_length(job)), seed)
            self.assertEqual(before == self.total(job), record == job.record, seed)
            found += before > self.total(job)
        return found

    def test_known_lengths(self):
        crowded = '(array (pins 3 5) (caps 1 2 0))\n(chosen 1 1)\n(chosen 1 2)\n(closed 0 0)\n(closed 1 0)\n(closed 1 1)\n(closed 1 2)\n(closed 1 3)\n(laid 0 2 n 1)\n(end)\n'
        corner = ('(array (pins 3 4) (caps 1 2 1))\n(chosen 1 1)\n(missing 1 2)\n(closed 0 0)\n(closed 1 0)\n(closed 1 1)\n'
                  '(laid 0 1 n 1)\n(laid 0 2 n 1)\n(laid 0 2 e 1)\n(end)\n')
        four = Path(example('four_pins')).read_text()
        for text, length in (crowded, 30), (crowded.replace('(chosen 1 1)\n', ''), 10), (corner, 24), (corner.replace('(missing 1 2)\n', ''), 30), (four, 0):
            job = Job.of_text(text.encode())
            self.assertEqual((job.route(), self.total(job), least_length(job)), (ALL_WIRED, length, length))
