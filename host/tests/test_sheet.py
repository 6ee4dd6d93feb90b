"""Sheets of side loads: the vectors, every entry of the table, sheets of routed jobs, and random sheets beside a decision that tries every loading."""
import itertools
import random
import unittest
from pathlib import Path

from talusdish import ALL_WIRED, ADDED, CHOSEN, Job, Refused

VECTORS = Path(__file__).with_name('sheets')
SIZE = 9600
NORTH, WEST = 0, 1                                                  # the planes of sides; the legs north, east, south, west are 2 to 5


def at(plane, row, column):
    return 1600 * plane + 40 * row + column


def signed(byte):
    """A load byte as a number, positive along north or east."""
    return byte if byte < 32 else 32 - byte


def byte_of(load):
    return load if load >= 0 else 32 - load


def passes(amounts, passing):
    """Whether some loads of the four corners let the centre pass no more than that: every one is tried, and each settles the spokes."""
    if sum(amounts):
        return False
    n, e, s, w = amounts
    for ne, es, sw, wn in itertools.product((-1, 0, 1), repeat=4):
        spokes = (n + wn - ne, e + ne - es, s + es - sw, w + sw - wn)
        if sum(load for load in spokes if load > 0) <= passing:
            return True
    return False


def amounts_of(sheet, r, c):
    """The net amounts entering n, e, s, w of a tile."""
    load = lambda plane, row, column: signed(sheet[at(plane, row, column)])
    return (sheet[at(3, r, c)] - load(NORTH, r, c), sheet[at(4, r, c + 1)] - load(WEST, r, c + 1),
            sheet[at(5, r + 1, c + 1)] + load(NORTH, r + 1, c), sheet[at(2, r + 1, c)] + load(WEST, r, c))


def bare(sheet, r, c):
    return not any(sheet[at(*place)] for place in ((NORTH, r, c), (NORTH, r + 1, c), (WEST, r, c), (WEST, r, c + 1),
                                                  (3, r, c), (4, r, c + 1), (5, r + 1, c + 1), (2, r + 1, c)))


def verdict(job, sheet):
    """None where the sheet is carried, else its first failing tile."""
    for r, c in itertools.product(range(job.rows - 1), range(job.columns - 1)):
        if not (passes(amounts_of(sheet, r, c), job.diagonal_of(r, c) - 2) if job.is_open(r, c) else bare(sheet, r, c)):
            return r, c
    return None


def sheet_of(job):
    """The side loads and the leg marks of a record."""
    return bytearray(b''.join(job.record[768 + 1600 * plane:768 + 1600 * (plane + 1)] for plane in (2, 3, 12, 13, 14, 15)))


def answer(job, sheet):
    """The verdict of the library, or the number of its refusal."""
    try:
        return job.sheet(sheet)
    except Refused as refused:
        return refused.code


def routed(draw):
    """A wired job where O is 2 and no pin is missing."""
    while True:
        job = Job()
        job.trial(draw.randint(3, 9), draw.randint(3, 9), 2, draw.randint(2, 4), 0, draw.randrange(1, 1 << 32), draw.randint(10, 60), 0, draw.randint(0, 15))
        while (said := job.step()) == ADDED:
            pass
        if said == ALL_WIRED:
            return job


# A 4 by 4 array around the tile (1, 1): how its neighbours bring two wires to each of its sides, as (pin, plane) marks, and where its side and theirs have their loads.
BRINGING = {'n': (((0, 1), 3), ((0, 2), 4)), 'e': (((1, 3), 4), ((2, 3), 5)), 's': (((3, 1), 2), ((3, 2), 5)), 'w': (((1, 0), 3), ((2, 0), 2))}
OWN = {'n': ((1, 1), 3), 'e': ((1, 2), 4), 's': ((2, 2), 5), 'w': ((2, 1), 2)}
SIDES = {'n': (NORTH, (1, 1), (0, 1), 1), 'e': (WEST, (1, 2), (1, 3), 1), 's': (NORTH, (2, 1), (3, 1), -1), 'w': (WEST, (1, 1), (1, 0), -1)}


def around(amounts, d):
    """A job and a sheet in which the tile (1, 1) has these amounts and every other tile carries its own."""
    job, sheet = Job(4, 4, 2, d, 0), bytearray(SIZE)

    def mark(pin, plane):
        job.mark(*pin, CHOSEN)
        sheet[at(plane, *pin)] = 1

    for side, amount in zip('nesw', amounts):
        plane, own, rim, out = SIDES[side]
        if amount == 3:
            mark(*OWN[side])
        enters = min(amount, 2)
        sheet[at(plane, *own)] = byte_of(-out * enters)
        if enters < 0:
            sheet[at(plane, *rim)] = byte_of(-out * enters)
        for pin, leg in BRINGING[side][:max(enters, 0)]:
            mark(pin, leg)
    return job, sheet


class Sheets(unittest.TestCase):
    def test_every_vector(self):
        judged = 0
        for path in sorted(VECTORS.glob('*.job')):
            expect, sheet = path.with_suffix('.expect').read_text().split(), path.with_suffix('.sheet').read_bytes()
            job = Job.of_text(path.read_bytes())
            judged += 1
            before = job.record
            wanted = {'carried': None, 'refused': int(expect[-1]) if expect[-1].isdigit() else 0, 'fails': tuple(map(int, expect[1:]))}[expect[0]]
            self.assertEqual(answer(job, sheet), wanted, path)
            self.assertEqual(job.record, before)
        self.assertEqual(judged, 30)

    def test_every_entry(self):
        lines = (VECTORS / 'table.txt').read_text().splitlines()
        self.assertEqual(len(lines), 1296)
        for line in lines:
            *amounts, least = map(int, line.replace('->', '').split())
            for d in 2, 3, 4:
                job, sheet = around(amounts, d)
                self.assertEqual(amounts_of(sheet, 1, 1), tuple(amounts))
                self.assertEqual(passes(amounts, d - 2), least <= d, line)
                self.assertEqual(answer(job, sheet), None if least <= d else (1, 1), (line, d))

    def test_routed_jobs_are_carried_and_with_one_load_changed_judged_as_by_trying(self):
        draw, failed = random.Random(10), 0
        for _ in range(60):
            job = routed(draw)
            sheet = sheet_of(job)
            self.assertIsNone(answer(job, sheet))
            for tile in draw.sample(list(job.tiles(True)), 2):
                job.diagonal(*tile, draw.randint(2, 4))
            for _ in range(20):
                changed = bytearray(sheet)
                place = at(draw.randrange(2), draw.randrange(job.rows), draw.randrange(job.columns))
                changed[place] = draw.choice((0, 1, 2, 33, 34))
                said = answer(job, changed)
                if said != 15:
                    self.assertEqual(said, verdict(job, changed))
                    failed += said is not None
        self.assertGreater(failed, 200)

    def test_what_is_turned_away(self):
        job = Job(3, 3, 2, 4, 0)
        job.mark(1, 1, CHOSEN)
        sheet = bytearray(SIZE)
        sheet[at(3, 1, 1)] = sheet[at(NORTH, 1, 1)] = sheet[at(NORTH, 0, 1)] = 1
        self.assertIsNone(answer(job, sheet))
        for place, byte in ((at(NORTH, 1, 1), 32), (at(NORTH, 1, 1), 3), (at(NORTH, 1, 1), 35), (at(NORTH, 1, 1), 65), (at(NORTH, 0, 1), 33), (at(NORTH, 2, 1), 1),
                            (at(WEST, 0, 0), 1), (at(WEST, 0, 2), 33), (at(NORTH, 0, 2), 1), (at(WEST, 2, 0), 33), (at(3, 1, 1), 0), (at(3, 1, 1), 2), (at(2, 1, 1), 1),
                            (at(3, 0, 0), 1), (at(2, 5, 5), 1), (SIZE - 1, 1)):
            self.assertEqual(answer(job, sheet[:place] + bytes([byte]) + sheet[place + 1:]), 15, (place, byte))
        self.assertEqual((answer(job, sheet[:-1]), answer(job, sheet + b'\0'), answer(job, b'')), (15, 15, 15))
        job.lay(0, 1, 'n', 2)
        self.assertEqual(answer(job, sheet), 15)
        job.lay(0, 1, 'n', 0)
        job.close(1, 1, 1)
        self.assertEqual(answer(job, sheet), (1, 1))
        self.assertEqual(answer(Job(3, 3, 1, 2, 0), bytes(SIZE)), 14)
        job.mark(0, 0, 2)
        self.assertEqual(answer(job, b''), 14)


if __name__ == '__main__':
    unittest.main()
