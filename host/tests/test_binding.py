"""The binding: the header's functions, the answers of `escape`, ball names."""
import re
import subprocess
import unittest

import command
import talusdish
from layout import hops, link
from support import EXAMPLES, ROOT, random_job
from talusdish import CHOSEN, IDLE, MISSING, SHORT, Job, Out, Refused, To, ball_name, ball_place, row_name, total_of, wires_of

HEADER = (ROOT / 'include' / 'talusdish.h').read_text()


def header_signatures():
    """{function: what it takes} of the header, in the letters of the binding."""
    found = {}
    for name, takes in re.findall(r'^uint64_t (talusdish_\w+)\(([^)]*)\);', HEADER, re.MULTILINE):
        letters = ''
        for parameter in takes.split(','):
            kind, word = re.fullmatch(r'\s*(?:const )?(uint8_t \*|uint64_t \*|uint64_t )(\w+)', parameter).groups()
            letters += 'b' if kind == 'uint8_t *' else 'r' if kind == 'uint64_t *' else '' if word.endswith('_len') else 'n'
        found[name] = letters
    return found


def places_of(parts):
    """The places of a wire's parts, without its lanes."""
    return [part._replace(lane=0) for part in parts]


def missing_passed(wires):
    """The missing pins that wires pass, each as often as it is passed."""
    return [part[:2] for parts in wires.values() for part in parts if isinstance(part, To) and part.place == 'r']


def refusal(call):
    """The code and the value of a refused call."""
    try:
        call()
    except Refused as refused:
        return refused.code, refused.value
    return None


class Binding(unittest.TestCase):
    def test_functions_and_types_are_the_headers(self):
        self.assertEqual(header_signatures(), talusdish.SIGNATURES)

    def test_refusals_are_the_headers(self):
        codes = re.findall(r'^ \*(?: code)? +(\d+)  ', HEADER.split('\n * value')[0], re.MULTILINE)
        self.assertEqual({int(code) for code in codes} - {0}, set(talusdish.REFUSALS))

    def test_sizes_are_the_headers(self):
        sizes = dict(re.findall(r'#define TALUSDISH_(\w+) (\d+)', HEADER))
        self.assertEqual((int(sizes['RECORD']), int(sizes['SCRATCH'])), (talusdish.RECORD, talusdish.SCRATCH))

    def test_refused_calls(self):
        for code, refused in ((2, lambda: Job(1, 2)), (3, lambda: Job(2, 2, 2, 5, 0)), (4, lambda: Job().mark(2, 0, CHOSEN)), (5, lambda: Job().close(0, 0, 2)),
                              (4, lambda: Job().part(0, 0, 0)), (9, lambda: talusdish.rules(0, 1, 1, 1)), (10, lambda: talusdish.rules(100, 90, 20, 20)),
                              (4, lambda: Job().lay(1, 0, 'x', 2)), (5, lambda: Job().lay(0, 0, 'x', 2)), (11, lambda: Job().lay(0, 0, 'n', 2)),
                              (4, lambda: Job().diagonal(1, 0, 9)), (3, lambda: Job().diagonal(0, 0, 0)), (3, lambda: Job().diagonal(0, 0, 3)),
                              (3, lambda: Job(2, 2, 1, 1, 2)), (3, lambda: Job(2, 2, 1, 2, 1).extra(2))):
            with self.subTest(code=code), self.assertRaises(Refused) as caught:
                refused()
            self.assertEqual(caught.exception.code, code)

    def test_an_inner_side_has_one_count_whichever_tile_names_it(self):
        job = Job(4, 4, 3, 3, 0)
        job.lay(0, 1, 's', 2)
        job.lay(1, 1, 'w', 3)
        self.assertEqual([job.laid_on(*side) for side in ((0, 1, 's'), (1, 1, 'n'), (1, 1, 'w'), (1, 0, 'e'), (1, 1, 'e'))], [2, 2, 3, 3, 0])
        self.assertEqual([job.side_limit(*side) for side in ((0, 1, 's'), (1, 1, 'n'), (1, 1, 'w'), (1, 0, 'e'), (1, 1, 'e'))], [1, 1, 0, 0, 3])
        self.assertIn(b')\n(laid 0 1 s 2)\n(laid 1 0 e 3)\n(end)\n', job.write_text())
        job.lay(1, 1, 'n', 0)
        self.assertEqual(job.laid_sides(), [(1, 0, 'e')])

    def test_a_lower_e_takes_out_the_wires_that_pass_a_missing_ball(self):
        found = 0
        for seed in range(200):
            job = random_job(seed)
            job.route()
            before = job.wires()
            others = {pin: places_of(parts) for pin, parts in before.items() if not any(isinstance(part, To) and part.place == 'r' for part in parts)}
            job.extra(job.e)
            self.assertEqual(job.wires(), before)
            if job.e:
                job.extra(job.e - 1)
                self.assertEqual({pin: places_of(parts) for pin, parts in job.wires().items()}, others)
                found += len(before) > len(others) > 0
        self.assertGreater(found, 3)

    def test_a_record_with_e_above_d_is_kept(self):
        """As New, Read text and trial gave it before such an E was refused: edited, stepped, listed and written, and its E may be lowered to another above D."""
        crowded = 0
        for seed in range(1, 31):
            job = Job()
            job.trial(12, 12, 1, 1, 1, seed, 40, 40, 5)
            job._record[4] = 5
            job.mark(*job.pins(IDLE)[0], MISSING)
            job.close(*job.tiles(True)[0], 1)
            job.route()
            wires = job.wires()
            self.assertEqual(over_limits(job, wires), [])
            passed = missing_passed(wires)
            crowded += max(map(passed.count, passed), default=0) > job.d
            self.assertTrue(job.write_text().startswith(b'(array (pins 12 12) (caps 1 1 5))\n'))
            self.assertEqual(refusal(lambda: Job.of_text(job.write_text())), (6, 0))
            self.assertEqual((refusal(lambda: job.extra(6)), job.e), ((3, 0), 5))
            job.extra(2)
            self.assertEqual((job.e, missing_passed(job.wires())), (2, []))
        self.assertGreater(crowded, 5)

    def test_laid_sides_are_those_of_the_text(self):
        named = 0
        for seed in range(60):
            job = random_job(seed)
            lines = re.findall(r'^\(laid (\d+) (\d+) (\w) (\d+)\)$', job.write_text().decode(), re.MULTILINE)
            self.assertEqual([(*map(str, side[:2]), side[2], str(job.laid_on(*side))) for side in job.laid_sides()], lines)
            named += len(lines)
        self.assertGreater(named, 500)

    def test_own_diagonals_are_those_of_the_text(self):
        named = 0
        for seed in range(120):
            job = random_job(seed)
            lines = re.findall(r'^\(d (\d+) (\d+) (\d+)\)$', job.write_text().decode(), re.MULTILINE)
            self.assertEqual([(str(r), str(c), str(own)) for (r, c), own in job.own_diagonals().items()], lines)
            named += len(lines)
        self.assertGreater(named, 200)

    def test_the_jobs_d_is_none_of_a_tiles_own(self):
        job = Job(4, 4, 2, 3, 0)
        job.diagonal(1, 2, 4)
        job.close(0, 1, 1)
        job.diagonal(0, 1, 2)
        self.assertIn(b'(closed 0 1)\n(d 0 1 2)\n(d 1 2 4)\n(end)\n', job.write_text())
        self.assertEqual([job.centre_limit(*tile) for tile in ((0, 1), (1, 2), (2, 2))], [0, 2, 1])
        job.diagonal(1, 2, 3)
        self.assertEqual(job.own_diagonals(), {(0, 1): 2})

    def test_another_d_takes_out_the_wires_through_the_centre_alone(self):
        taken = kept = 0
        for seed in range(240):
            job = random_job(seed)
            job.route()
            before = job.wires()
            for row, column in job.tiles(True):
                other = next(d for d in range(job.o, 2 * job.o + 1) if d != job.diagonal_of(row, column))
                through = {pin for pin, parts in before.items() if any(v == (row, column, 'c') for _, v, _ in hops(pin, parts))}
                job.diagonal(row, column, other)
                after = job.wires()
                self.assertEqual(set(after), set(before) - through, seed)
                for pin in after:
                    self.assertEqual([u[:3] for u, _, _ in hops(pin, after[pin])], [u[:3] for u, _, _ in hops(pin, before[pin])], seed)
                taken, kept, before = taken + len(through), kept + len(after), after
                if through:
                    break
        self.assertGreater(min(taken, kept), 50)

    def test_an_edit_keeps_the_other_wires(self):
        gone = kept = 0
        for seed in range(60):
            job = random_job(seed)
            job.route()
            for edit, meets in self.edits_of(job):
                before = job.wires()
                edit()
                after = job.wires()
                self.assertEqual(set(after), {pin for pin, parts in before.items() if not meets(pin, parts)})
                for pin, parts in after.items():
                    self.assertEqual([part[:-1] for part in parts], [part[:-1] for part in before[pin]])
                    self.assertTrue(all(part[-1] <= was[-1] for part, was in zip(parts, before[pin])))
                gone, kept = gone + len(before) - len(after), kept + len(after)
        self.assertGreater(min(gone, kept), 100)

    def edits_of(self, job):
        """Edits of a wired job, each with a test of the pins and parts of wires that it takes out."""
        for row, column in job.pins(CHOSEN)[:2]:
            yield lambda: job.mark(row, column, IDLE), lambda pin, parts: pin == (row, column)
        for row, column in job.pins(MISSING)[:2]:
            yield lambda: job.mark(row, column, IDLE), lambda pin, parts: any(part[:-1] == (row, column, 'r') for part in parts)
        for row, column in job.tiles(True)[:2]:
            yield lambda: job.close(row, column, 1), lambda pin, parts: any(part[:2] == (row, column) and part[2] != 'r' for part in parts if len(part) == 4)
        for row, column in job.pins(IDLE)[:1]:
            yield lambda: job.mark(row, column, CHOSEN), lambda pin, parts: False
        for row, column in job.tiles(False)[:1]:
            yield lambda: job.close(row, column, 0), lambda pin, parts: False

    def test_the_longest_text(self):
        job = Job(40, 40, 8, 16, 16)
        for row in range(40):
            for column in range(40):
                job.mark(row, column, MISSING)
        for row, column in job.tiles(True):
            job.close(row, column, 1)
            job.diagonal(row, column, 15)
            for side in talusdish.SIDES:
                job.lay(row, column, side, 8)
        self.assertEqual((len(job.laid_sides()), len(job.own_diagonals()), len(job.write_text())), (3120, 1521, 117252))

    def test_rules_of_document_02(self):
        self.assertEqual(talusdish.rules(800, 400, 100, 75), (1, 150, 3, 280000, 2))
        self.assertEqual(talusdish.rules(1000, 500, 100, 100), (2, 0, 4, 40000, 4))

    def test_text_is_read_and_written(self):
        for path in EXAMPLES:
            if path.stem != 'refused':
                self.assertEqual(Job.of_text(path.read_bytes()).write_text(), path.read_bytes(), path)

    def test_a_direct_exit_as_a_part(self):
        job = Job(4, 4)
        job.mark(0, 1, CHOSEN)
        job.route()
        self.assertEqual((job.part(0, 1, 0), job.part(0, 1, 1)), (Out('p', 0), None))
        self.assertEqual(job.wires(), {(0, 1): [Out('p', 0)]})

    def test_a_listing_longer_than_its_first_output(self):
        job = random_job(5)
        job.route()
        self.assertEqual(job.listing(size=16), job.listing())


def over_limits(job, wires):
    """The links, centres and missing pins of wires that have more than their limit."""
    loads, passed = {}, {}
    for pin, parts in wires.items():
        for u, v, _ in hops(pin, parts):
            loads[link(u, v)] = loads.get(link(u, v), 0) + 1
            if v[2] in 'cr':
                passed[v] = passed.get(v, 0) + 1
    limits = {ends: limit_of(job, *ends) for ends in loads} | {place: job.e if place[2] == 'r' else job.centre_limit(*place[:2]) for place in passed}
    return [what for what, load in (loads | passed).items() if load > limits[what]]


def limit_of(job, u, v):
    """The limit of a link of places, or of a pin and a place."""
    kinds = {u[2], v[2]}
    if kinds & set('cr'):
        return 1 if kinds & {'r'} and job.mark_of(*(u if u[2] == 'r' else v)[:2]) == CHOSEN else job.rows * job.columns
    is_corner = u[:2] == v[:2] and kinds <= set('nesw')
    return job.corner_limit() if is_corner else job.side_limit(*(u if u[2] in 'nesw' else v))


class Limits(unittest.TestCase):
    def test_wires_of_random_jobs_keep_them(self):
        filled = 0
        for seed in range(100):
            job = random_job(seed)
            job.route()
            wires = job.wires()
            self.assertEqual(over_limits(job, wires), [], seed)
            sides = [u for pin, parts in wires.items() for u, v, _ in hops(pin, parts) if limit_of(job, u, v) == 1 and u[2] in talusdish.SIDES and job.laid_on(*u)]
            filled += len(sides)
        self.assertGreater(filled, 20)


class BesideEscape(unittest.TestCase):
    """The same answers as `escape` on all examples. Which legal wires Steps lead to is free, so of a wired job the wired pins and the total are compared."""

    @classmethod
    def setUpClass(cls):
        subprocess.run([ROOT / 'host' / 'prove', 'program', 'escape'], check=True)

    def escape(self, path):
        with open(path, 'rb') as text:
            return subprocess.run([ROOT / 'target' / 'bin' / 'escape'], stdin=text, capture_output=True, text=True, check=True).stdout

    def test_every_example(self):
        for path in EXAMPLES:
            with self.subTest(path.stem):
                mine, other = self.answer(path), self.escape(path)
                self.assertEqual(mine.split('\n')[0], other.split('\n')[0])
                if mine.startswith('(wires'):
                    self.compare_wires(Job.of_text(path.read_bytes()), wires_of(mine), wires_of(other))
                    self.assertEqual(total_of(mine), total_of(other))
                else:
                    self.assertEqual(mine, other)

    def compare_wires(self, job, mine, other):
        self.assertEqual(list(mine), list(other))
        self.assertEqual(list(mine), job.pins(CHOSEN))
        self.assertEqual((over_limits(job, mine), over_limits(job, other)), ([], []))

    def answer(self, path):
        """What the binding gives for a job, in the form of a listing."""
        try:
            job = Job.of_text(path.read_bytes())
        except Refused as refused:
            return f'(refused {refused.code} {refused.value})\n'
        return command.near_listing(job, *job.shortfall()) if job.route() == SHORT else job.listing()


class BallNames(unittest.TestCase):
    def test_forty_rows_end_at_ay(self):
        self.assertEqual([row_name(row) for row in (0, 7, 8, 19, 20, 39)], ['A', 'H', 'J', 'Y', 'AA', 'AY'])
        self.assertEqual((ball_name(0, 0), ball_name(39, 39)), ('A1', 'AY40'))

    def test_names_and_places_are_one_to_one(self):
        names = {ball_name(row, column): (row, column) for row in range(60) for column in range(60)}
        self.assertEqual(len(names), 3600)
        self.assertTrue(all(ball_place(name) == place and ball_place(name.lower()) == place for name, place in names.items()))
        self.assertFalse(set('IOQSXZ') & set(''.join(names)))

    def test_no_ball_names(self):
        for name in ('', 'A', '1', 'A0', 'I1', 'AO3', 'AAA1', '1A', 'A-1', 'A1B', 'Ä1', 'A１'):
            with self.subTest(name), self.assertRaises(ValueError):
                ball_place(name)
