"""Drawings: no two wires meet, a bottleneck is full, and what is wrong is found."""
import multiprocessing
import re
import unittest
import xml.etree.ElementTree as xml

import picture
from bottleneck import Bottleneck, Cut
from layout import Layout, hops
from picture import Picture
from support import EXAMPLES, ROOT, random_job
from talusdish import CHOSEN, IDLE, MISSING, SHORT, Job

JOBS = 2000
SVG = '{http://www.w3.org/2000/svg}'


def drawn(job, change=lambda wires: wires):
    """The picture of a job, its wires changed first."""
    is_short = job.route() == SHORT
    layout = Layout(job, change(job.wires()))
    return Picture('job', layout, Bottleneck(layout, job.shortfall()[1]) if is_short else None)


def short_job():
    """A job that is short: all of 8 by 8 chosen."""
    job = Job(8, 8, 1, 2, 0)
    for row in range(8):
        for column in range(8):
            job.mark(row, column, CHOSEN)
    return job


def exchanged(wires):
    """The wires with two neighbouring lanes of one gate exchanged, or None where no gate has two."""
    gates = {}
    for pin, parts in wires.items():
        for at, (u, v, lane) in enumerate(hops(pin, parts)):
            gates.setdefault((u, v), {})[lane] = pin, at
    for lanes in gates.values():
        if len(lanes) > 1:
            changed = {pin: list(parts) for pin, parts in wires.items()}
            for lane, (pin, at) in ((1, lanes[0]), (0, lanes[1])):
                changed[pin][at] = changed[pin][at]._replace(lane=lane)
            return changed
    return None


def judge(seed):
    """Of a random job: its wires, whether it is short, the sides with laid wires, what is wrong with its picture; and whether an exchange of lanes is found,
    None where there is none."""
    job = random_job(seed)
    one = drawn(job)
    other = exchanged(one.layout.wires) if seed % 10 == 0 else None
    found = None if other is None else any('meet' in fault for fault in drawn(job, lambda wires: other).faults())
    return len(one.curves), one.bottleneck is not None, len(one.laid), list(one.faults()), found


class RandomJobs(unittest.TestCase):
    def test_pictures_of_random_jobs_and_exchanged_lanes(self):
        Job()
        with multiprocessing.Pool() as pool:
            answers = pool.map(judge, range(JOBS), chunksize=20)
        wires, shorts, laid, faults, found = zip(*answers)
        self.assertEqual([(seed, fault) for seed, fault in enumerate(faults) if fault], [])
        exchanges = [answer for answer in found if answer is not None]
        self.assertTrue(all(exchanges))
        self.assertGreater(len(exchanges), 50)
        self.assertGreater(sum(shorts), 200)
        self.assertGreater(sum(wires), 40000)
        self.assertGreater(sum(laid), 20000)


class Examples(unittest.TestCase):
    def test_every_example_is_drawn_without_a_fault(self):
        for path in EXAMPLES:
            if path.stem != 'refused':
                with self.subTest(path.stem):
                    made = drawn(Job.of_text(path.read_bytes()))
                    self.assertEqual(list(made.faults()), [])
                    self.assertEqual(self.paths(made), {pin: self.words(curves) for pin, curves in made.curves.items()})

    def paths(self, made):
        """{pin: path} of the picture's wires, as a reader of SVG finds them."""
        found = {}
        for path in xml.fromstring(made.svg()).iter(f'{SVG}path'):
            name = path.find(f'{SVG}title')
            pin = name is not None and re.fullmatch(r'\w+ \(pin (\d+) (\d+)\)', name.text)
            if pin:
                found[int(pin[1]), int(pin[2])] = [float(word) for word in re.findall(r'[\d.]+', path.get('d'))]
        return found

    def words(self, curves):
        """The numbers of a wire that was checked, in the order of its path."""
        start, bends, end = curves
        return [value for point in (start, *(point for bend in bends for point in bend), end) for value in point]

    def test_a_picture_says_what_came_of_the_job(self):
        svg = drawn(short_job()).svg()
        self.assertRegex(svg, r'short \d+: \d+ balls in the shaded part, \d+ ways? out of it')
        self.assertIn('load/limit', svg)
        self.assertIn('all wired: 1 wire<', drawn(self.job_with_one_wire()).svg())
        self.assertIn('no ball is chosen', drawn(Job()).svg())

    def test_a_bottleneck_that_is_none_is_found(self):
        made = drawn(short_job())
        made.bottleneck.cuts.pop()
        self.assertTrue(any('the limits of the bottleneck' in fault for fault in made.faults()))
        made = drawn(short_job())
        made.bottleneck.cuts[0] = made.bottleneck.cuts[0]._replace(load=0)
        self.assertTrue(any('carries 0 of' in fault for fault in made.faults()))

    def job_with_one_wire(self):
        job = Job(5, 5)
        job.mark(2, 2, CHOSEN)
        return job


class Laid(unittest.TestCase):
    """Wires already laid, on the job of one open tile: its two chosen balls have two ways out by its side n."""

    def job(self, laid):
        text = (ROOT / 'examples' / 'laid.job').read_bytes()
        return Job.of_text(text.replace(b'(laid 0 1 n 1)\n', b'(laid 0 1 n %d)\n' % laid if laid else b''))

    def dashes(self, made):
        """{title: dashes} of the laid wires, as a reader of SVG finds them."""
        paths = [(path.find(f'{SVG}title'), path.get('d')) for path in xml.fromstring(made.svg()).iter(f'{SVG}path')]
        return {title.text: d.count('M') for title, d in paths if title is not None and 'laid on' in title.text}

    def test_marks_and_a_legend_only_where_there_are_some(self):
        for laid, dashes in ((0, {}), (1, {'1 wire laid on n of tile 0 1': 1}), (2, {'2 wires laid on n of tile 0 1': 2})):
            made = drawn(self.job(laid))
            self.assertEqual((self.dashes(made), 'laid wires<' in made.svg()), (dashes, laid > 0))

    def test_a_bottleneck_has_the_lowered_limit(self):
        one, none = drawn(self.job(1)), drawn(self.job(2))
        self.assertEqual((one.bottleneck.cuts, one.bottleneck.ways), ([Cut('side', (0, 1, 'n'), (0, 1, 'N'), 1, 1)], 1))
        self.assertIn('>1/1<', one.svg())
        self.assertEqual((none.bottleneck.cuts, none.verdict()), ([], '0 of 2 wired, short 2: 2 balls in the shaded part, 0 ways out of it'))
        self.assertEqual([*one.faults(), *none.faults()], [])

    def test_a_side_is_drawn_alike_from_both_of_its_tiles(self):
        job = Job(4, 4, 3, 3, 0)
        job.lay(0, 1, 's', 2)
        job.lay(1, 1, 'w', 1)
        geometry = drawn(job).layout.geometry
        for one, other, laid in (((0, 1, 's'), (1, 1, 'n'), 2), ((1, 0, 'e'), (1, 1, 'w'), 1)):
            dashes, gate = geometry.laid(*one), geometry.gate(one, other)
            self.assertEqual(len(dashes), laid)
            self.near([end for dash in dashes for end in dash], [end for dash in geometry.laid(*other) for end in dash])
            self.near(gate, geometry.gate(other, one)[::-1])
            self.assertLess(dashes[-1][1], min(gate))

    def near(self, one, other):
        for p, q in zip(one, other, strict=True):
            self.assertAlmostEqual(p[0], q[0])
            self.assertAlmostEqual(p[1], q[1])

    def test_a_wire_that_meets_a_laid_one_is_found(self):
        made = drawn(self.job(1))
        made.laid[0, 1, 'n'] = [[(1, 0), (2, 0)]]
        self.assertRegex('\n'.join(made.faults()), r'^the wire of B[23] and what is laid on n of tile 0 1 meet as drawn$|^what is laid on n of tile 0 1 and the wire of B[23] meet as drawn$')

    def test_the_legend_fits(self):
        job = short_job()
        job.mark(0, 0, IDLE)
        job.mark(0, 7, MISSING)
        job.close(0, 0, 1)
        job.lay(0, 3, 'n', 1)
        made = drawn(job)
        self.assertEqual(len(made._entries()), 8)
        self.assertGreaterEqual(made.width, sum(picture.length_of(word) for _, word in made._entries()))


class Colours(unittest.TestCase):
    def luminance(self, colour):
        parts = (int(colour[i:i + 2], 16) / 255 for i in (1, 3, 5))
        return sum(w * (x / 12.92 if x <= .03928 else ((x + .055) / 1.055) ** 2.4) for w, x in zip((.2126, .7152, .0722), parts))

    def test_wires_and_words_stand_out(self):
        grounds = [self.luminance(colour) for colour in (picture.PAPER, picture.BOARD)]
        for colour in (*(shade for shades in picture.SHADES.values() for shade in shades), picture.INK, picture.FAINT, picture.ALARM):
            for ground in grounds:
                self.assertGreater((ground + .05) / (self.luminance(colour) + .05), 4.5, colour)
