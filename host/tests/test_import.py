"""Imports: three footprints made for the test, CSV files, and files that are neither."""
import tempfile
import unittest
from pathlib import Path

from support import FOOTPRINTS, talus
from talusdish import CHOSEN, IDLE, MISSING, Job

PAD = '(pad "{}" smd circle (at {} {}) (size 0.4 0.4))'
GRID = [PAD.format('A1', 0, 0), PAD.format('A2', .8, 0), PAD.format('B1', 0, .8), PAD.format('B2', .8, .8)]


def footprint(*pads):
    return '(footprint "x"\n' + '\n'.join(pads) + '\n)\n'


class Files(unittest.TestCase):
    def setUp(self):
        folder = tempfile.TemporaryDirectory()
        self.addCleanup(folder.cleanup)
        self.folder = Path(folder.name)

    def file(self, name, content):
        path = self.folder / name
        path.write_bytes(content if isinstance(content, bytes) else content.encode())
        return str(path)

    def job(self, *words):
        """The job that an import gives."""
        run = talus('import', *words)
        self.assertEqual(run.returncode, 0, run.stderr)
        return Job.of_text(run.stdout.encode())

    def refused(self, path, *words):
        """The message of a refused import, without the path."""
        run = talus('import', path, *(words or ('--caps', '1', '2', '0')))
        self.assertEqual((run.returncode, run.stdout), (2, ''), run.stderr)
        self.assertTrue(run.stderr.startswith(path), run.stderr)
        return run.stderr.removeprefix(path).strip()


class Footprints(Files):
    def test_full_grid_by_the_design_rules(self):
        job = self.job(FOOTPRINTS / 'full_8_by_8.kicad_mod', '--width', '100', '--spacing', '75')
        self.assertEqual((job.rows, job.columns, job.o, job.d, job.e), (8, 8, 1, 2, 0))
        self.assertEqual(len(job.pins(CHOSEN)), 64)

    def test_ring_with_missing_balls_and_outer_rings_chosen(self):
        job = self.job(FOOTPRINTS / 'ring_12_by_12.kicad_mod', '--width', '100', '--spacing', '100', '--outer', '2', '--extra', '3')
        self.assertEqual((job.rows, job.columns, job.o, job.d, job.e), (12, 12, 2, 4, 3))
        self.assertEqual([len(job.pins(mark)) for mark in (IDLE, CHOSEN, MISSING)], [144 - 80 - 20, 80, 20])

    def test_older_form_with_named_balls(self):
        balls = self.file('balls.csv', 'A2\nAE25,chosen\nb3,missing\nC3,idle\n')
        job = self.job(FOOTPRINTS / 'old_25_by_25.kicad_mod', '--caps', '1', '2', '1', '--balls', balls)
        self.assertEqual((job.pins(CHOSEN), job.pins(MISSING)), ([(0, 1), (24, 24)], [(0, 0), (1, 2)]))

    def test_a_missing_ball_with_no_extra_is_said(self):
        run = talus('import', FOOTPRINTS / 'ring_12_by_12.kicad_mod', '--width', '100', '--spacing', '100')
        self.assertIn('20 missing balls let no wire through', run.stderr)

    def test_a_footprint_seen_from_below(self):
        pads = [PAD.format(f'{letter}{n}', -n, -row) for row, letter in enumerate('ABC') for n in (1, 2, 3, 4)]
        job = self.job(self.file('x.kicad_mod', footprint(*pads)), '--caps', '1', '2', '0')
        self.assertEqual((job.rows, job.columns, len(job.pins(CHOSEN))), (3, 4, 12))

    def test_wrong_footprints(self):
        for content, reason in (
                ('', 'empty'), ('   \n', 'empty'), ('hello', ':1: a footprint begins'), (footprint(), '0 pads have ball names'), ('(board)', ':1: this is no footprint'),
                ('(footprint "x"\n(pad', ':2: a parenthesis is not closed'), ('(footprint "x)\n', ':1: a string has no end'), (footprint() + ')', ':4: something follows'),
                ('()', ':1: this is no footprint'), (footprint(*GRID, '(pad "I1" smd circle (at 0 0) (size 1 1))'), ':6: \'I1\' is no ball name'),
                (footprint(*GRID, GRID[0]), ':6: pad A1 stands here and on line 2'), (footprint(*GRID, PAD.format('C3', 1.6, 1.6), PAD.format('B3', 1.5, .8)), ':7: pad B3 does not stand'),
                (footprint(*GRID[:3], '(pad "B2" smd circle (size 1 1))'), ':5: a pad has no (at'), (footprint(*GRID[:3], PAD.format('B2', 'x', 1)), ':5: a pad has no (at'),
                (footprint(*GRID[:3], PAD.format('B2', '1e999999999', 1)), ':5: a pad has no (at'), (footprint(*GRID[:3], PAD.format('B2', 'NaN', 1)), ':5: a pad has no (at'),
                (footprint(*(PAD.format(f'A{n}', n, 0) for n in range(1, 6))), 'one row'), (footprint(*(PAD.format(f'A{n}', 0, 0) for n in range(1, 6))), 'one row'),
                (footprint(*(PAD.format(f'{r}{n}', n, 2 * i) for i, r in enumerate('AB') for n in (1, 2))), 'one pitch'),
                (footprint(*(PAD.format(f'{r}{n}', 0, 0) for r in 'AB' for n in (1, 2))), 'one pitch'),
                (footprint(*GRID, PAD.format('AY41', 32, 31.2)), '40 by 41 balls'), ('(' * 100000, 'not closed'), (b'(footprint \xff', ':1: a byte that is not UTF-8')):
            with self.subTest(content[:60]):
                self.assertIn(reason, self.refused(self.file('x.kicad_mod', content)))

    def test_refused_rules(self):
        path = str(FOOTPRINTS / 'full_8_by_8.kicad_mod')
        self.assertIn('a measure is not 1 to 100,000', self.refused(path, '--width', '0', '--spacing', '75'))
        self.assertIn('the pitch is under pad and spacing', self.refused(path, '--width', '500', '--spacing', '75'))
        self.assertIn('the capacities are out of range', self.refused(path, '--caps', '9', '9', '0'))


class Csv(Files):
    def test_states(self):
        path = self.file('balls.csv', '\ufeffBall,State\r\nA1,chosen\r\n\r\n"C4", Missing \r\nb2,IDLE\r\n')
        job = self.job(path, '--caps', '1', '2', '1')
        self.assertEqual((job.rows, job.columns, job.pins(CHOSEN), job.pins(MISSING)), (3, 4, [(0, 0)], [(2, 3)]))
        self.assertEqual(len(self.job(path, '--caps', '1', '2', '1', '--unlisted', 'missing').pins(MISSING)), 10)

    def test_design_rules_need_pitch_and_pad(self):
        path = self.file('balls.csv', 'A1,chosen\nB2,idle\n')
        self.assertEqual(self.job(path, '--pitch', '1000', '--pad', '500', '--width', '100', '--spacing', '100').o, 2)
        run = talus('import', path, '--width', '100', '--spacing', '100')
        self.assertEqual(run.returncode, 3)
        self.assertIn('a CSV has no measures', run.stderr)

    def test_wrong_rows(self):
        for content, reason in (
                ('', 'no ball is named'), ('ball,state\n', 'no ball is named'), ('A1,chosen\nI2,idle\n', ':2: \'I2\' is no ball name'), ('A1\n', ':1: A1 has no state'),
                ('A1,chosen\nB2,picked\n', ":2: 'picked' is no state"), ('A1,chosen\n\nA01,idle\n', ':3: A1 is named here and on line 1'),
                ('A1,chosen,idle\n', ':1: a third cell follows A1'), ('A1,chosen\nB99,idle\n', '2 by 99 balls'), ('A1,chosen\n', '1 by 1 balls'),
                ('A1,chosen\n"B2,idle\n', 'this is no CSV'), (b'A1,chosen\nB\xe9,idle\n', ':2: a byte that is not UTF-8'), ('A1,\0\n', ':1:')):
            with self.subTest(content):
                self.assertIn(reason, self.refused(self.file('balls.csv', content)))

    def test_a_huge_file(self):
        path = self.folder / 'huge.csv'
        with open(path, 'wb') as file:
            file.truncate(1 << 30)
        self.assertIn('larger than 4 MiB', self.refused(str(path)))

    def test_options_of_footprints(self):
        run = talus('import', self.file('balls.csv', 'A1,chosen\nB2,idle\n'), '--caps', '1', '2', '0', '--outer', '1')
        self.assertEqual(run.returncode, 3)
        self.assertIn('--outer and --balls go with a footprint', run.stderr)
