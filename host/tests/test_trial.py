"""Jobs for load trials: the vectors, random trials beside document 02's rule, refusals and their order, and the part `trial`."""
import itertools
import random
import re
import subprocess
import tempfile
import unittest
from pathlib import Path

from support import ROOT, TALUS, talus
from talusdish import CHOSEN, MISSING, Job, Refused

VECTORS = ROOT / 'crates' / 'trial_check' / 'data'
NUMBERS = Path(__file__).with_name('trials.txt')                    # the numbers of each vector
FIRST = (7, 7, 7, 7, 2, 1, 0, 19, 100)                              # those of the first
LARGEST = (1 << 64) - 1


def vectors():
    """(numbers, text) of each vector."""
    for line in NUMBERS.read_text().splitlines():
        name, numbers = line.split(':')
        yield tuple(map(int, re.findall(r'\d+', numbers))), (VECTORS / f'{name}.job').read_bytes()


def tried(*numbers):
    """The job of a trial."""
    job = Job()
    job.trial(*numbers)
    return job


def draws(number):
    """The draws from a starting number."""
    while True:
        number ^= number << 13 & 0xffffffff
        number ^= number >> 17
        number ^= number << 5 & 0xffffffff
        yield number


def ruled(rows, columns, o, d, e, seed, chosen, missing, closed):
    """The job of a trial by document 02's rule, made by New, Mark and Close."""
    job, percents = Job(rows, columns, o, d, e), (number % 100 for number in draws(seed))
    for row, column in itertools.product(range(rows), range(columns)):
        percent = next(percents)
        if percent < chosen + missing:
            job.mark(row, column, CHOSEN if percent < chosen else MISSING)
    for row, column in itertools.product(range(rows - 1), range(columns - 1)):
        if next(percents) < closed:
            job.close(row, column, 1)
    return job


def random_numbers(draw):
    """The numbers of a trial that is made."""
    o, chosen = draw.randint(1, 8), draw.randint(0, 100)
    d = draw.randint(o, 2 * o)
    return (draw.randint(2, 40), draw.randint(2, 40), o, d, draw.randint(0, d), draw.randrange(1, 1 << 32),
            chosen, draw.randint(0, 100 - chosen), draw.randint(0, 100))


class Trials(unittest.TestCase):
    def test_every_vector(self):
        kept = list(vectors())
        self.assertEqual((len(kept), kept[0][0]), (20, FIRST))
        for numbers, text in kept:
            self.assertEqual(tried(*numbers).write_text(), text, numbers)

    def test_random_trials_are_those_of_the_rule(self):
        self.assertEqual(next(draws(1)), 270369)
        draw = random.Random(6)
        for numbers in (random_numbers(draw) for _ in range(150)):
            self.assertEqual(tried(*numbers).record, ruled(*numbers).record, numbers)

    def test_a_trial_takes_the_place_of_a_job_and_its_wires(self):
        job = tried(12, 12, 2, 3, 1, 7, 40, 10, 5)
        job.route()
        self.assertTrue(job.wires())
        job.lay(0, 0, 'n', 1)
        job.trial(*FIRST)
        self.assertEqual(job.record, tried(*FIRST).record)

    def test_refusals_in_their_order(self):
        for code, numbers in (
                (2, (1, 7, 0, 0, 17, 0, 101, 0, 101)), (2, (7, 41, 7, 7, 2, 1, 0, 19, 100)), (3, (7, 7, 0, 0, 0, 0, 101, 0, 101)), (3, (7, 7, 7, 15, 2, 1, 0, 19, 100)),
                (3, (7, 7, 7, 7, 17, 1, 0, 19, 100)), (12, (7, 7, 7, 7, 2, 0, 101, 0, 101)), (12, (7, 7, 7, 7, 2, 1 << 32, 0, 19, 100)), (13, (7, 7, 7, 7, 2, 1, 50, 51, 0)),
                (13, (7, 7, 7, 7, 2, 1, 0, 0, 101)), (13, (7, 7, 7, 7, 2, 1, LARGEST, 1, 0)), (13, (7, 7, 7, 7, 2, 1, LARGEST, LARGEST, LARGEST))):
            job = Job()
            with self.subTest(numbers), self.assertRaises(Refused) as caught:
                job.trial(*numbers)
            self.assertEqual((caught.exception.code, job.record), (code, Job().record))


class Part(unittest.TestCase):
    def trial(self, *numbers, more=()):
        return talus('trial', *map(str, numbers), *more)

    def test_the_text_of_a_vector(self):
        for numbers, text in itertools.islice(vectors(), 4):
            run = self.trial(*numbers)
            self.assertEqual((run.returncode, run.stdout.encode(), run.stderr), (0, text, ''))

    def test_a_file(self):
        with tempfile.TemporaryDirectory() as folder:
            path = Path(folder) / 'trial.job'
            run = self.trial(*FIRST, more=('-o', path))
            self.assertEqual((run.returncode, run.stdout, path.read_bytes()), (0, '', (VECTORS / 'trial00.job').read_bytes()))
            self.assertEqual(self.trial(*FIRST, more=('-o', Path(folder) / 'none' / 'trial.job')).returncode, 3)

    def test_piped_into_other_parts(self):
        for numbers, status in (('20 20 2 3 1 1 30 5 10', 0), ('20 20 1 1 0 1 90 0 10', 1)):
            for part, begins in (('route', ('(wires ', '(short ')[status]), ('draw', '<svg')):
                run = subprocess.run(['sh', '-c', f'"$0" trial {numbers} | "$0" {part} -', TALUS], capture_output=True, text=True)
                self.assertEqual(run.returncode, status, run.stderr)
                self.assertTrue(run.stdout.startswith(begins))

    def test_refused_with_a_reason(self):
        for place, number, reason in ((0, 1, 'rows and columns are 2 to 40'), (3, 6, 'the capacities are out of range'), (5, 0, 'the starting number is not 1 to 4,294,967,295'),
                                      (5, 1 << 32, 'the starting number'), (6, 82, 'chosen and missing together are 0 to 100'), (8, 101, 'closed is 0 to 100')):
            run = self.trial(*FIRST[:place], number, *FIRST[place + 1:])
            self.assertEqual((run.returncode, run.stdout), (2, ''))
            self.assertRegex(run.stderr, f'^talus trial: .*{reason}')

    def test_no_numbers(self):
        for place, word in ((0, '-1'), (5, '1e3'), (5, str(1 << 64)), (8, '٣'), (8, '')):
            run = self.trial(*FIRST[:place], word, *FIRST[place + 1:])
            self.assertEqual((run.returncode, run.stdout), (3, ''))
            self.assertIn('is no whole number', run.stderr)
        self.assertEqual((self.trial(*FIRST[:8]).returncode, self.trial(*FIRST, 1).returncode), (3, 3))
