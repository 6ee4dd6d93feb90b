"""What the tests share."""
import random
import subprocess
from pathlib import Path

import talusdish

ROOT = Path(__file__).resolve().parent.parent.parent
TALUS = ROOT / 'host' / 'talus'
EXAMPLES = sorted((ROOT / 'examples').glob('*.job'))
FOOTPRINTS = ROOT / 'host' / 'tests' / 'footprints'


def talus(*words, **options):
    """A finished run of the command, its output and messages as text."""
    options = {'stdout': subprocess.PIPE, 'stderr': subprocess.PIPE, 'input': ''} | options
    if 'stdin' in options:
        del options['input']
    return subprocess.run([TALUS, *words], text=True, errors='replace', **options)


def example(name):
    """The path of an example."""
    return str(ROOT / 'examples' / f'{name}.job')


def random_job(seed, largest=14):
    """A job of any capacities and densities, some with wires already laid and some with tiles that have their own D, by a seed."""
    draw = random.Random(seed)
    rows, columns, o = draw.randint(2, largest), draw.randint(2, largest), draw.choice((1, 1, 2, 2, 3, 4, 6, 8))
    d = draw.randint(o, 2 * o)
    job = talusdish.Job(rows, columns, o, d, min(d, draw.choice((0, 0, 1, 2, 5, 16))))
    chosen, missing, closed = draw.choice((.2, .5, .8, 1)), draw.choice((0, 0, .1, .3)), draw.choice((0, 0, .1, .3))
    for row in range(rows):
        for column in range(columns):
            if draw.random() < chosen:
                job.mark(row, column, talusdish.CHOSEN)
            elif draw.random() < missing:
                job.mark(row, column, talusdish.MISSING)
            if job.has_tile(row, column) and draw.random() < closed:
                job.close(row, column, 1)
    laid = draw.choice((0, 0, .1, .4))
    for row, column in (*job.tiles(True), *job.tiles(False)):
        for side in talusdish.SIDES:
            if draw.random() < laid:
                job.lay(row, column, side, draw.randint(1, o))
    own = draw.choice((0, 0, .3))
    for row, column in (*job.tiles(True), *job.tiles(False)):
        if draw.random() < own:
            job.diagonal(row, column, draw.randint(o, 2 * o))
    return job
