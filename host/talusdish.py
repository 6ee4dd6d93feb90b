"""Talusdish from Python: the functions of include/talusdish.h by ctypes, ball names, and what docs/RECORD.md says of a record.

The library is proved and built on first use by host/prove, which standard error shows, and is kept in target/host/. With the path of a shared library in
the variable TALUSDISH that one is used, and nothing is built."""
import ctypes
import fcntl
import functools
import hashlib
import os
import re
import shutil
import subprocess
from pathlib import Path
from typing import NamedTuple

ROOT = Path(__file__).resolve().parent.parent
RECORD, SCRATCH = 32768, 65536                                      # bytes of a record and of a near side, bytes of scratch
TEXT, LISTING = 640320, 1 << 20                                     # an output that every text fits, and one to begin a listing with
IDLE, CHOSEN, MISSING = 0, 1, 2
ADDED, ALL_WIRED, SHORT = 0, 1, 2
SIDES = 'nesw'                                                      # by their codes, which is the order of a text too

# What each function takes: b a buffer and its length, n a number, r a pointer to a number that it gives. Every function returns 256 * value + code.
SIGNATURES = {
    'talusdish_new': 'bnnnnn',
    'talusdish_mark': 'bnnn',
    'talusdish_close': 'bnnn',
    'talusdish_lay': 'bnnnn',
    'talusdish_diagonal': 'bnnn',
    'talusdish_extra': 'bn',
    'talusdish_step': 'bb',
    'talusdish_shortfall': 'bbb',
    'talusdish_part': 'bnnn',
    'talusdish_read_text': 'bb',
    'talusdish_write_text': 'bb',
    'talusdish_listing': 'bb',
    'talusdish_rules': 'nnnnrrrrr',
    'talusdish_trial': 'bnnnnnnnnn',
    'talusdish_sheet': 'bb',
}

REFUSALS = {
    1: 'the record is short or damaged',
    2: 'rows and columns are 2 to 40',
    3: 'the capacities are out of range: O is 1 to 8, D is O to 2×O, of a tile too, E is 0 to D, and only a lower E may take the place of one',
    4: 'there is no such pin or tile, or the pin is not chosen',
    5: 'unknown mark, state or side',
    6: 'wrong text',
    7: 'the output is too short',
    8: 'the scratch is too short',
    9: 'a measure is not 1 to 100,000 micrometres',
    10: 'the pitch is under pad and spacing together, or the wires that fit between two pads (O) are not 1 to 8',
    11: 'more wires are laid on a side than fit there (O)',
    12: 'the starting number is not 1 to 4,294,967,295',
    13: 'the percentages are out of range: chosen and missing together are 0 to 100, closed is 0 to 100',
    14: 'a sheet is for a job with O of 2 and no missing pin',
    15: 'the sheet is not 9,600 bytes long, or has a load over its side or inward at the rim, or wrong marks',
}


class Failed(Exception):
    """The library cannot be had."""


class Refused(Exception):
    """A call that the library refused: its code, and of a wrong text the offset of the first line that may not stand there."""

    def __init__(self, code, value=0):
        super().__init__(REFUSALS.get(code, f'refused by {code}'))
        self.code, self.value = code, value


# The library

def crates_below(name):
    """The crates that a crate stands on, and itself, by crates.txt."""
    lines = (line.split('#')[0].split(':') for line in (ROOT / 'crates.txt').read_text().splitlines())
    below = {line[0].split()[0]: line[1].split() for line in lines if len(line) == 2}
    found, ahead = set(), [name]
    while ahead:
        crate = ahead.pop()
        if crate in below and crate not in found:
            found.add(crate)
            ahead += below[crate]
    return sorted(found)


def sources_digest():
    """A digest of every file that the library is made and proved from."""
    digest = hashlib.sha256((ROOT / 'crates.txt').read_bytes())
    for crate in crates_below('talusdish_c'):
        for path in sorted(p for part in ('src', 'specs', 'proofs') for p in (ROOT / 'crates' / crate / part).rglob('*') if p.is_file()):
            digest.update(f'{path.relative_to(ROOT)}\n'.encode() + path.read_bytes())
    return digest.hexdigest()


def link_shared(archive, shared):
    """Makes a shared library of a static one, whole or not at all."""
    compiler = next(filter(shutil.which, ('cc', 'gcc', 'clang')), None)
    if not compiler:
        raise Failed('no C compiler (cc, gcc or clang) to link the library with')
    made = shared.with_suffix(f'.{os.getpid()}')
    words = [compiler, '-shared', '-o', made, '-Wl,--whole-archive', archive, '-Wl,--no-whole-archive']
    answer = subprocess.run(words, capture_output=True, text=True, errors='replace')
    if answer.returncode:
        made.unlink(missing_ok=True)
        raise Failed(f'{compiler} could not link the library: {answer.stderr.strip()}')
    made.replace(shared)


def build_library():
    """The path of the shared library, proved and built anew where its sources have changed."""
    folder = ROOT / 'target' / 'host'
    folder.mkdir(parents=True, exist_ok=True)
    shared, stamp = folder / 'libtalusdish.so', folder / 'libtalusdish.sources'
    with open(folder / 'lock', 'w') as lock:
        fcntl.flock(lock, fcntl.LOCK_EX)
        digest = sources_digest()
        if not (shared.exists() and stamp.exists() and stamp.read_text() == digest):
            if subprocess.run([ROOT / 'host' / 'prove', 'library']).returncode:
                raise Failed('the library was not built')
            link_shared(ROOT / 'target' / 'staticlib' / 'libtalusdish.a', shared)
            stamp.write_text(digest)
    return shared


@functools.cache
def library():
    """The library, its functions with their types."""
    types = {'b': (ctypes.POINTER(ctypes.c_uint8), ctypes.c_uint64), 'n': (ctypes.c_uint64,), 'r': (ctypes.POINTER(ctypes.c_uint64),)}
    try:
        loaded = ctypes.CDLL(os.environ.get('TALUSDISH') or str(build_library()))
        for name, takes in SIGNATURES.items():
            function = getattr(loaded, name)
            function.restype = ctypes.c_uint64
            function.argtypes = [kind for letter in takes for kind in types[letter]]
    except (OSError, AttributeError) as reason:
        raise Failed(f'the library cannot be used: {reason}') from None
    return loaded


def call(name, *arguments):
    """The value of an accepted call; Refused otherwise. A buffer stands for itself and its length."""
    words = []
    for argument in arguments:
        words += [argument, len(argument)] if isinstance(argument, ctypes.Array) else [argument]
    word = getattr(library(), name)(*words)
    if word & 255:
        raise Refused(word & 255, word >> 8)
    return word >> 8


def buffer(size, content=b''):
    """Bytes to lend: the content, then zeros up to the size."""
    return (ctypes.c_uint8 * size).from_buffer_copy(content.ljust(size, b'\0'))


# Ball names

LETTERS = 'ABCDEFGHJKLMNPRTUVWY'                                    # JEDEC's: I, O, Q, S, X and Z are left out


def row_name(row):
    """A row by its letters: A to Y, AA to AY, BA .."""
    return (LETTERS[row // 20 - 1] if row >= 20 else '') + LETTERS[row % 20]


def ball_name(row, column):
    """A pin as a layout engineer names it: A1 is row 0, column 0."""
    return f'{row_name(row)}{column + 1}'


def ball_place(name):
    """The row and column of a ball name; ValueError with the reason where it is none."""
    found = re.fullmatch(r'([A-Z]{1,2})0*([1-9][0-9]{0,2})', name.strip().upper())
    if not found:
        raise ValueError(f'{name!r} is no ball name: A1, B12, AY40')
    wrong = [letter for letter in found[1] if letter not in LETTERS]
    if wrong:
        raise ValueError(f'{name!r} is no ball name: rows have no letter {wrong[0]}')
    row = functools.reduce(lambda sum, letter: 20 * sum + LETTERS.index(letter) + 1, found[1], 0) - 1
    return row, int(found[2]) - 1


# Jobs

class To(NamedTuple):
    """A part of a wire: the place that it comes to, and the lane by which."""
    row: int
    column: int
    place: str
    lane: int


class Out(NamedTuple):
    """The last part of a wire: the rim side, or p for a pin that leaves directly, and the lane."""
    side: str
    lane: int


class Rules(NamedTuple):
    """The capacities that design rules give, with what is left over."""
    o: int
    o_rest: int
    k: int
    k_rest: int
    diagonal: int


def rules(pitch, pad, width, spacing):
    """O and D from micrometres."""
    given = [ctypes.c_uint64() for _ in Rules._fields]
    call('talusdish_rules', pitch, pad, width, spacing, *map(ctypes.byref, given))
    return Rules(*(number.value for number in given))


def wires_of(listing):
    """{pin: its parts in order} of a listing's wires."""
    wires = {}
    for row, column, parts in re.findall(r'^\(wire \(pin (\d+) (\d+)\) (.*)\)$', listing, re.MULTILINE):
        wires[int(row), int(column)] = [
            Out(side, int(lane)) if side else To(int(r), int(c), place, int(n))
            for r, c, place, n, side, lane in re.findall(r'\(to (\d+) (\d+) (\w) (\d+)\)|\(out (\w) (\d+)\)', parts)]
    return wires


def total_of(listing):
    """The total length of a listing's wires, and the mean per wire as quotient and remainder, by its last two lines."""
    return tuple(map(int, re.search(r'^\(length (\d+)\)\n\(mean (\d+) (\d+)\)\n\Z', listing, re.MULTILINE).groups()))


class Near:
    """The near side that Shortfall gives, by docs/RECORD.md's published order."""
    KINDS = {'entry': 0, 'exit': 1, 'pin': 1, 'n': 2, 'e': 3, 's': 4, 'w': 5, 'ci': 6, 'co': 7}

    def __init__(self, output):
        self.output = output

    def has(self, row, column, kind):
        """Whether something of the cell (row, column) is near: a chosen pin, entry or exit of a missing one, n e s w, ci or co of a tile."""
        return self.output[8 * (41 + 40 * row + column) + self.KINDS[kind]] == 1


class Job:
    """A record in memory, as New leaves it: a method for each operation, then what the record's bytes say."""

    def __init__(self, rows=2, columns=2, o=1, d=2, e=0):
        self._record, self._scratch = buffer(RECORD), buffer(SCRATCH)
        call('talusdish_new', self._record, rows, columns, o, d, e)

    @classmethod
    def of_text(cls, text):
        """The job of a text."""
        job = cls()
        job.read_text(text)
        return job

    def trial(self, rows, columns, o, d, e, seed, chosen, missing, closed):
        """Makes this the job of a load trial: a starting number of 32 bits, and percentages of chosen pins, missing pins and closed tiles."""
        call('talusdish_trial', self._record, rows, columns, o, d, e, seed, chosen, missing, closed)

    def mark(self, row, column, mark):
        """Sets a pin's mark; another mark takes out the wires that start at the pin or pass it, and no others."""
        call('talusdish_mark', self._record, row, column, mark)

    def close(self, row, column, state):
        """Sets a tile's state; closing it takes out the wires that meet one of its places, and no others."""
        call('talusdish_close', self._record, row, column, state)

    def lay(self, row, column, side, count):
        """Sets how many wires are already laid on the side n, e, s or w of a tile, which takes out the wires in the side's highest lanes, as many
        as exceed the new limit, and no others; the library refuses any other side."""
        call('talusdish_lay', self._record, row, column, (*SIDES, side).index(side), count)

    def diagonal(self, row, column, d):
        """Sets a tile's D; another one takes out the wires through the tile's centre, and no others. The job's D means that it has none of its own."""
        call('talusdish_diagonal', self._record, row, column, d)

    def extra(self, e):
        """Lowers E, which takes out the wires that pass a missing pin, and no others; the same E changes nothing, and the library refuses a greater one."""
        call('talusdish_extra', self._record, e)

    def sheet(self, sheet):
        """None where the tiles carry the sheet, else the row and the column of the first that fails."""
        value = call('talusdish_sheet', self._record, buffer(len(sheet), bytes(sheet)))
        return (value >> 10 & 63, value >> 16) if value else None

    def step(self):
        """ADDED, ALL_WIRED or SHORT. ALL_WIRED leaves the least total length, and moves no wire where the record has it."""
        return call('talusdish_step', self._record, self._scratch)

    def route(self):
        """Steps to the end: ALL_WIRED or SHORT."""
        while (answer := self.step()) == ADDED:
            pass
        return answer

    def shortfall(self):
        """How many chosen pins cannot be wired, and the near side where there are any."""
        output = buffer(RECORD)
        short = call('talusdish_shortfall', self._record, self._scratch, output)
        return short, Near(bytes(output)) if short else None

    def part(self, row, column, index):
        """To or Out at an index of a pin's wire; None past its end or where the pin is unwired."""
        value = call('talusdish_part', self._record, row, column, index)
        kind, place, lane = value & 3, 'neswcrp'[value >> 2 & 7], value >> 5 & 31
        return None if kind < 2 else To(value >> 10 & 63, value >> 16, place, lane) if kind == 2 else Out(place, lane)

    def read_text(self, text):
        call('talusdish_read_text', self._record, buffer(len(text), text))

    def write_text(self):
        output = buffer(TEXT)
        length = call('talusdish_write_text', self._record, output)
        return bytes(output[:length])

    def listing(self, size=LISTING):
        """The listing of the wires that the record holds, whether all are wired or not, with their total length and mean."""
        output = buffer(size)
        try:
            length = call('talusdish_listing', self._record, output)
        except Refused as refused:
            if refused.code != 7:
                raise
            return self.listing(2 * size)
        return bytes(output[:length]).decode('ascii')

    def wires(self):
        """{pin: its parts in order} of the wires that the record holds."""
        return wires_of(self.listing())

    @property
    def record(self):
        return bytes(self._record)

    rows, columns, o, d, e = (property(lambda self, byte=byte: self._record[byte]) for byte in range(5))

    def _plane(self, plane, row, column):
        return self._record[768 + 1600 * plane + 40 * row + column]

    def mark_of(self, row, column):
        return self._plane(0, row, column)

    def pins(self, mark):
        """The pins with a mark, by row and column."""
        return [(r, c) for r in range(self.rows) for c in range(self.columns) if self.mark_of(r, c) == mark]

    def has_tile(self, row, column):
        return 0 <= row < self.rows - 1 and 0 <= column < self.columns - 1

    def is_open(self, row, column):
        return self.has_tile(row, column) and self._plane(1, row, column) == 0

    def tiles(self, is_open):
        """The open or the closed tiles, by row and column."""
        return [(r, c) for r in range(self.rows - 1) for c in range(self.columns - 1) if self.is_open(r, c) == is_open]

    def laid_on(self, row, column, side):
        """How many wires are already laid on the side n, e, s or w of a tile: an inner side is n or w of its southern or eastern tile too."""
        return self._plane(17 if side in 'ns' else 18, row + (side == 's'), column + (side == 'e'))

    def laid_sides(self):
        """The sides on which wires are already laid, each once, as a text names and orders them: n in the first row and w in the first column alone."""
        return [(r, c, side) for r in range(self.rows - 1) for c in range(self.columns - 1) for side in SIDES
                if (side in 'es' or (r if side == 'n' else c) == 0) and self.laid_on(r, c, side)]

    def side_limit(self, row, column, side):
        """How many wires the side n, e, s or w of an open tile takes besides those already laid."""
        return self.o - self.laid_on(row, column, side)

    def corner_limit(self):
        """How many wires n-e, e-s, s-w or w-n takes, in every tile."""
        return self.o // 2

    def diagonal_of(self, row, column):
        """The D of a tile: its own, or else the job's."""
        return self._plane(19, row, column) or self.d

    def own_diagonals(self):
        """{tile: its own D} of the tiles that have one, by row and column."""
        return {(r, c): own for r in range(self.rows - 1) for c in range(self.columns - 1) if (own := self._plane(19, r, c))}

    def centre_limit(self, row, column):
        """How many wires the centre of an open tile passes."""
        return self.diagonal_of(row, column) - 2 * (self.o // 2)
