"""Jobs from what layout engineers hold: a KiCad footprint, or a CSV of ball names."""
import csv
import io
import re
from decimal import Decimal
from typing import NamedTuple

from talusdish import CHOSEN, IDLE, MISSING, Job, ball_name, ball_place

LARGEST = 40                                                        # rows and columns of an array
FARTHEST = 10000                                                    # millimetres from a footprint's middle to a pad
TOLERANCE = 3                                                       # micrometres by which a pad may be off its place
STATES = {'chosen': CHOSEN, 'idle': IDLE, 'missing': MISSING}
HEADINGS = ('ball', 'pin', 'name')


class Unfit(Exception):
    """A file that no job can be made of: the line, or None, and the reason."""

    def __init__(self, line, reason):
        super().__init__(reason)
        self.line = line


class Pad(NamedTuple):
    """A pad of a footprint, in micrometres."""
    line: int
    x: int
    y: int
    diameter: int


class Footprint(NamedTuple):
    """The balls {(row, column)} of a footprint, its pitch and its largest pad, in micrometres."""
    balls: set
    pitch: int
    pad: int


# KiCad footprints

def tokens(text):
    """(line, token) of an S-expression; a string has its quotes."""
    line = 1
    for found in re.finditer(r'"(?:[^"\\]|\\.)*"|[()]|[^\s()"]+|\n|"', text):
        if found[0] == '"':
            raise Unfit(line, 'a string has no end')
        if found[0] != '\n':
            yield line, found[0]
        line += found[0].count('\n')


def expression(text):
    """The S-expression of a text as lists, each with its line first."""
    top, open_lists = None, []
    for line, token in tokens(text):
        if top is not None and not open_lists:
            raise Unfit(line, 'something follows the footprint')
        if token == '(':
            open_lists.append([line])
        elif not open_lists:
            raise Unfit(line, 'a footprint begins with a parenthesis')
        elif token == ')':
            top = open_lists.pop()
            if open_lists:
                open_lists[-1].append(top)
        else:
            open_lists[-1].append(token.strip('"') if token.startswith('"') else token)
    if open_lists:
        raise Unfit(open_lists[-1][0], 'a parenthesis is not closed')
    if top is None:
        raise Unfit(None, 'the file is empty')
    return top


def micrometres(node, word, line):
    """The two millimetre numbers of (WORD X Y) in a pad, as whole micrometres."""
    found = [part[2:4] for part in node if isinstance(part, list) and part[1:2] == [word]]
    try:
        x, y = (Decimal(part) for part in found[0])
        if max(abs(x), abs(y)) < FARTHEST:
            return round(1000 * x), round(1000 * y)
    except (IndexError, ArithmeticError, ValueError, TypeError):
        pass
    raise Unfit(line, f'a pad has no ({word} X Y) in millimetres')


def pads_of(tree):
    """{(row, column): pad} of the pads that have ball names."""
    if tree[1:2] not in (['footprint'], ['module']):
        raise Unfit(tree[0], 'this is no footprint: it begins with (footprint or (module')
    pads = {}
    for node in tree:
        if isinstance(node, list) and node[1:2] == ['pad'] and isinstance(node[2:3] and node[2], str) and re.fullmatch('[A-Za-z]{1,2}[0-9]{1,3}', node[2]):
            line = node[0]
            try:
                place = ball_place(node[2])
            except ValueError as reason:
                raise Unfit(line, str(reason)) from None
            if place in pads:
                raise Unfit(line, f'pad {node[2]} stands here and on line {pads[place].line}')
            pads[place] = Pad(line, *micrometres(node, 'at', line), max(micrometres(node, 'size', line)))
    if len(pads) < 4:
        raise Unfit(None, f'{len(pads)} pads have ball names (A1, B12, AY40); a ball grid has 4 or more')
    return pads


def pitch_along(pads, axis):
    """The signed distance from row to row (axis 0, by y) or column to column (axis 1, by x), by the first and the last."""
    places = sorted((place[axis], pad.y if axis == 0 else pad.x) for place, pad in pads.items())
    (first, start), (last, end) = places[0], places[-1]
    if first == last:
        raise Unfit(None, f'all balls stand in one {"row" if axis == 0 else "column"}')
    return (end - start) / (last - first), start - (end - start) / (last - first) * first


def footprint_of(text):
    """The balls of a footprint, each where its name says."""
    pads = pads_of(expression(text))
    (down, top), (along, left) = pitch_along(pads, 0), pitch_along(pads, 1)
    if abs(abs(down) - abs(along)) > TOLERANCE or not round(abs(along)):
        raise Unfit(None, f'rows are {abs(down):g} micrometres apart and columns {abs(along):g}; one pitch is needed')
    for (row, column), pad in pads.items():
        if abs(pad.x - left - along * column) > TOLERANCE or abs(pad.y - top - down * row) > TOLERANCE:
            raise Unfit(pad.line, f'pad {ball_name(row, column)} does not stand where its name says, {abs(along):g} micrometres to a row and column')
    return Footprint(set(pads), round(min(abs(down), abs(along))), max(pad.diameter for pad in pads.values()))


# CSV

class Named(NamedTuple):
    """A ball that a CSV names: its mark and the line."""
    mark: int
    line: int


def named_in(text, default=None):
    """{(row, column): ball} of a CSV: a ball name and `chosen`, `idle` or `missing` to a row. Headings in the first row and empty rows are passed over.
    A row with a name alone has the default state, where there is one."""
    balls = {}
    rows = csv.reader(io.StringIO(text), strict=True)
    try:
        for cells in rows:
            cells = [cell.strip() for cell in cells]
            if any(cells) and (balls or cells[0].lower() not in HEADINGS):
                place, mark = ball_of(cells, default, rows.line_num)
                if place in balls:
                    raise Unfit(rows.line_num, f'{ball_name(*place)} is named here and on line {balls[place].line}')
                balls[place] = Named(mark, rows.line_num)
    except csv.Error as reason:
        raise Unfit(rows.line_num, f'this is no CSV: {reason}') from None
    if not balls:
        raise Unfit(None, 'no ball is named')
    return balls


def ball_of(cells, default, line):
    """The place and the mark of one row."""
    try:
        place = ball_place(cells[0])
    except ValueError as reason:
        raise Unfit(line, str(reason)) from None
    state = cells[1].lower() if len(cells) > 1 and cells[1] else default
    if state not in STATES:
        raise Unfit(line, f'{cells[1]!r} is no state: chosen, idle or missing' if state else f'{cells[0]} has no state: chosen, idle or missing')
    if any(cells[2:]):
        raise Unfit(line, f'a third cell follows {cells[0]} and its state')
    return place, STATES[state]


def csv_marks(text, unlisted):
    """The marks {(row, column): mark} of a CSV alone; `unlisted` is the state of a ball that no row names."""
    balls = named_in(text)
    rows, columns = size_of(balls)
    marks = {(row, column): STATES[unlisted] for row in range(rows) for column in range(columns)}
    return marks | {place: ball.mark for place, ball in balls.items()}


# Marks of a footprint's balls

def outer_marks(balls, rings):
    """The balls of the outer rings chosen, the others idle."""
    rows, columns = size_of(balls)
    return {(r, c): CHOSEN if min(r, c, rows - 1 - r, columns - 1 - c) < rings else IDLE for r, c in balls}


def named_marks(balls, text):
    """The balls as a CSV says, a name alone chosen; those that it does not name idle."""
    named = named_in(text, 'chosen')
    for place, ball in named.items():
        if place not in balls:
            raise Unfit(ball.line, f'the footprint has no ball {ball_name(*place)}')
    return {place: named[place].mark if place in named else IDLE for place in balls}


# Jobs

def size_of(places):
    """Rows and columns of the array that holds all places."""
    rows, columns = (max(place[axis] for place in places) + 1 for axis in (0, 1))
    if not (2 <= rows <= LARGEST and 2 <= columns <= LARGEST):
        raise Unfit(None, f'{rows} by {columns} balls; an array has 2 to {LARGEST} rows and columns')
    return rows, columns


def job_of(marks, capacities):
    """The job of an array; a pin without a mark is missing."""
    rows, columns = size_of(marks)
    job = Job(rows, columns, *capacities)
    for row in range(rows):
        for column in range(columns):
            job.mark(row, column, marks.get((row, column), MISSING))
    return job
