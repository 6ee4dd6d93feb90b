"""Why a line of job text may not stand where it stands. The library decides that it may not; this finds the reason to tell a person."""
import re
from typing import NamedTuple

from talusdish import SIDES

RANGES = {'rows': (2, 40), 'columns': (2, 40), 'O': (1, 8)}
GROUPS = ('chosen', 'missing', 'closed', 'd', 'laid')               # in the order of a text
FORMS = {'array': '(array (pins ROWS COLUMNS) (caps O D E))', 'end': '(end)', **{word: f'({word} ROW COLUMN)' for word in GROUPS},
         'd': '(d ROW COLUMN VALUE)', 'laid': '(laid ROW COLUMN SIDE COUNT)'}
LONGEST = 40                                                        # digits of a number that is told


class Wrong(NamedTuple):
    """A wrong line: its number from 1, its bytes, the first wrong column from 0, and the reason."""
    line: int
    content: bytes
    column: int
    reason: str


class Array(NamedTuple):
    """What the first line gives."""
    rows: int
    columns: int
    o: int
    d: int


def numbers_in(line):
    """[(column, digits)] of a line's numbers."""
    return [(found.start(), found[0].decode()) for found in re.finditer(rb'[0-9]+', line)]


def parts_of(form):
    """A pattern for each part of a form: a word in capitals stands for a number, SIDE for a letter, which may be a wrong one."""
    return [b'([A-Za-z0-9]+)' if part == 'SIDE' else b'([0-9]+)' if part.isupper() else re.escape(part).encode() for part in re.findall(r'[A-Z]+|[^A-Z]', form)]


def fields(line, word):
    """[(column, what stands there)] for each word in capitals of a line's form, numbers as such; None where the line is not spelt as its form asks."""
    found = re.fullmatch(b''.join(parts_of(FORMS[word])), line)
    return found and [(found.start(i), int(part) if part.isdigit() else part.decode()) for i, part in enumerate(found.groups(), 1)]


def spelling(line, word):
    """(column, reason) where a line is not spelt as its form asks, or None."""
    for column, digits in numbers_in(line):
        if len(digits) > 1 and digits.startswith('0'):
            return column, 'a number has no leading zeros'
        if len(digits) > LONGEST:
            return column, f'a number of {len(digits)} digits is too large'
    if fields(line, word) is not None:
        return None
    return first_difference(line, FORMS[word]), f'the form of this line is {FORMS[word]}, with one space between parts'


def first_difference(line, form):
    """The column where a line leaves its form."""
    column = 0
    for part in parts_of(form):
        found = re.match(part, line[column:])
        if not found:
            break
        column += found.end()
    return column


def array_reason(line):
    """(column, reason) of a wrong array line."""
    wrong = spelling(line, 'array')
    if wrong:
        return wrong
    (at_rows, rows), (at_columns, columns), (at_o, o), (at_d, d), (at_e, e) = fields(line, 'array')
    for column, number, what in ((at_rows, rows, 'rows'), (at_columns, columns, 'columns'), (at_o, o, 'O')):
        low, high = RANGES[what]
        if not low <= number <= high:
            return column, f'{what} may be {low} to {high}, not {number}'
    if not o <= d <= 2 * o:
        return at_d, f'D may be O to 2×O, here {o} to {2 * o}, not {d}'
    if e > d:
        return at_e, f'E may be 0 to D, here 0 to {d}, not {e}'
    return None


def group_reason(line, word, array, lines):
    """(column, reason) of a wrong line of a group, after the right `lines`."""
    wrong = spelling(line, word)
    if wrong:
        return wrong
    (at_row, row), (at_column, column), *rest = fields(line, word)
    thing, less = ('tile', 1) if word in ('closed', 'd', 'laid') else ('pin', 0)
    for place, number, what, size in ((at_row, row, 'row', array.rows - less), (at_column, column, 'column', array.columns - less)):
        if number >= size:
            return place, f'there is no {what} {number} of {thing}s: {what}s are 0 to {size - 1}'
    last = lines[-1]
    if last[0] in GROUPS and GROUPS.index(last[0]) > GROUPS.index(word):
        return 1, f'{word} stands after {last[0]}: the groups come as {", ".join(GROUPS)}'
    if word == 'laid':
        return laid_reason(row, column, *rest, array.o) or laid_order(at_row, (row, column, rest[0][1]), last)
    if last[0] == word and last[1:3] >= (row, column):
        return at_row, f'{thing} {row} {column} comes after {last[1]} {last[2]}: a group rises by row, then column' if last[1:3] != (row, column) else f'{thing} {row} {column} is named twice'
    if word == 'd':
        return own_reason(*rest, array)
    if word == 'missing' and ('chosen', row, column) in lines:
        return at_row, f'pin {row} {column} is chosen already'
    return None


def own_reason(value_field, array):
    """(column, reason) of a wrong D of a tile that there is."""
    at_value, value = value_field
    if not array.o <= value <= 2 * array.o:
        return at_value, f'the D of a tile may be O to 2×O, here {array.o} to {2 * array.o}, not {value}'
    if value == array.d:
        return at_value, f'a tile whose D is that of the job, here {value}, has no line'
    return None


def laid_reason(row, column, side_field, count_field, o):
    """(column, reason) of a wrong side or count on a tile that there is."""
    (at_side, side), (at_count, count) = side_field, count_field
    if side not in tuple(SIDES):
        return at_side, f'a side is n, e, s or w, not {side}'
    if side == 'n' and row:
        return at_side, f'the side between two tiles is s of the northern one, here s of tile {row - 1} {column}: n stands in the first row alone'
    if side == 'w' and column:
        return at_side, f'the side between two tiles is e of the western one, here e of tile {row} {column - 1}: w stands in the first column alone'
    if not 1 <= count <= o:
        return at_count, f'a count of laid wires may be 1 to O, here 1 to {o}, not {count}'
    return None


def laid_order(at_row, named, last):
    """(column, reason) of a side (row, column, letter) that may not follow the last line."""
    if last[0] != 'laid' or (*last[1:3], SIDES.index(last[3])) < (*named[:2], SIDES.index(named[2])):
        return None
    words = '{2} of tile {0} {1}'.format
    if last[1:4] == named:
        return at_row, f'{words(*named)} is named twice'
    return at_row, f'{words(*named)} comes after {words(*last[1:4])}: the group rises by row, then column, then as n, e, s, w'


def line_reason(line, lines):
    """(column, reason) of a line that may not stand after the right `lines`, each a word and its fields."""
    found = re.match(rb'\(([a-z]+)', line)
    word = found[1].decode() if found else ''
    if not lines:
        return array_reason(line) if word == 'array' else (0, f'a text begins with its array line: {FORMS["array"]}')
    if lines[-1][0] == 'end':
        return 0, 'nothing may follow the line (end)'
    if word == 'array':
        return 0, 'the array line stands once, at the start'
    if word == 'end':
        return spelling(line, 'end')
    if word in GROUPS:
        return group_reason(line, word, Array(*lines[0][1:5]), lines)
    return 0, f'a line here is {", ".join(FORMS[name] for name in (*GROUPS, "end"))}'


def right_line(line):
    """The word and the fields of a right line."""
    word = re.match(rb'\((\w+)', line)[1].decode()
    return word, *(part for _, part in fields(line, word))


def wrong_line(text, offset):
    """The wrong line of a text, by the offset at which the library refuses it."""
    lines = [right_line(line) for line in text[:offset].split(b'\n')[:-1]]
    line, newline, _ = text[offset:].partition(b'\n')
    if not line and not newline and (not lines or lines[-1][0] != 'end'):
        return Wrong(len(lines) + 1, b'', 0, 'the text ends before its line (end)' if lines else 'the text is empty')
    if line.endswith(b'\r'):
        return Wrong(len(lines) + 1, line, len(line) - 1, 'the line ends in a carriage return: lines end in a newline alone')
    column, reason = line_reason(line, lines) or (len(line), 'the line is not ended by a newline')
    return Wrong(len(lines) + 1, line, column, reason)
