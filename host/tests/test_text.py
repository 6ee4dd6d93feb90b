"""The reasons that are given for wrong texts."""
import random
import unittest

from jobtext import wrong_line
from support import random_job
from talusdish import Job, Refused

ARRAY = b'(array (pins 4 5) (caps 2 3 0))\n'
WRONG = [                                                           # text, line, column, a part of the reason
    (b'', 1, 0, 'empty'),
    (b'\n', 1, 0, 'begins with its array line'),
    (b'(chosen 0 0)\n', 1, 0, 'begins with its array line'),
    (b'(array (pins 1 5) (caps 2 3 0))\n', 1, 13, 'rows may be 2 to 40, not 1'),
    (b'(array (pins 4 41) (caps 2 3 0))\n', 1, 15, 'columns may be 2 to 40, not 41'),
    (b'(array (pins 4 5) (caps 9 9 0))\n', 1, 24, 'O may be 1 to 8'),
    (b'(array (pins 4 5) (caps 2 5 0))\n', 1, 26, 'D may be O to 2\u00d7O, here 2 to 4, not 5'),
    (b'(array (pins 4 5) (caps 2 3 17))\n', 1, 28, 'E may be 0 to D, here 0 to 3, not 17'),
    (b'(array (pins 4 5) (caps 2 3 4))\n', 1, 28, 'E may be 0 to D, here 0 to 3, not 4'),
    (b'(array (pins 04 5) (caps 2 3 0))\n', 1, 13, 'leading zeros'),
    (b'(array  (pins 4 5) (caps 2 3 0))\n', 1, 7, 'one space between parts'),
    (b'(array (pins 4 5) (caps 2 3 0))', 1, 31, 'not ended by a newline'),
    (b'(array (pins 4 5) (caps 2 3 0))\r\n', 1, 31, 'carriage return'),
    (ARRAY, 2, 0, 'ends before its line (end)'),
    (ARRAY + b'(end)', 2, 5, 'not ended by a newline'),
    (ARRAY + b'(end)\n(end)\n', 3, 0, 'nothing may follow'),
    (ARRAY + b'(end)\n\n', 3, 0, 'nothing may follow'),
    (ARRAY + b'(end)\nx', 3, 0, 'nothing may follow'),
    (ARRAY + ARRAY, 2, 0, 'stands once'),
    (ARRAY + b'(end )\n', 2, 4, 'the form of this line is (end)'),
    (ARRAY + b'(chosen 4 0)\n', 2, 8, 'no row 4 of pins: rows are 0 to 3'),
    (ARRAY + b'(chosen 0 5)\n', 2, 10, 'no column 5 of pins'),
    (ARRAY + b'(closed 3 0)\n', 2, 8, 'no row 3 of tiles: rows are 0 to 2'),
    (ARRAY + b'(chosen 1 1)\n(chosen 1 1)\n', 3, 8, 'named twice'),
    (ARRAY + b'(chosen 1 1)\n(chosen 1 0)\n', 3, 8, 'rises by row, then column'),
    (ARRAY + b'(closed 0 0)\n(missing 1 0)\n', 3, 1, 'missing stands after closed'),
    (ARRAY + b'(laid 0 0 n 1)\n(closed 0 0)\n', 3, 1, 'closed stands after laid: the groups come as chosen, missing, closed, d, laid'),
    (ARRAY + b'(d 0 0 4)\n(closed 0 0)\n', 3, 1, 'closed stands after d: the groups come as chosen, missing, closed, d, laid'),
    (ARRAY + b'(laid 0 0 n 1)\n(d 0 0 4)\n', 3, 1, 'd stands after laid'),
    (ARRAY + b'(d 3 0 4)\n', 2, 3, 'no row 3 of tiles: rows are 0 to 2'),
    (ARRAY + b'(d 0 0 5)\n', 2, 7, 'the D of a tile may be O to 2×O, here 2 to 4, not 5'),
    (ARRAY + b'(d 0 0 1)\n', 2, 7, 'the D of a tile may be O to 2×O, here 2 to 4, not 1'),
    (ARRAY + b'(d 0 0 3)\n', 2, 7, 'a tile whose D is that of the job, here 3, has no line'),
    (ARRAY + b'(d 0 0)\n', 2, 6, 'the form of this line is (d ROW COLUMN VALUE)'),
    (ARRAY + b'(d 0 0 4)\n(d 0 0 2)\n', 3, 3, 'tile 0 0 is named twice'),
    (ARRAY + b'(d 0 1 4)\n(d 0 0 4)\n', 3, 3, 'rises by row, then column'),
    (ARRAY + b'(laid 3 0 s 1)\n', 2, 6, 'no row 3 of tiles: rows are 0 to 2'),
    (ARRAY + b'(laid 0 4 n 1)\n', 2, 8, 'no column 4 of tiles: columns are 0 to 3'),
    (ARRAY + b'(laid 0 0 x 1)\n', 2, 10, 'a side is n, e, s or w, not x'),
    (ARRAY + b'(laid 0 0 N 1)\n', 2, 10, 'a side is n, e, s or w, not N'),
    (ARRAY + b'(laid 0 0 0 1)\n', 2, 10, 'a side is n, e, s or w, not 0'),
    (ARRAY + b'(laid 0 0 ne 1)\n', 2, 10, 'a side is n, e, s or w, not ne'),
    (ARRAY + b'(laid 1 2 n 1)\n', 2, 10, 'here s of tile 0 2: n stands in the first row alone'),
    (ARRAY + b'(laid 1 2 w 1)\n', 2, 10, 'here e of tile 1 1: w stands in the first column alone'),
    (ARRAY + b'(laid 0 0 n 0)\n', 2, 12, 'may be 1 to O, here 1 to 2, not 0'),
    (ARRAY + b'(laid 0 0 n 3)\n', 2, 12, 'may be 1 to O, here 1 to 2, not 3'),
    (ARRAY + b'(laid 0 0 n 01)\n', 2, 12, 'leading zeros'),
    (ARRAY + b'(laid 0 0 n)\n', 2, 11, 'the form of this line is (laid ROW COLUMN SIDE COUNT)'),
    (ARRAY + b'(laid 0 0)\n', 2, 9, 'the form of this line is (laid ROW COLUMN SIDE COUNT)'),
    (ARRAY + b'(laid 0 0 \xff 1)\n', 2, 10, 'the form of this line'),
    (ARRAY + b'(laid 0 0 n 1)\n(laid 0 0 n 2)\n', 3, 6, 'n of tile 0 0 is named twice'),
    (ARRAY + b'(laid 0 0 w 1)\n(laid 0 0 s 1)\n', 3, 6, 's of tile 0 0 comes after w of tile 0 0: the group rises by row, then column, then as n, e, s, w'),
    (ARRAY + b'(laid 1 0 e 1)\n(laid 0 3 e 1)\n', 3, 6, 'e of tile 0 3 comes after e of tile 1 0'),
    (ARRAY + b'(chosen 1 1)\n(missing 1 1)\n', 3, 9, 'chosen already'),
    (ARRAY + b'(picked 1 1)\n', 2, 0, 'a line here is'),
    (ARRAY + b'(chosen 1)\n', 2, 9, 'the form of this line is (chosen ROW COLUMN)'),
    (ARRAY + b'(chosen 1 1) \n', 2, 12, 'the form of this line'),
    (ARRAY + b'(chosen 1 \xff)\n', 2, 10, 'the form of this line'),
    (ARRAY + b'(chosen 99999999999999999999999 1)\n', 2, 8, 'no row 99999999999999999999999'),
    (ARRAY + b'(chosen 1 ' + b'9' * 5000 + b')\n', 2, 10, 'a number of 5000 digits is too large'),
]


def refused_line(text):
    """The wrong line of a text that the library refuses."""
    try:
        Job.of_text(text)
    except Refused as refused:
        return wrong_line(text, refused.value)


class Reasons(unittest.TestCase):
    def test_every_kind_of_wrong_line(self):
        for text, line, column, reason in WRONG:
            with self.subTest(text):
                wrong = refused_line(text)
                self.assertEqual((wrong.line, wrong.column), (line, column), wrong)
                self.assertIn(reason, wrong.reason)

    def test_any_change_of_a_text_has_a_line_and_a_reason(self):
        draw, refused = random.Random(25), 0
        for seed in range(40):
            text = random_job(seed, 5).write_text()
            for _ in range(100):
                other = self.changed(draw, text)
                wrong = refused_line(other)
                if wrong:
                    refused += 1
                    self.assertLessEqual(wrong.column, len(wrong.content))
                    is_last = other.count(b'\n') < wrong.line
                    self.assertTrue(wrong.reason and (is_last or 'not ended by a newline' not in wrong.reason), other)
        self.assertGreater(refused, 3000)

    def changed(self, draw, text):
        """A text with one byte, one line or its end changed."""
        at, lines = draw.randrange(len(text)), text.split(b'\n')
        line = draw.randrange(len(lines))
        return draw.choice((
            text[:at] + bytes([draw.randrange(256)]) + text[at + 1:], text[:at] + text[at + 1:], text[:at] + draw.choice((b' ', b'0', b'9', b'\r', b'(')) + text[at:],
            text[:at], b'\n'.join(lines[:line] + lines[line + 1:]), b'\n'.join(lines[:line] + lines[line - 1:]), text + draw.choice((b'\n', b'(end)\n', b'\0'))))

    def test_a_line_that_lacks_only_its_newline_is_said_to(self):
        self.assertEqual(refused_line(b'(array (pins 2 2) (caps 1 2 0))\n(chosen 0 0)').reason, 'the line is not ended by a newline')
