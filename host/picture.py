"""An SVG picture of a job: its wires, and where it is short its bottleneck."""
import math
from html import escape

from crossings import crossings, drawn
from geometry import CORNER, OUTWARD, PAD
from layout import bends, exit_side, radii
from talusdish import CHOSEN, IDLE, MISSING, ball_name, row_name

SHADES = {'N': ('#1d4ed8', '#0369a1', '#4f46e5'), 'E': ('#15803d', '#4d7c0f', '#0f766e'),
          'S': ('#c2410c', '#92560a', '#9a3412'), 'W': ('#7e22ce', '#a21caf', '#6b5b95')}
PAPER, BOARD, EDGING, INK, FAINT = '#ffffff', '#f6f4ee', '#d6d1c0', '#33312b', '#6b675a'
GREY, LINE, ALARM, SHADE = '#d9d4c5', '#a8a291', '#b91c1c', '#f5b74a'
HEAD, FOOT, NARROWEST = 52, 30, 660                                 # in pixels: above and below the array, and the least width
LONGEST = 40                                                        # letters of a name above a picture
MIDDLE = '.35em'                                                    # from the middle of a letter down to the line that it stands on
FLAT = .04                                                          # a bend that is off the straight line by fewer pixels is drawn without a curve


def pixels_of(job):
    """Pixels to a pin pitch."""
    size = max(job.rows, job.columns)
    return 110 if size <= 4 else 72 if size <= 10 else 52 if size <= 20 else 44


def number(value):
    """A number as short as two decimals allow."""
    return f'{value:.2f}'.rstrip('0').rstrip('.')


def element(name, content='', **attributes):
    """An SVG element; an underscore in an attribute's name stands for a hyphen."""
    words = ''.join(f' {key.rstrip("_").replace("_", "-")}="{number(value) if isinstance(value, float) else value}"' for key, value in attributes.items())
    return f'<{name}{words}>{content}</{name}>' if content else f'<{name}{words}/>'


def is_flat(a, x, b):
    """Whether a bend hardly leaves the straight line from a to b."""
    length = math.dist(a, b)
    return length > 0 and abs((b[0] - a[0]) * (x[1] - a[1]) - (b[1] - a[1]) * (x[0] - a[0])) / length < FLAT


def count(n, thing):
    """A number of things in words."""
    return f'{n:,} {thing}' + ('' if n == 1 else 's')


def line_name(row, column, side=None):
    """A wire by its pin, or the wires already laid on a side of a tile."""
    return f'what is laid on {side} of tile {row} {column}' if side else f'the wire of {ball_name(row, column)}'


def length_of(word):
    """How long the entry of a word in the legend is, in pixels."""
    return 34 + round(6.7 * len(word))


class Picture:
    """The picture of a layout, with a bottleneck where there is one, under a name."""

    def __init__(self, name, layout, bottleneck=None, progress=lambda done, of: None):
        self.name, self.layout, self.job, self.bottleneck = name, layout, layout.job, bottleneck
        self.scale = pixels_of(self.job)
        self.margin = max(.8, 40 / self.scale)
        self.colours = self._colours()
        self.laid = {side: layout.geometry.laid(*side) for side in self.job.laid_sides()}
        self.width = max(NARROWEST, sum(length_of(word) for _, word in self._entries()), self._along(self.job.columns - 1 + self.margin))
        self.left = (self.width - self._along(self.job.columns - 1 + self.margin)) / 2
        self.height = HEAD + self._along(self.job.rows - 1 + self.margin) + FOOT
        rounding = radii(layout.lines | {side: [dashes[0][0], dashes[-1][1]] for side, dashes in self.laid.items()}, progress)
        self.curves = {pin: self._curves(points, rounding[pin]) for pin, points in layout.lines.items()}

    def _along(self, pitches):
        return (pitches + self.margin) * self.scale

    def at(self, x, y):
        """A point of the geometry in pixels."""
        return round(self.left + self._along(x), 2), round(HEAD + self._along(y), 2)

    def _colours(self):
        """{pin: colour} by the rim where its wire leaves, three shades in turn along it."""
        rims = {side: [] for side in OUTWARD}
        for pin, parts in self.layout.wires.items():
            rims[exit_side(self.job, pin, parts)].append((self.layout.lines[pin][-1], pin))
        return {pin: SHADES[side][i % 3] for side, row in rims.items() for i, (_, pin) in enumerate(sorted(row))}

    def _curves(self, points, radii):
        """A wire as drawn, in pixels: its start, its bends, its end. A bend is a curve (from, bend, to), or a point where it is flat."""
        curves = [tuple(self.at(*point) for point in bend) for bend in bends(points, radii)]
        return self.at(*points[0]), [curve[1:2] if is_flat(*curve) else curve for curve in curves], self.at(*points[-1])

    def faults(self, progress=lambda done, of: None):
        """What is wrong with the picture, as reasons: wires that meet as drawn, each other or laid ones, and a bottleneck that is none."""
        lines = {pin: drawn(*curves) for pin, curves in self.curves.items()}
        lines |= {side: [self.at(*dashes[0][0]), self.at(*dashes[-1][1])] for side, dashes in self.laid.items()}
        for one, other in crossings(lines, self.scale / 4, progress):
            yield f'{line_name(*one)} and {line_name(*other)} meet as drawn'
        if self.bottleneck:
            yield from self.bottleneck.faults()

    # Words

    def size(self):
        return f'{self.job.rows} × {self.job.columns} balls · O {self.job.o} · D {self.job.d} · E {self.job.e}'

    def verdict(self):
        """What came of the job, in words."""
        chosen, wires = len(self.job.pins(CHOSEN)), len(self.layout.wires)
        if not chosen:
            return 'no ball is chosen'
        if not self.bottleneck:
            return f'all wired: {count(wires, "wire")}'
        return f'{wires:,} of {chosen:,} wired, short {chosen - wires:,}: {self.caption()}'

    def caption(self):
        """The bottleneck in words."""
        return f'{count(len(self.bottleneck.pins), "ball")} in the shaded part, {count(self.bottleneck.ways, "way")} out of it'

    # Parts of the picture, from the bottom up

    def svg(self):
        """The picture as SVG."""
        parts = [f'<title>{escape(self.name)}: {self.size()}; {self.verdict()}</title>', self._hatching(),
                 element('rect', width=self.width, height=self.height, fill=PAPER), self._head(), self._axes(), self._board()]
        if self.bottleneck:
            parts.append(self._shade())
        parts.append(self._missing())
        if self.laid:
            parts.append(self._laid())
        parts += [self._wires(), self._pads()]
        if self.bottleneck:
            parts.append(self._cuts())
        parts.append(self._legend())
        box = f'0 0 {number(self.width)} {number(self.height)}'
        return element('svg', '\n' + '\n'.join(parts) + '\n', xmlns='http://www.w3.org/2000/svg', viewBox=box, width=self.width, height=self.height,
                       role='img', font_family='DejaVu Sans, Verdana, sans-serif') + '\n'

    def _hatching(self):
        pattern = element('rect', width=6, height=6, fill='#e9e5d9') + element('path', d='M0 0V6', stroke=LINE)
        return element('defs', element('pattern', pattern, id='talus-closed', width=6, height=6, patternTransform='rotate(45)', patternUnits='userSpaceOnUse'))

    def _head(self):
        short = self.name if len(self.name) <= LONGEST else f'{self.name[:LONGEST - 1]}…'
        name = element('tspan', escape(short), font_weight='bold') + element('tspan', self.size(), dx=12)
        colour = ALARM if self.bottleneck else INK
        return (element('text', name, x=14, y=21, font_size=14, fill=INK)
                + element('text', self.verdict(), x=14, y=41, font_size=13, fill=colour))

    def _axes(self):
        """Row letters and column numbers on all four sides."""
        names, ends = [], self.margin - 9 / self.scale
        for c in range(self.job.columns):
            names += [(c, -ends, c + 1), (c, self.job.rows - 1 + ends, c + 1)]
        for r in range(self.job.rows):
            names += [(-ends, r, row_name(r)), (self.job.columns - 1 + ends, r, row_name(r))]
        texts = []
        for x, y, name in names:
            x, y = self.at(x, y)
            texts.append(element('text', name, x=x, y=y, dy=MIDDLE))
        return element('g', ''.join(texts), fill=FAINT, font_size=11, text_anchor='middle')

    def _board(self):
        """The array's ground and its closed tiles."""
        x, y = self.at(-.36, -.36)
        board = element('rect', x=x, y=y, width=(self.job.columns - .28) * self.scale, height=(self.job.rows - .28) * self.scale, rx=.3 * self.scale, fill=BOARD, stroke=EDGING)
        closed = []
        for r, c in self.job.tiles(False):
            x, y = self.at(c + .06, r + .06)
            closed.append(element('rect', element('title', f'closed: tile {r} {c}'), x=x, y=y, width=.88 * self.scale, height=.88 * self.scale, rx=3))
        return board + element('g', ''.join(closed), fill='url(#talus-closed)', stroke=LINE, stroke_width=.6)

    def _polygon(self, place, **attributes):
        points = ' '.join(','.join(map(number, self.at(*point))) for point in self.layout.geometry.cell(place))
        return element('polygon', points=points, **attributes)

    def _shade(self):
        """The near side, as one group so that no seams show; what is near by its entry alone is lighter."""
        near, job, cells = self.bottleneck.near, self.job, []
        for r, c in job.tiles(True):
            cells += [self._polygon((r, c, side)) for side in 'nesw' if near.has(r, c, side)]
            if near.has(r, c, 'ci') and job.centre_limit(r, c):
                cells.append(self._polygon((r, c, 'c'), fill_opacity=1 if near.has(r, c, 'co') else .4))
        for r, c in job.pins(MISSING):
            if near.has(r, c, 'entry'):
                cells.append(self._polygon((r, c, 'r'), fill_opacity=1 if near.has(r, c, 'exit') else .4))
        for r, c in self.bottleneck.pins:
            x, y = self.at(c, r)
            cells.append(element('circle', cx=x, cy=y, r=.96 * CORNER * self.scale))
        return element('g', ''.join(cells), fill=SHADE, stroke=SHADE, stroke_width=.8, opacity=.45)

    def _missing(self):
        cells = [self._polygon((*pin, 'r')) for pin in self.job.pins(MISSING)]
        return element('g', ''.join(cells), fill='none', stroke=LINE, stroke_dasharray='3 2')

    def _laid(self):
        """A dash along a side for each wire already laid across it."""
        paths = []
        for (row, column, side), dashes in self.laid.items():
            path = ''.join(f'M{self._pair(self.at(*p))}L{self._pair(self.at(*q))}' for p, q in dashes)
            paths.append(element('path', element('title', f'{count(len(dashes), "wire")} laid on {side} of tile {row} {column}'), d=path))
        return element('g', ''.join(paths), stroke=FAINT, stroke_width=.06 * self.scale)

    def _wires(self):
        paths = []
        for pin, (start, bends, end) in self.curves.items():
            words = [f'L{self._pair(bend[0])}' + (f'Q{self._pair(bend[1])} {self._pair(bend[2])}' if len(bend) == 3 else '') for bend in bends]
            path = f'M{self._pair(start)}{"".join(words)}L{self._pair(end)}'
            paths.append(element('path', element('title', f'{ball_name(*pin)} (pin {pin[0]} {pin[1]})'), d=path, stroke=self.colours[pin]))
        stroke = min(.055, self.layout.geometry.pitch / 2) * self.scale
        return element('g', '\n'.join(paths), fill='none', stroke_width=stroke, stroke_linejoin='round', stroke_linecap='round', opacity=.55 if self.bottleneck else 1)

    @staticmethod
    def _pair(point):
        return f'{number(point[0])} {number(point[1])}'

    def _pads(self):
        pads = []
        for r in range(self.job.rows):
            for c in range(self.job.columns):
                if self.job.mark_of(r, c) != MISSING:
                    pads.append(self._pad(r, c))
        return element('g', ''.join(pads), stroke_width=1)

    def _pad(self, row, column):
        """A wired ball in its wire's colour, an unwired chosen one as a red ring, an idle one in grey."""
        is_idle, colour = self.job.mark_of(row, column) == IDLE, self.colours.get((row, column))
        state = 'idle' if is_idle else 'wired' if colour else 'not wired'
        style = {'idle': {'fill': GREY, 'stroke': LINE}, 'wired': {'fill': colour, 'stroke': PAPER},
                 'not wired': {'fill': PAPER, 'stroke': ALARM, 'stroke_width': max(1.6, .055 * self.scale)}}[state]
        x, y = self.at(column, row)
        return element('circle', element('title', f'{ball_name(row, column)} (pin {row} {column}): {state}'), cx=x, cy=y, r=PAD * self.scale, **style)

    def _cuts(self):
        """Every cut in thick red, then its load and limit."""
        size = max(7, .16 * self.scale)
        marks, labels = zip(*(self._cut(cut) for cut in self.bottleneck.cuts)) if self.bottleneck.cuts else ((), ())
        return (element('g', ''.join(marks), fill='none', stroke=ALARM, stroke_width=.06 * self.scale, stroke_linecap='round')
                + element('g', ''.join(labels), fill='#7f1d1d', font_size=size, font_weight='bold', text_anchor='middle',
                          paint_order='stroke', stroke=PAPER, stroke_width=.3 * size, stroke_linejoin='round'))

    def _cut(self, cut):
        """The mark and the label of a cut: its gate, or a ring round a place that passes no more."""
        geometry, said = self.layout.geometry, f'{cut.load}/{cut.limit}'
        title = element('title', f'{cut.what}: {cut.load} of {cut.limit}')
        if cut.ahead is None:
            x, y = geometry.middle(cut.near)
            radius = .9 * CORNER if cut.near[2] == 'r' else max(.1, 1.1 * geometry.half(*cut.near[:2]))
            cx, cy = self.at(x, y)
            mark = element('circle', title, cx=cx, cy=cy, r=radius * self.scale)
        else:
            (px, py), (qx, qy) = geometry.gate(cut.near, cut.ahead)
            mark = element('path', title, d=f'M{self._pair(self.at(px, py))}L{self._pair(self.at(qx, qy))}')
            dx, dy = OUTWARD.get(cut.ahead[2], (0, 0))
            x, y = (px + qx) / 2 + .2 * dx, (py + qy) / 2 + .2 * dy
        x, y = self.at(x, y)
        return mark, element('text', said, x=x, y=y, dy=MIDDLE)

    def _entries(self):
        """The marks of this picture, each with its words."""
        job, chosen = self.job, self.job.pins(CHOSEN)
        entries = []
        if self.colours:
            entries.append((element('circle', r=6, cx=6, fill=next(iter(self.colours.values()))), 'wired'))
        if len(self.colours) < len(chosen):
            entries.append((element('circle', r=5, cx=6, fill=PAPER, stroke=ALARM, stroke_width=2), 'not wired'))
        if job.pins(IDLE):
            entries.append((element('circle', r=6, cx=6, fill=GREY, stroke=LINE), 'idle'))
        if job.pins(MISSING):
            entries.append((element('circle', r=6, cx=6, fill='none', stroke=LINE, stroke_dasharray='3 2'), 'missing'))
        if job.tiles(False):
            entries.append((element('rect', y=-6, width=12, height=12, rx=2, fill='url(#talus-closed)', stroke=LINE), 'closed tile'))
        if self.laid:
            entries.append((element('path', d='M0 0H5M8 0H13', stroke=FAINT, stroke_width=4), 'laid wires'))
        if self.bottleneck:
            entries.append((element('rect', y=-6, width=12, height=12, fill=SHADE, opacity=.45), 'shaded part'))
            entries.append((element('path', d='M0 0H12', stroke=ALARM, stroke_width=3, stroke_linecap='round'), 'way out, load/limit'))
        return entries

    def _legend(self):
        """The entries on one line."""
        x, placed = 14, []
        for mark, word in self._entries():
            text = element('text', word, x=18, dy=MIDDLE, font_size=11, fill=FAINT)
            placed.append(element('g', mark + text, transform=f'translate({x} {number(self.height - FOOT / 2)})'))
            x += length_of(word)
        return ''.join(placed)
