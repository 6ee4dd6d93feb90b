"""The parts of `talus`. Each part is a function that takes its arguments and gives the exit status, and a function that describes it."""
import argparse
import os
import stat
import tempfile
import time
from pathlib import Path

import imports
import jobtext
from bottleneck import Bottleneck
from layout import Layout
from picture import Picture, count
from talusdish import CHOSEN, MISSING, SHORT, Failed, Job, Refused, rules

WIRED, STOPPED_SHORT, REFUSED, FAILED = 0, 1, 2, 3
LARGEST_TEXT, LARGEST_IMPORT = 1 << 20, 1 << 22                     # what is read of a job text, far above the longest; and of an import
WIDEST = 100                                                        # characters of a wrong line that are shown
STATUS = 'Exit status: 0 {}, 2 refused (a wrong text, file or number), 3 failed.'
TRIAL = {                                                           # the numbers of a trial, in their order
    'rows': 'rows of pins, 2 to 40',
    'columns': 'columns of pins, 2 to 40',
    'o': 'wires that fit between two pads, 1 to 8',
    'd': 'wires that fit across the diagonal of a tile, O to 2×O',
    'e': 'wires that a missing ball lets through, 0 to D',
    'seed': 'the starting number, 1 to 4294967295',
    'chosen': 'percentage of chosen pins',
    'missing': 'percentage of missing pins; both together at most 100',
    'closed': 'percentage of closed tiles, at most 100',
}


class Stop(Exception):
    """The end of a part, with its exit status and what is to be said."""

    def __init__(self, status, message):
        super().__init__(message)
        self.status = status


# Files and messages

def say(message):
    """A line on standard error; where there is none, nothing."""
    try:
        os.write(2, f'{message}\n'.encode('utf-8', 'surrogateescape'))
    except OSError:
        pass


class Progress:
    """Says how far something is, once it takes over a second."""

    def __init__(self, what):
        self.what, self.next = what, time.monotonic() + 1

    def __call__(self, done, of):
        if time.monotonic() > self.next:
            say(f'talus: {self.what}, {100 * done // of} %')
            self.next = time.monotonic() + 2


def read_file(name, limit):
    """The first `limit` bytes of a file, or of standard input by the name -."""
    try:
        with open(0 if name == '-' else name, 'rb', closefd=name != '-') as file:
            return file.read(limit)
    except (OSError, ValueError) as reason:
        raise Stop(FAILED, f'{name}: {getattr(reason, "strerror", None) or reason}') from None


def write_all(descriptor, content):
    """Writes every byte, or fails."""
    while content:
        content = content[os.write(descriptor, content):]


def replace_file(name, content):
    """Writes a file whole or leaves it as it was; a device is written as it is."""
    if os.path.exists(name) and not stat.S_ISREG(os.stat(name).st_mode):
        with open(name, 'wb', buffering=0) as file:
            return write_all(file.fileno(), content)
    descriptor, made = tempfile.mkstemp(dir=os.path.dirname(os.path.realpath(name)), prefix='.talus-')
    try:
        write_all(descriptor, content)
        umask = os.umask(0)
        os.umask(umask)
        os.fchmod(descriptor, 0o666 & ~umask)
        os.replace(made, os.path.realpath(name))
    except BaseException:
        os.unlink(made)
        raise
    finally:
        os.close(descriptor)


def write_out(content, name=None):
    """Writes to a file, or to standard output without a name or by the name -."""
    try:
        if name in (None, '-'):
            write_all(1, content)
        else:
            replace_file(name, content)
    except (OSError, ValueError) as reason:
        where = 'standard output' if name in (None, '-') else name
        raise Stop(FAILED, f'{where}: {getattr(reason, "strerror", None) or reason}') from None


# Wrong texts

def shown(content):
    """Bytes as a person can read them: what cannot be printed is escaped."""
    text = content.decode('utf-8', 'backslashreplace')
    return ''.join(letter if letter.isprintable() else repr(letter)[1:-1] for letter in text)


def pointed(content, column):
    """A line, cut to what fits, with a caret under a column."""
    start = max(0, column - WIDEST // 2)
    before, after = shown(content[start:column]), shown(content[column:start + WIDEST])
    return f'    {before}{after}\n    {" " * len(before)}^'


def wrong_text(name, text, offset):
    """The end of a part at a wrong text."""
    wrong = jobtext.wrong_line(text, offset)
    line = '\n' + pointed(wrong.content, wrong.column) if wrong.content else ''
    return Stop(REFUSED, f'{name}:{wrong.line}: {wrong.reason}{line}')


def read_job(name):
    """The job of a file."""
    text = read_file(name, LARGEST_TEXT)
    try:
        return Job.of_text(text)
    except Refused as refused:
        raise wrong_text(name, text, refused.value) from None


# Parts

def near_listing(job, short, near):
    """The listing of a short job: the shortfall and the near side, as `escape` prints them."""
    lines = [f'(short {short})']
    lines += [f'(near pin {r} {c})' for r, c in job.pins(CHOSEN) if near.has(r, c, 'pin')]
    lines += [f'(near {word} {r} {c})' for r, c in job.pins(MISSING) for word, kind in (('ri', 'entry'), ('ro', 'exit')) if near.has(r, c, kind)]
    lines += [f'(near {r} {c} {kind})' for r, c in job.tiles(True) for kind in ('n', 'e', 's', 'w', 'ci', 'co') if near.has(r, c, kind)]
    return '\n'.join(lines) + '\n'


def route(arguments):
    """Prints the listing of a job."""
    job = read_job(arguments.job)
    is_short = job.route() == SHORT
    listing = near_listing(job, *job.shortfall()) if is_short and not arguments.wires else job.listing()
    write_out(listing.encode())
    if is_short:
        say(f'{arguments.job}: short {job.shortfall()[0]}; `talus draw` shows the bottleneck')
    return STOPPED_SHORT if is_short else WIRED


def check(arguments):
    """Tells whether a text is right."""
    read_job(arguments.job)
    return WIRED


def draw(arguments):
    """Draws a job: its wires, and where it is short its bottleneck."""
    job = read_job(arguments.job)
    is_short = job.route() == SHORT
    layout = Layout(job, job.wires(), Progress('laying out wires'))
    bottleneck = Bottleneck(layout, job.shortfall()[1]) if is_short else None
    name = 'job' if arguments.job == '-' else shown(os.fsencode(Path(arguments.job).stem))
    picture = Picture(name, layout, bottleneck, Progress('rounding bends'))
    if arguments.check:
        check_picture(arguments.job, picture)
    write_out(picture.svg().encode('utf-8', 'replace'), arguments.output)
    return STOPPED_SHORT if is_short else WIRED


def check_picture(name, picture):
    """Says that nothing is wrong with a picture, or what is."""
    faults = list(picture.faults(Progress('checking the picture')))
    if faults:
        raise Stop(FAILED, '\n'.join(f'{name}: {fault}' for fault in faults))
    cut = f'; {count(len(picture.bottleneck.cuts), "cut")}, all full, with the greatest number as their sum' if picture.bottleneck else ''
    laid = ', and none meets a laid one' if picture.laid else ''
    say(f'{name}: checked, no two of {count(len(picture.curves), "wire")} meet as drawn{laid}{cut}')


def import_file(arguments):
    """Makes a job of a footprint or a CSV of balls."""
    name = arguments.file
    text = import_text(name)
    is_csv = name.endswith('.csv') or not (name.endswith('.kicad_mod') or text.lstrip().startswith('('))
    marks, pitch, pad = (csv_balls if is_csv else footprint_balls)(arguments, text)
    try:
        job = imports.job_of(marks, capacities_of(arguments, pitch, pad))
    except Refused as refused:
        raise Stop(REFUSED, f'{name}: {refused}') from None
    write_out(job.write_text(), arguments.output)
    missing = len(job.pins(MISSING))
    if missing and job.e == 0 and not arguments.caps:
        say(f'{name}: {count(missing, "missing ball")} let no wire through, as E is 0; --extra gives another E')
    return WIRED


def csv_balls(arguments, text):
    """The marks of a CSV's balls, and the pitch and the pad that the arguments give."""
    if arguments.outer is not None or arguments.balls:
        raise Stop(FAILED, f'{arguments.file}: --outer and --balls go with a footprint; a CSV has the state of each ball')
    return unfit_in(arguments.file, imports.csv_marks, text, arguments.unlisted), arguments.pitch, arguments.pad


def footprint_balls(arguments, text):
    """The marks of a footprint's balls, as a CSV says or the outer rings chosen or all, and its pitch and pad unless the arguments give others."""
    footprint = unfit_in(arguments.file, imports.footprint_of, text)
    rings = imports.LARGEST if arguments.outer is None else arguments.outer
    marks = unfit_in(arguments.file, imports.outer_marks, footprint.balls, rings)
    if arguments.balls:
        marks = unfit_in(arguments.balls, imports.named_marks, footprint.balls, import_text(arguments.balls))
    pitch = footprint.pitch if arguments.pitch is None else arguments.pitch
    return marks, pitch, footprint.pad if arguments.pad is None else arguments.pad


def import_text(name):
    """The text of a file to import."""
    content = read_file(name, LARGEST_IMPORT + 1)
    if len(content) > LARGEST_IMPORT:
        raise Stop(REFUSED, f'{name}: larger than {LARGEST_IMPORT >> 20} MiB')
    try:
        return content.decode('utf-8-sig')
    except UnicodeDecodeError as fault:
        raise Stop(REFUSED, f'{name}:{content[:fault.start].count(10) + 1}: a byte that is not UTF-8') from None


def unfit_in(name, function, *arguments):
    """What a function gives; a file that it finds unfit ends the part."""
    try:
        return function(*arguments)
    except imports.Unfit as unfit:
        place = f'{name}:{unfit.line}' if unfit.line else name
        raise Stop(REFUSED, f'{place}: {unfit}') from None


def capacities_of(arguments, pitch, pad):
    """O, D and E: as given, or by the design rules."""
    if arguments.caps:
        if arguments.width is not None or arguments.spacing is not None:
            raise Stop(FAILED, f'{arguments.file}: --caps are the capacities themselves; --width and --spacing do not go with them')
        return arguments.caps
    if arguments.width is None or arguments.spacing is None:
        raise Stop(FAILED, f'{arguments.file}: capacities are needed: --width and --spacing in micrometres, or --caps O D E')
    if pitch is None or pad is None:
        raise Stop(FAILED, f'{arguments.file}: a CSV has no measures: give --pitch and --pad in micrometres, or --caps O D E')
    given = rules(pitch, pad, arguments.width, arguments.spacing)
    return given.o, given.diagonal, arguments.extra


def trial(arguments):
    """Makes the job of a load trial."""
    job = Job()
    try:
        job.trial(*(getattr(arguments, name) for name in TRIAL))
    except Refused as refused:
        raise Stop(REFUSED, f'talus trial: {refused}') from None
    write_out(job.write_text(), arguments.output)
    return WIRED


# Arguments

class Parser(argparse.ArgumentParser):
    """Arguments whose errors are status 3, as every failure that is no refusal."""

    def error(self, message):
        raise Stop(FAILED, f'{self.format_usage()}{self.prog}: {message}')

    def _print_message(self, message, file=None):
        write_out(message.encode())


def whole(digits):
    """A whole number that the library can be given."""
    if not (digits.isascii() and digits.isdigit() and int(digits[:20]) < 1 << 64 and len(digits) <= 20):
        raise argparse.ArgumentTypeError(f'{digits!r} is no whole number')
    return int(digits)


def part_of(parts, name, run, says, more, zero='wired, 1 short'):
    """One part of the command, with its help; `zero` is what status 0 means."""
    parser = parts.add_parser(name, help=says, description=f'{says[0].upper()}{says[1:]}.', epilog=f'{more}\n\n{STATUS.format(zero)}',
                              formatter_class=argparse.RawDescriptionHelpFormatter)
    parser.set_defaults(run=run)
    return parser


def describe_route(parts):
    part = part_of(parts, 'route', route, 'print the wires of a job, or its shortfall and near side where it is short',
                   'Example: host/talus route examples/four_pins.job')
    part.add_argument('job', metavar='JOB', help='a job text; - for standard input')
    part.add_argument('--wires', action='store_true', help='print the wires that fit also where the job is short')


def describe_check(parts):
    part = part_of(parts, 'check', check, 'tell whether a job text is right, and where and why it is not',
                   'Nothing is printed for a right text. A wrong one is FILE:LINE: reason, with the line.\n\nExample: host/talus check examples/refused.job', zero='right')
    part.add_argument('job', metavar='JOB', help='a job text; - for standard input')


def describe_draw(parts):
    part = part_of(parts, 'draw', draw, 'draw the wires of a job as SVG, and its bottleneck where it is short',
                   'Of a bottleneck every way out has its load/limit.\n\nExample: host/talus draw examples/table2_1.job -o table2_1.svg')
    part.add_argument('job', metavar='JOB', help='a job text; - for standard input')
    part.add_argument('-o', '--output', metavar='SVG', help='the picture; standard output if not given')
    part.add_argument('--check', action='store_true', help='check that no two wires meet as drawn and that the bottleneck is full, before drawing')


def describe_import(parts):
    part = part_of(parts, 'import', import_file, 'make a job text of a KiCad footprint or a CSV of ball names',
                   'A CSV has a ball name and its state to a row: A1,chosen or B2,missing or C3,idle.\n'
                   'Measures are whole micrometres; pitch and pad are taken from a footprint unless given.\n'
                   'O and D follow from them by the library; E, the wires that a missing ball lets through, is your choice.\n\n'
                   'Examples: host/talus import U1.kicad_mod --width 100 --spacing 75 --outer 3 -o u1.job\n'
                   '          host/talus import balls.csv --caps 1 2 0 -o balls.job', zero='made')
    part.add_argument('file', metavar='FILE', help='a .kicad_mod footprint or a .csv file; - for standard input')
    part.add_argument('-o', '--output', metavar='JOB', help='the job text; standard output if not given')
    measures = part.add_argument_group('capacities')
    measures.add_argument('--width', type=whole, metavar='W', help='width of a wire')
    measures.add_argument('--spacing', type=whole, metavar='S', help='spacing between wires')
    measures.add_argument('--pitch', type=whole, metavar='P', help='pitch of the balls')
    measures.add_argument('--pad', type=whole, metavar='D', help='diameter of a pad')
    measures.add_argument('--extra', type=whole, default=0, metavar='E', help='wires that a missing ball lets through, 0 to D (0)')
    measures.add_argument('--caps', type=whole, nargs=3, metavar=('O', 'D', 'E'), help='the capacities themselves')
    balls = part.add_argument_group('balls')
    which = balls.add_mutually_exclusive_group()
    which.add_argument('--balls', metavar='CSV', help="of a footprint: the states of its balls; a name alone is chosen, and a ball that is not named idle")
    which.add_argument('--outer', type=whole, metavar='N', help='of a footprint: only the N outer rings of balls are chosen')
    balls.add_argument('--unlisted', choices=('idle', 'missing'), default='idle', help='of a CSV: what a ball is that no row names (idle)')


def describe_trial(parts):
    part = part_of(parts, 'trial', trial, 'make the job text of a load trial',
                   'Pins and tiles are drawn by a generator: the same numbers give the same job on every machine.\n\n'
                   'Examples: host/talus trial 20 20 2 3 1 1 30 5 10 | host/talus route -\n'
                   '          host/talus trial 12 12 1 2 0 7 40 10 5 -o trial.job', zero='made')
    for name, says in TRIAL.items():
        part.add_argument(name, type=whole, metavar=name.upper(), help=says)
    part.add_argument('-o', '--output', metavar='JOB', help='the job text; standard output if not given')


def parser():
    """The arguments of the command."""
    top = Parser(prog='talus', description='Escape routing of a ball grid, by a library that is proved.', epilog=f'`talus PART --help` has an example.\n\n{STATUS.format("wired, 1 short")}',
                 formatter_class=argparse.RawDescriptionHelpFormatter)
    parts = top.add_subparsers(metavar='PART', required=True)
    for describe in (describe_route, describe_check, describe_draw, describe_import, describe_trial):
        describe(parts)
    return top


def main(words):
    """Runs a part; gives the exit status."""
    try:
        arguments = parser().parse_args(words)
        return arguments.run(arguments)
    except Stop as stop:
        say(stop)
        return stop.status
    except Failed as reason:
        say(f'talus: {reason}')
        return FAILED
