"""The command: every exit status, and failures that end in a message and nothing else."""
import os
import re
import resource
import signal
import subprocess
import tempfile
import time
import unittest
import xml.etree.ElementTree as xml
from pathlib import Path
from unittest import mock

import command
from support import ROOT, TALUS, example, talus

NUMBER = re.compile(r'[0-9]+(?:[.][0-9]+)?')
WRONG = b'(array (pins 2 2) (caps 1 2 0))\n(closed 0 0)\n(chosen 0 0)\n(end)\n'


class Folder(unittest.TestCase):
    def setUp(self):
        folder = tempfile.TemporaryDirectory()
        self.addCleanup(folder.cleanup)
        self.folder = Path(folder.name)

    def file(self, name, content=b''):
        path = self.folder / name
        path.write_bytes(content)
        return str(path)

    def says(self, run, status, message):
        """A run ended with a status and a message, and without a traceback."""
        self.assertEqual(run.returncode, status, run.stderr)
        self.assertIn(message, run.stderr)
        self.assertNotIn('Traceback', run.stderr)
        self.assertNotIn('a fault of talus', run.stderr)


class Status(Folder):
    def test_wired(self):
        for part in ('route', 'check', 'draw'):
            run = talus(part, example('four_pins'))
            self.assertEqual((run.returncode, run.stderr), (0, ''))
        self.assertEqual(talus('check', example('four_pins')).stdout, '')

    def test_the_four_pin_listing(self):
        wires = ''.join(f'(wire (pin {row} {column}) (out p 0))\n' for row in (0, 1) for column in (0, 1))
        self.assertEqual(talus('route', example('four_pins')).stdout, f'(wires 4)\n{wires}(length 0)\n(mean 0 0)\n')
        self.assertEqual(talus('route', example('nothing_chosen')).stdout, '(wires 0)\n(length 0)\n(mean 0 0)\n')

    def test_short(self):
        run = talus('route', example('short'))
        self.assertTrue(run.stdout.startswith('(short '))
        self.says(run, 1, '`talus draw` shows the bottleneck')
        self.assertTrue(talus('route', example('short'), '--wires').stdout.startswith('(wires '))
        self.assertEqual(talus('draw', example('short')).returncode, 1)
        self.assertEqual(talus('check', example('short')).returncode, 0)

    def test_short_by_a_laid_wire(self):
        near = '(near pin 1 1)\n(near pin 1 2)\n(near 0 1 n)\n(near 0 1 e)\n(near 0 1 s)\n(near 0 1 w)\n(near 0 1 ci)\n'
        run = talus('route', example('laid'))
        self.assertEqual((run.returncode, run.stdout), (1, f'(short 1)\n{near}'))
        without = Path(example('laid')).read_text().replace('(laid 0 1 n 1)\n', '')
        self.assertEqual(talus('route', '-', input=without).returncode, 0)

    def test_a_wrong_text_has_its_line_and_a_caret(self):
        path = self.file('x.job', WRONG)
        for part in ('route', 'check', 'draw'):
            self.assertEqual(talus(part, path).returncode, 2)
        self.assertEqual(talus('check', path).stderr,
                         f'{path}:3: chosen stands after closed: the groups come as chosen, missing, closed, d, laid\n    (chosen 0 0)\n     ^\n')

    def test_standard_input(self):
        self.assertEqual(talus('check', '-', input='(array (pins 2 2) (caps 1 2 0))\n(end)\n').returncode, 0)
        self.says(talus('check', '-', input=''), 2, '-:1: the text is empty')

    def test_empty_huge_and_unreadable_bytes(self):
        self.says(talus('check', self.file('empty.job')), 2, ':1: the text is empty')
        self.says(talus('check', self.file('bytes.job', b'\xff\xfe\x1b[2J\n')), 2, r'\xff\xfe\x1b[2J')
        huge = self.folder / 'huge.job'
        with open(huge, 'wb') as file:
            file.write(WRONG[:32])
            file.truncate(1 << 34)
        self.says(talus('check', huge), 2, ':2: ')

    def test_no_file_and_no_folder(self):
        for part in ('route', 'check', 'draw', 'import'):
            self.says(talus(part, self.folder / 'none'), 3, 'No such file or directory')
            self.says(talus(part, self.folder), 3, 'Is a directory')
        self.says(talus('draw', example('four_pins'), '-o', self.folder / 'none' / 'x.svg'), 3, 'No such file or directory')
        self.says(talus('draw', example('four_pins'), '-o', self.folder), 3, 'Is a directory')
        self.says(talus('check', ''), 3, 'No such file')

    def test_usage(self):
        for words in ((), ('none',), ('route',), ('import', 'x', '--width', '-1'), ('import', 'x', '--caps', '1', '2'), ('draw', 'x', '--none'), ('trial', '2')):
            self.says(talus(*words), 3, 'usage: talus')
        path = self.file('x.csv', b'A1,chosen\nB2,idle\n')
        self.says(talus('import', path), 3, 'capacities are needed')
        self.says(talus('import', path, '--caps', '1', '2', '0', '--width', '100'), 3, 'do not go with them')
        self.says(talus('import', path, '--balls', 'x', '--outer', '1'), 3, 'not allowed with')

    def test_help_of_every_part(self):
        self.assertIn('Exit status', talus('--help').stdout)
        for part in ('route', 'check', 'draw', 'import', 'trial'):
            run = talus(part, '--help')
            self.assertEqual((run.returncode, run.stderr), (0, ''))
            self.assertIn('Example', run.stdout)
            self.assertIn('Exit status', run.stdout)


class Output(Folder):
    def test_full_disk(self):
        for words in (('route', example('four_pins')), ('route', example('short')), ('draw', example('four_pins')), ('--help',), ('draw', '--help'),
                      ('import', self.file('x.csv', b'A1,chosen\nB2,idle\n'), '--caps', '1', '2', '0'), ('trial', *'221201500')):
            with open('/dev/full', 'w') as full:
                self.says(talus(*words, stdout=full), 3, 'standard output: No space left on device')
        self.says(talus('draw', example('four_pins'), '-o', '/dev/full'), 3, '/dev/full: No space left on device')

    def test_a_file_is_written_whole_or_left(self):
        path = Path(self.file('x.svg', b'old'))
        limited = talus('draw', example('table2_1'), '-o', path, preexec_fn=self.small_files)
        self.says(limited, 3, 'File too large')
        self.assertEqual((path.read_bytes(), os.listdir(self.folder)), (b'old', ['x.svg']))
        self.assertEqual(talus('draw', example('table2_1'), '-o', path).returncode, 0)
        self.assertTrue(path.read_bytes().startswith(b'<svg'))
        self.assertEqual(os.listdir(self.folder), ['x.svg'])

    @staticmethod
    def small_files():
        signal.signal(signal.SIGXFSZ, signal.SIG_IGN)
        resource.setrlimit(resource.RLIMIT_FSIZE, (1000, 1000))

    def test_closed_pipe(self):
        for words in (('route', example('full_40_by_40')), ('draw', example('four_pins')), ('--help',)):
            reading, writing = os.pipe()
            os.close(reading)
            self.says(talus(*words, stdout=writing), 3, 'standard output: Broken pipe')
            os.close(writing)

    def test_closed_output_and_closed_messages(self):
        for closed, status in (('>&-', 3), ('2>&-', 0), ('>&- 2>&-', 3), ('2>/dev/full', 0)):
            run = subprocess.run(['sh', '-c', f'"$0" route "$1" {closed}', TALUS, example('four_pins')], capture_output=True, text=True)
            self.assertEqual(run.returncode, status, closed)
            self.assertNotIn('Traceback', run.stderr)

    def test_a_name_that_no_picture_may_hold(self):
        path = self.folder / 'a<\x01&\udcff.job'
        path.write_bytes(Path(example('four_pins')).read_bytes())
        run = talus('draw', path)
        self.assertEqual((run.returncode, run.stderr), (0, ''))
        self.assertIn('a&lt;\\x01&amp;\\xff', xml.fromstring(run.stdout) is not None and run.stdout)

    def test_interrupted(self):
        run = subprocess.Popen([TALUS, 'check', '-'], stdin=subprocess.PIPE, stderr=subprocess.PIPE, text=True)
        time.sleep(1)
        run.send_signal(signal.SIGINT)
        _, said = run.communicate(timeout=30)
        self.assertEqual((run.returncode, said), (3, 'talus: interrupted\n'))


class Check(Folder):
    def test_a_checked_picture_says_so(self):
        self.says(talus('draw', example('table2_1'), '--check', '-o', '/dev/null'), 0, 'meet as drawn')
        self.says(talus('draw', example('short'), '--check', '-o', '/dev/null'), 1, 'all full, with the greatest number as their sum')
        self.says(talus('draw', example('laid'), '--check', '-o', '/dev/null'), 1, 'no two of 1 wire meet as drawn, and none meets a laid one; 1 cut, all full')

    def test_progress_is_said_after_a_second_and_then_every_two(self):
        said, times = [], iter((0, .5, 1.1, 1.1, 2, 3.2, 3.2))
        with mock.patch('command.say', said.append), mock.patch('command.time.monotonic', lambda: next(times)):
            progress = command.Progress('drawing')
            for done in range(4):
                progress(done, 8)
        self.assertEqual(said, ['talus: drawing, 12 %', 'talus: drawing, 37 %'])

    def test_pictures_of_the_repository_are_of_today(self):
        for name in ('table2_1', 'bottleneck'):
            kept, made = (ROOT / 'docs' / 'pictures' / f'{name}.svg').read_text(), talus('draw', example(name)).stdout
            self.assertEqual(NUMBER.sub('0', made), NUMBER.sub('0', kept), f'docs/pictures/{name}.svg is to be made again')
            self.assertTrue(all(abs(float(one) - float(other)) < .05 for one, other in zip(NUMBER.findall(made), NUMBER.findall(kept))), name)
