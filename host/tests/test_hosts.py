"""The hosts in C and Rust: compiled, run, and their answers held to the binding's."""
import subprocess
import tempfile
import unittest
from pathlib import Path

import talusdish
from support import ROOT

ARCHIVE = ROOT / 'target' / 'staticlib' / 'libtalusdish.a'


class Hosts(unittest.TestCase):
    def setUp(self):
        folder = tempfile.TemporaryDirectory()
        self.addCleanup(folder.cleanup)
        self.program = Path(folder.name) / 'program'
        talusdish.library()

    def expected(self):
        job = talusdish.Job(4, 4, 1, 2, 0)
        for row in (1, 2):
            for column in (1, 2):
                job.mark(row, column, talusdish.CHOSEN)
        job.route()
        return f'{job.listing()}shortfall {job.shortfall()[0]}\n'

    def runs(self, *words):
        made = subprocess.run(words, cwd=ROOT, capture_output=True, text=True)
        self.assertEqual((made.returncode, made.stderr), (0, ''))
        run = subprocess.run([self.program], capture_output=True, text=True)
        self.assertEqual((run.returncode, run.stdout, run.stderr), (0, self.expected(), ''))
        with open('/dev/full', 'w') as full:
            self.assertEqual(subprocess.run([self.program], stdout=full, stderr=subprocess.PIPE).returncode, 3)

    def test_c(self):
        self.runs('cc', '-std=c99', '-Wall', '-Wextra', '-Werror', '-I', 'include', 'host/c/host.c', ARCHIVE, '-o', self.program)

    def test_rust(self):
        self.runs('rustc', '-D', 'warnings', 'host/rust/host.rs', '-L', f'native={ARCHIVE.parent}', '-l', 'static=talusdish', '-o', self.program)
