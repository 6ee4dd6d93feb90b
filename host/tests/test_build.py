"""Building: what is said while crates are proved, a missing `rt`, a failed proof; by `rt` stand-ins in a copy of the host without a library."""
import os
import shutil
import subprocess
import tempfile
import unittest
from pathlib import Path

import talusdish
from support import ROOT, example

SLOW = '''#!/bin/sh
echo "rt: chose --jobs 2 for flow" >&2
echo "fn flow::ways: proved" >&2
sleep 2
echo "logic=proved functions=1" >&2
mkdir -p out
printf '#!/bin/sh\\ncat "$LISTING"\\n' >out/escape
chmod +x out/escape
echo none >out/libtalusdish_c.a
echo "rt: running out/escape; to give it other input, run that file yourself" >&2
[ "$1" = lib ]
'''
BUILDING = '''#!/bin/sh
echo built >>../../target/host/builds
mkdir -p out
cp "$ARCHIVE" out/libtalusdish_c.a
'''
FAILING = '''#!/bin/sh
echo "rt: chose --jobs 2 for sums" >&2
echo "src/lib.rt:1:1: error: a goal is not proved" >&2
echo "logic=not-proved" >&2
echo "rt: the library sums did not build, so nothing above it was checked" >&2
exit 1
'''


class Copy(unittest.TestCase):
    """A copy of the host and of crates.txt, with an `rt` of the test's own on the PATH."""

    def setUp(self):
        folder = tempfile.TemporaryDirectory()
        self.addCleanup(folder.cleanup)
        self.root = Path(folder.name) / 'copy'
        self.bin = Path(folder.name) / 'bin'
        self.bin.mkdir()
        shutil.copytree(ROOT / 'host', self.root / 'host', ignore=shutil.ignore_patterns('__pycache__'))
        for name in ('run', 'crates.txt'):
            shutil.copy(ROOT / name, self.root / name)
        for name in ('escape', 'talusdish_c'):
            (self.root / 'crates' / name).mkdir(parents=True)
        for tool in ('env', 'bash', 'sh', 'python3', 'awk', 'tee', 'grep', 'tail', 'cut', 'sed', 'mkdir', 'dirname', 'realpath', 'mktemp', 'rm', 'mv', 'cat', 'head', 'sleep', 'chmod', 'cp', 'cc', 'ld'):
            (self.bin / tool).symlink_to(self.tool(tool))

    @staticmethod
    def tool(name):
        return os.path.realpath(os.sys.executable) if name == 'python3' else shutil.which(name)

    def rt(self, script):
        (self.bin / 'rt').write_text(script)
        (self.bin / 'rt').chmod(0o755)

    def run_in_copy(self, *words, **environment):
        plain = {key: value for key, value in os.environ.items() if key != 'TALUSDISH'}
        return subprocess.run(words, cwd=self.root, env=plain | {'PATH': str(self.bin)} | environment, capture_output=True, text=True)


class Talus(Copy):
    def build(self):
        run = self.run_in_copy('host/talus', 'check', example('four_pins'))
        self.assertEqual(run.returncode, 3)
        self.assertNotIn('Traceback', run.stderr)
        return run.stderr

    def test_no_rt(self):
        self.assertIn('no `rt` on the PATH', self.build())

    def test_a_failed_proof(self):
        self.rt(FAILING)
        said = self.build()
        self.assertIn('sums NOT PROVED', said)
        self.assertIn('the library was not built', said)

    def test_progress_and_a_failed_link(self):
        self.rt(SLOW)
        said = self.build()
        self.assertRegex(said, r'proving flow \([1-9] of \d+ crates done\)\n.*flow proved \(2 s\)')
        self.assertIn('could not link the library', said)

    def test_no_compiler(self):
        self.rt(SLOW)
        (self.bin / 'cc').unlink()
        self.assertIn('no C compiler', self.build())

    def test_a_library_that_is_none(self):
        for path, reason in (('/none.so', 'cannot be used'), (str(ROOT / 'README.md'), 'cannot be used')):
            run = self.run_in_copy('host/talus', 'check', example('four_pins'), TALUSDISH=path)
            self.assertEqual(run.returncode, 3)
            self.assertIn(reason, run.stderr)


class Run(Copy):
    def listing(self, content):
        path = self.root / 'listing'
        path.write_text(content)
        return str(path)

    def test_status_by_the_listing(self):
        self.rt(SLOW.replace('sleep 2', ''))
        for content, status in (('(wires 0)\n', 0), ('(short 1)\n(near pin 0 0)\n', 1), ('(refused 6 45)\n', 2), ('', 3)):
            run = self.run_in_copy('./run', example('four_pins'), LISTING=self.listing(content))
            self.assertEqual((run.returncode, run.stdout), (status, content), run.stderr)

    def test_what_is_being_proved_is_shown(self):
        self.rt(SLOW)
        run = self.run_in_copy('./run', example('four_pins'), LISTING=self.listing('(wires 0)\n'))
        self.assertRegex(run.stderr, r'proving flow \(1 of \d+ crates done\)')

    def test_failures(self):
        self.assertIn('no `rt` on the PATH', self.fails(example('four_pins')))
        self.rt(FAILING)
        self.assertIn('sums NOT PROVED', self.fails(example('four_pins')))
        self.assertIn('no such file', self.fails('none.job'))
        self.assertIn('is a folder', self.fails('.'))
        self.assertIn('usage', self.fails())

    def test_a_full_disk(self):
        self.rt(SLOW.replace('sleep 2', ''))
        run = self.run_in_copy('sh', '-c', f'./run {example("four_pins")} >/dev/full', LISTING=self.listing('(wires 0)\n'))
        self.assertEqual(run.returncode, 3)
        self.assertIn('could not be written', run.stderr)

    def fails(self, *words):
        run = self.run_in_copy('./run', *words)
        self.assertEqual(run.returncode, 3)
        return run.stderr


class Sources(Copy):
    def test_the_library_is_built_again_only_when_its_sources_change(self):
        talusdish.library()
        self.rt(BUILDING)
        source, builds = self.root / 'crates' / 'sums' / 'specs' / 'Some.antt', self.root / 'target' / 'host' / 'builds'
        source.parent.mkdir(parents=True)
        for content, count in (('one', 1), ('one', 1), ('two', 2)):
            source.write_text(content)
            run = self.run_in_copy('host/talus', 'check', example('four_pins'), ARCHIVE=str(ROOT / 'target' / 'staticlib' / 'libtalusdish.a'))
            self.assertEqual((run.returncode, run.stderr), (0, ''))
            self.assertEqual(builds.read_text().count('built'), count)

    def test_the_crates_below_the_library(self):
        below = talusdish.crates_below('talusdish_c')
        self.assertLessEqual({'talusdish_c', 'talusdish', 'sums', 'rules'}, set(below))
        self.assertNotIn('oracle', below)
