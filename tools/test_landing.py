#!/usr/bin/env python3
"""Tests of landing.py: a small repository of two commits, gate logs and bench outputs, and what is missing from each."""
import os
import subprocess
import sys
import tempfile
import unittest
from pathlib import Path

HERE = Path(__file__).resolve().parent

# The files of the two commits; the lines that count are those with a letter x, one each.
BEFORE = {
    'crates.txt': '# NAME: DEP ..\nlaws:\nplace: laws\ngone: laws\n',
    'crates/laws/specs/A.antt': '-- a comment\nuse Lib\n\nx1\nx2\n',
    'crates/laws/proofs/Deep/er/P.antt': ''.join(f'x{n}\n' for n in range(10)),
    'crates/place/src/lib.rt': '// a comment\nghost use a;\nuse b;\nx1\n    x2\n    // another\n',
    'crates/place/proofs/Lib.antt': 'pub mod x;\n',
    'crates/place/proofs/Q.antt': 'x1\nx2\nx3\n- x4\n-- x\n',
    'crates/place/edits/e.edit': 'old: a\nnew: b\n',
    'crates/gone/proofs/G.antt': 'x1\nx2\n',
    'docs/A.md': 'x\n',
}
AFTER = {
    'crates.txt': '# NAME: DEP ..\nlaws:\nplace: laws\nnew staticlib: laws\n',
    'crates/laws/specs/A.antt': '-- another comment\nuse Lib.B\n\n\nx1\nx2\n',
    'crates/laws/proofs/Deep/P2.antt': ''.join(f'x{n}\n' for n in range(10)),
    'crates/place/src/lib.rt': '// a comment\nghost use a;\nuse c;\nx1\n    x3\n    x4\n',
    'crates/place/proofs/Lib.antt': 'pub mod x;\npub mod y;\n',
    'crates/place/proofs/Q.antt': 'x1\nx3\n++ x5\nx6\nx7\n',
    'crates/place/edits/e.edit': 'old: a\nnew: c\n',
    'crates/new/proofs/N.antt': 'x1\n-- x\nx2\nx3\n',
    'docs/A.md': 'y\n',
}
LINES = '''\
| Lines | specs | src | proofs | proof lines before | after | new | gone |
|---|--:|--:|--:|--:|--:|--:|--:|
| place | 0 | +2 -1 | +3 -2 | 4 | 5 | 60 % | 50 % |
| new | 0 | 0 | +3 -0 | 0 | 3 | 100 % | - |
| gone | 0 | 0 | +0 -2 | 2 | 0 | - | 100 % |
| all | 0 | +2 -1 | +6 -4 | 16 | 18 | 33 % | 25 % |
'''

OLD_LOG = '''\
fn place::a: proved
rt: laws proved (1 s)
rt: place proved (79 s)
rt: must-fail laws/edit: refused, as it must be (first at proofs/P.antt:1:1; 2 s)
rt: ok, 2 crates proved, 1 must-fail edits refused
28 passed, 0 failed
'''
CI_LOG = '''\
== laws
rt: laws proved
== place
fn place::a: proved
rt: place proved
rt: must-fail laws/e.edit: refused, as it must be: ./proofs/P.antt:1:1: error: `p`: no
rt: ok; handles allowed: none; must-fail edits: 1 refused; every proof and must-fail edit was done in this run
28 passed, 0 failed
'''
STEPS = '''\
ci: edits that the prover must refuse
rt: place proved
ci: ./place on the sample tapes
'''
TIMED = '''\
	Command being timed: "{}"
	User time (seconds): 1.75
	Elapsed (wall clock) time (h:mm:ss or m:ss): {}
	Maximum resident set size (kbytes): {}
	Exit status: 0
'''
BENCH = '''\
| | archive, ns | crate, ns | times | archive, instructions | crate, instructions | times |
|---|--:|--:|--:|--:|--:|--:|
| a placement, page of 4 | 239 | 81.9 | 2.9 | 3,112 | 1,085 | 2.9 |
| a placement, page of 64 | 248 | 71.1 | 3.5 | 3,099 | 914 | 3.4 |
| a content question, page of 64 | 115 | 60.6 | 1.9 | 1,425 | 725 | 2.0 |
| a BFC question, page of 64 | 141 | 80.7 | 1.7 | 1,565 | 1,016 | 1.5 |
| whole job: a page of 64, 128 questions | 29,502 | 12,745 | 9.9 | 400,301 | 176,569 | 9.9 |
| whole job: pages of 64, 61,530 bytes of tape | 536,088 | 245,437 | 2.2 | 5,955,180 | 2,705,774 | 2.3 |
'''


class Landing(unittest.TestCase):
    @classmethod
    def setUpClass(cls):
        cls.folder = tempfile.TemporaryDirectory()
        cls.addClassCleanup(cls.folder.cleanup)
        cls.root = Path(cls.folder.name)
        cls.git('init', '-q')
        for tag, files in (('before', BEFORE), ('after', AFTER)):
            cls.git('rm', '-rqf', '--ignore-unmatch', '.')
            for name, text in files.items():
                (cls.root / name).parent.mkdir(parents=True, exist_ok=True)
                (cls.root / name).write_text(text)
            cls.git('add', '.')
            cls.git('commit', '-qm', tag)
            cls.git('tag', tag)

    @classmethod
    def git(cls, *words):
        who = {f'GIT_{part}_{what}': 'a@b' for part in ('AUTHOR', 'COMMITTER') for what in ('NAME', 'EMAIL')}
        alone = {'GIT_CONFIG_GLOBAL': os.devnull, 'GIT_CONFIG_SYSTEM': os.devnull}
        subprocess.run(['git', *words], cwd=cls.root, env={**os.environ, **who, **alone}, check=True, timeout=60)

    def file(self, name, text):
        """Writes a file and gives its path."""
        path = self.root / name
        path.write_text(text)
        return path

    def run_it(self, *arguments):
        """Runs landing.py in the repository."""
        return subprocess.run([sys.executable, HERE / 'landing.py', *map(str, arguments)], cwd=self.root,
                              capture_output=True, text=True, timeout=60)

    def tables(self, *arguments):
        """The tables that it prints."""
        done = self.run_it(*arguments)
        self.assertEqual((done.returncode, done.stderr), (0, ''))
        return done.stdout.split('\n\n')

    def fails(self, said, *arguments):
        """It prints no table, says why, and gives status 1."""
        done = self.run_it(*arguments)
        self.assertEqual((done.returncode, done.stdout), (1, ''))
        self.assertIn(said, done.stderr)

    def test_lines(self):
        self.assertEqual(self.tables('before', 'after'), [LINES])

    def test_nothing_moved(self):
        table, = self.tables('after', 'after')
        self.assertEqual(table.splitlines()[2:], ['| all | 0 | 0 | 0 | 18 | 18 | 0 % | 0 % |'])

    def test_settings_of_the_user_change_nothing(self):
        self.git('config', 'diff.noprefix', 'true')
        self.git('config', 'diff.renames', 'false')
        self.git('config', 'color.ui', 'always')
        try:
            self.assertEqual(self.tables('before', 'after'), [LINES])
        finally:
            for name in ('diff.noprefix', 'diff.renames', 'color.ui'):
                self.git('config', '--unset', name)

    def test_logs(self):
        before = self.file('before.log', CI_LOG + STEPS + '37 passed, 0 failed\n'
                           + TIMED.format('bash .ci/run', '17:03.25', 777)
                           + TIMED.format('rt verdict laws', '0:01.30', 100)
                           + TIMED.format('rt verdict place', '1:19.00', 200)
                           + TIMED.format('rt verdict float', '1:20.00', 1200000))
        after = self.file('after.log', CI_LOG.replace('laws proved', 'more proved') + STEPS + 'ci: 59 s\n38 passed, 1 failed\n'
                          + TIMED.format('rt verdict place', '0:59.60', 200))
        self.assertEqual(self.tables('before', 'after', '--log', before, after)[1], '''\
| Gate | verdict | time | float, memory | all crates | more | place | laws |
|---|--:|--:|--:|--:|--:|--:|--:|
| before | 37 passed, 0 failed | 17 min 3 s | 1.23 GB | 80 s | - | 79 s | 1 s |
| after | 38 passed, 1 failed | 59 s | - | 60 s | - | 60 s | - |
''')

    def test_logs_of_an_older_kit(self):
        before = self.file('before.log', OLD_LOG + STEPS + '37 passed, 0 failed\n'
                           + TIMED.format('bash .ci/run', '17:03.25', 777)
                           + TIMED.format('rt check float', '1:19.00', 1200000))
        after = self.file('after.log', OLD_LOG.replace('79', '60').replace('laws proved', 'more proved') + STEPS
                          + 'ci: 59 s\n38 passed, 1 failed\n')
        self.assertEqual(self.tables('before', 'after', '--log', before, after)[1], '''\
| Gate | verdict | time | float, memory | all crates | more | place | laws |
|---|--:|--:|--:|--:|--:|--:|--:|
| before | 37 passed, 0 failed | 17 min 3 s | 1.23 GB | 80 s | - | 79 s | 1 s |
| after | 38 passed, 1 failed | 59 s | - | 61 s | 1 s | 60 s | - |
''')

    def test_whole_time(self):
        for said, time in (('\nreal\t17m3.250s\nuser\t1m0.000s\n', '17 min 3 s'), ('ci: 3600 s\n', '60 min 0 s'), ('', '-'),
                           (TIMED.format('bash .ci/run', '1:02:03', 1), '62 min 3 s'),
                           (TIMED.format('rt verdict float', '1:02:03', 1), '-')):
            log = self.file('time.log', CI_LOG + STEPS + said)
            table = self.tables('before', 'after', '--log', log, log)[1]
            self.assertEqual(table.splitlines()[2].split(' | ')[2], time)

    def test_unfinished_gate_has_no_verdict(self):
        for log in (CI_LOG, CI_LOG + STEPS):
            log = self.file('cut.log', log)
            table = self.tables('before', 'after', '--log', log, log)[1]
            self.assertEqual(table.splitlines()[2].split(' | ')[1], '-')

    def test_bench(self):
        before = self.file('before.md', '# Speed\n\n| a | b |\n|---|---|\n| c | d |\n\n' + BENCH)
        after = self.file('after.md', BENCH.replace('3.5 |', '1.0 |').replace('61,530', '60,000'))
        self.assertEqual(self.tables('before', 'after', '--bench', before, after)[1], '''\
| Times the crate: time / instructions | placement at 64 | content | BFC | whole job |
|---|--:|--:|--:|--:|
| before | 3.5 / 3.4 | 1.9 / 2.0 | 1.7 / 1.5 | 2.2 / 2.3 |
| after | 1.0 / 3.4 | 1.9 / 2.0 | 1.7 / 1.5 | 2.2 / 2.3 |
''')

    def test_all_tables(self):
        log, bench = self.file('gate.log', CI_LOG), self.file('bench.md', BENCH)
        self.assertEqual(len(self.tables('before', 'after', '--bench', bench, bench, '--log', log, log)), 3)

    def test_what_is_missing(self):
        empty, log = self.file('empty', ''), self.file('gate.log', CI_LOG)
        short = self.file('short.md', BENCH.replace('a BFC question, page of 64', 'a BFC question'))
        self.fails('nonesuch', 'nonesuch', 'after')
        self.fails('this is no gate log', 'before', 'after', '--log', log, empty)
        self.fails('no row for a BFC question, page of 64', 'before', 'after', '--bench', short, short)
        self.fails('absent', 'before', 'after', '--log', log, self.root / 'absent')
        self.assertEqual(self.run_it('before').returncode, 2)
        self.assertEqual(self.run_it('before', 'after', '--log', log).returncode, 2)


if __name__ == '__main__':
    unittest.main()
