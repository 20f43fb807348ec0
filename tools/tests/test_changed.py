"""The crates that changed, in a made-up repository with a made-up rt."""
import os
import subprocess
import sys
import unittest

from scratch import Scratch, printed

import changed

RT = '''#!{python}
import os, sys
crate = os.path.basename(os.getcwd())
print(crate, *sys.argv[1:])
sys.exit(1 if crate == 'bad' and sys.argv[1] == 'check' else 0)
'''


class Changed(Scratch):
    def setUp(self):
        super().setUp()
        self.write({'crates.txt': '# layers\nlow: std\n\nhigh: low\nbad: low\n', 'bin/rt': RT.format(python=sys.executable),
                    'crates/low/src/lib.rt': 'fn f() {}\n', 'crates/high/src/lib.rt': '#[test]\nfn t() {}\n',
                    'crates/bad/src/lib.rt': '', 'README.md': ''})
        os.chmod('bin/rt', 0o755)
        self.addCleanup(os.environ.__setitem__, 'PATH', os.environ['PATH'])
        os.environ['PATH'] = f'{self.top}/bin:{os.environ["PATH"]}'
        who = ['-c', 'user.name=n', '-c', 'user.email=e']
        for words in ['init', '-q'], ['add', '-A'], [*who, 'commit', '-qm', 'first']:
            subprocess.run(['git', *words], check=True)

    def lines(self, *words):
        """What a call prints, without the seconds that it took, and its status."""
        status, lines = printed(changed.main, list(words))
        return status, [line.rsplit(', ', 1)[0] for line in lines]

    def test_nothing_changed(self):
        self.write({'README.md': 'new\n'})
        self.assertEqual(self.lines('check'), (0, ['no crate changed']))

    def test_lowest_first_and_with_tests(self):
        self.write({'crates/high/proofs/New.antt': '\n', 'crates/low/src/lib.rt': 'fn g() {}\n'})
        self.assertEqual(self.lines('list'), (0, ['low', 'high']))
        self.assertEqual(self.lines('check'), (0, ['low: rt check: ok', 'high: rt check: ok', 'high: rt try --test: ok']))

    def test_the_first_that_fails(self):
        self.write({'crates/bad/src/lib.rt': 'fn f() {}\n', 'crates/high/src/lib.rt': 'fn f() {}\n'})
        self.assertEqual(self.lines('check'), (1, ['high: rt check: ok', 'bad check', 'bad: rt check: FAILED']))

    def test_fmt_goes_over_all(self):
        self.assertEqual(self.lines('fmt'), (0, ['low:', 'low fmt', 'high:', 'high fmt', 'bad:', 'bad fmt']))

    def test_other_words(self):
        self.assertEqual(self.lines('prove')[0], 2)


if __name__ == '__main__':
    unittest.main()
