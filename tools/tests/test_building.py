"""In which order crates are proved, and what is printed, with a made-up `rt`."""
import os
import re
import sys
import unittest

from scratch import Scratch, printed

import building

RT = f'''#!{sys.executable}
import os, sys
name = os.path.basename(os.getcwd())
with open('../../calls', 'a') as calls:
    print(name, *sys.argv[1:], file=calls)
print('proving', name)
sys.exit(1 if os.path.exists('wrong') else 0)
'''


def timeless(lines):
    return [re.sub(r'\d+:\d\d', 'T', line) for line in lines]


class Building(Scratch):
    def setUp(self):
        super().setUp()
        self.write({'bin/rt': RT, 'crates.txt': '# lowest first\nlow: hex\nside: low\nhigh: low\nkmipctl status=2: high\nother: side\n'})
        for name in ('low', 'side', 'high', 'other'):
            self.write({f'crates/{name}/src/lib.rt': ''})
        self.write({'crates/kmipctl/src/main.rt': ''})
        os.chmod('bin/rt', 0o755)
        self.addCleanup(os.environ.__setitem__, 'PATH', os.environ['PATH'])
        os.environ['PATH'] = f'{self.top}/bin:{os.environ["PATH"]}'

    def calls(self):
        return (self.top / 'calls').read_text().splitlines()

    def test_what_a_crate_stands_on(self):
        used = building.crates_used()
        self.assertEqual(building.needed_for('kmipctl', used), ['low', 'high', 'kmipctl'])
        self.assertEqual(building.heights(['low', 'high', 'kmipctl'], used), {'low': 2, 'high': 1, 'kmipctl': 0})

    def test_a_crate_begins_once_those_below_are_done(self):
        build = building.Build('other')
        self.assertEqual(build.ready(), ['low'])
        build.begun.add('low')
        self.assertEqual(build.ready(), [])
        build.done.add('low')
        self.assertEqual(build.ready(), ['side'])

    def test_the_lines_of_a_build(self):
        status, lines = printed(building.main)
        self.assertEqual(status, 0)
        self.assertEqual(timeless(lines), ['[1/3] low  T', '[2/3] high  T', '[3/3] kmipctl  T', 'built crates/kmipctl/out/kmipctl in T'])
        self.assertEqual(self.calls(), ['low lib', 'high lib', 'kmipctl run'])
        self.assertEqual((self.top / 'out/make/low.log').read_text(), 'proving low\n')

    def test_a_crate_that_fails_ends_the_build(self):
        self.write({'crates/high/wrong': ''})
        status, lines = printed(building.main)
        self.assertEqual(status, 1)
        self.assertEqual(timeless(lines), ['[1/3] low  T', 'proving high', 'high FAILED after T: out/make/high.log'])
        self.assertFalse([call for call in self.calls() if call.startswith('kmipctl')])


if __name__ == '__main__':
    unittest.main()
