"""Tests of tools/gate_times.py, with the commands of a gate."""
import sys
import unittest

sys.path.insert(0, 'tools')

import gate_times

BUILD = ['/kit/bin/rattle', 'build', '--crate-name', 'low', 'src/lib.rt', '--jobs', '1']
CHECK = ['/kit/bin/rattle', 'check', '--crate-name', 'low', 'src/lib.rt', '--incremental']


class Commands(unittest.TestCase):
    def test_knows_the_crate(self):
        self.assertEqual(gate_times.crate_of(BUILD), 'low')
        self.assertIsNone(gate_times.crate_of(['python3', 'rt', 'ci']))
        self.assertIsNone(gate_times.crate_of(['']))

    def test_tells_what_a_command_does(self):
        self.assertEqual(gate_times.kind_of(BUILD), 'proof')
        self.assertEqual(gate_times.kind_of([*BUILD, '--test']), 'tests')
        self.assertEqual(gate_times.kind_of([*CHECK, '/tmp/edits/seed']), 'beginning')
        self.assertEqual(gate_times.kind_of([*CHECK, '/tmp/edits/3']), 'wrong bodies')
        self.assertEqual(gate_times.kind_of(CHECK[:-1]), 'wrong bodies')
        self.assertEqual(gate_times.kind_of([word.replace('lib', 'main') for word in CHECK[:-1]]), 'proof')


class Times(unittest.TestCase):
    def test_reads_the_time_of_a_process(self):
        behind = ' '.join(str(number) for number in range(3, 53))
        stat = f'17 (a name (odd) S {behind}'.replace('(odd) S', '(odd)) S')
        self.assertEqual(gate_times.seconds_of(stat) * gate_times.TICKS, 13 + 14)

    def test_sums_by_crate(self):
        seen = [('low', 'proof', 60.0), ('low', 'beginning', 30.0), ('high', 'tests', 120.0)]
        self.assertEqual(gate_times.lines_of(seen), [
            'all crates: proof 1.0, tests 2.0, beginning 0.5, wrong bodies 0.0 minutes',
            'high: proof 0.0, tests 2.0, beginning 0.0, wrong bodies 0.0 minutes',
            'low: proof 1.0, tests 0.0, beginning 0.5, wrong bodies 0.0 minutes',
        ])


if __name__ == '__main__':
    unittest.main()
