"""What the gate does with its trials, without a proof."""
import os
import re
import sys
import unittest
from unittest import mock

from scratch import Scratch, printed

import gate


def without_seconds(lines):
    return [re.sub(r'\d+ s\b', 'T s', line) for line in lines]


class Gate(Scratch):
    def setUp(self):
        super().setUp()
        os.makedirs(gate.LOGS)

    def test_what_the_machine_lacks(self):
        self.assertIsNone(gate.lacks([]))
        self.assertIsNone(gate.lacks([['no-such-program', 'sh']]))
        self.assertEqual(gate.lacks([['sh'], ['no-such-program', 'nor-this']]), 'no-such-program')

    def test_a_trial_that_passes(self):
        passed, lines = printed(gate.succeeds, 'fine', ['sh', '-c', 'echo all is well'])
        self.assertTrue(passed)
        self.assertEqual(without_seconds(lines), ['fine: ok, T s'])
        self.assertEqual((self.top / 'out/gate/fine.log').read_text(), 'all is well\n')

    def test_a_trial_that_fails_prints_its_log(self):
        passed, lines = printed(gate.succeeds, 'bad', ['sh', '-c', 'echo not well >&2; exit 3'])
        self.assertFalse(passed)
        self.assertEqual(without_seconds(lines),
                         ['not well', 'bad FAILED after T s, with status 3: sh -c echo not well >&2; exit 3'])

    def test_the_end_has_what_was_wrong(self):
        said = "printf 'a row: ok\\nanother: wrong\\n    4.2\\n\\na third: ok\\n'; exit 1"
        printed(gate.succeeds, 'bad', ['sh', '-c', said])
        printed(gate.succeeds, 'mute', ['false'])
        self.assertEqual(printed(gate.tell_failed, ['bad', 'mute']),
                         (None, ['bad FAILED:', '    another: wrong', '        4.2', 'mute FAILED:']))
        self.assertEqual(printed(gate.tell_failed, []), (None, []))

    def test_the_end_has_few_lines_of_each_trial(self):
        for count in (gate.MOST_LINES, gate.MOST_LINES + 1, 1000):
            self.write({'out/gate/bad.log': ''.join(f'{place}: wrong\nfine: ok\n' for place in range(count))})
            lines = gate.wrong_lines('bad')
            self.assertEqual(len(lines), gate.MOST_LINES)
            self.assertEqual((lines[0], lines[-1]), ('0: wrong', f'{count - 1}: wrong'))
        self.assertEqual(lines[gate.MOST_LINES // 2], '(986 more lines in out/gate/bad.log)')
        self.write({'out/gate/bad.log': 'x' * 100_000 + '\n'})
        self.assertEqual(gate.wrong_lines('bad'), ['x' * gate.WIDEST])

    def test_all_trials_and_the_end(self):
        trials = [('fine', ['true'], []), ('bad', ['sh', '-c', 'echo a row: wrong; exit 1'], []), ('absent', ['true'], [['no-such-program']])]
        with mock.patch.multiple(gate, TRIALS=trials, TOP=str(self.top), prove=lambda: (7, 0), sum_of_sources=str,
                                 note_proof=lambda before: True):
            status, lines = printed(gate.main)
        self.assertEqual(status, 1)
        self.assertEqual(lines[-3:], ['bad FAILED:', '    a row: wrong', '8 passed, 1 failed, 1 skipped'])

    def test_what_the_proofs_count(self):
        self.write({'bin/rt': f'#!{sys.executable}\nprint("one crate")\nprint("7 passed, 2 failed")\n'})
        os.chmod('bin/rt', 0o755)
        self.addCleanup(os.environ.__setitem__, 'PATH', os.environ['PATH'])
        os.environ['PATH'] = f'{self.top}/bin:{os.environ["PATH"]}'
        self.assertEqual(printed(gate.prove), ((7, 2), ['one crate', '7 passed, 2 failed']))

    def test_what_was_proved_is_noted(self):
        self.write({'crates.txt': 'low:\n', 'crates/low/src/lib.rt': '//! A.\n', gate.PROGRAM: 'program\n'})
        before = gate.sum_of_sources()
        self.assertTrue(gate.note_proof(before))
        self.assertIn(f'sources {before}\n', (self.top / 'crates/kmipctl/out/PROVED').read_text())
        self.write({'crates/low/src/lib.rt': '//! B.\n'})
        self.assertFalse(gate.note_proof(before))
        self.assertFalse((self.top / 'crates/kmipctl/out/PROVED').exists())

    def test_each_trial_is_named_once(self):
        names = [name for name, _, _ in gate.TRIALS]
        self.assertEqual(len(names), len(set(names)))
        self.assertLessEqual({'documents', 'tools'}, set(names))


if __name__ == '__main__':
    unittest.main()
