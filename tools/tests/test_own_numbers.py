"""The table of own numbers, for a made-up crate."""
import pathlib
import unittest

from scratch import Scratch, printed

import own_numbers
from made import END, begin_of

CODE = '''/// The most loads, of
/// all kinds (own). More of it.
pub(crate) const MOST_LOADS: usize = 1_000;

/// The tag of a load.
pub const TAG: u32 = 0x42;

    /// The seed (own).
    const SEED: [u8; 2] = [0; 2];
'''
PAGE = f'A.\n\n{begin_of("tools/own_numbers.py")}old\n{END}B.\n'


class OwnNumbers(Scratch):
    def setUp(self):
        super().setUp()
        self.write({'crates/low/src/limits.rt': CODE, 'docs/DECISIONS.md': PAGE})

    def test_it_is_written_and_then_up_to_date(self):
        self.assertEqual(printed(own_numbers.check_own_numbers), (
            1, ['docs/DECISIONS.md: its table of numbers is out of date: run tools/own_numbers.py']))
        self.assertEqual(own_numbers.main([]), 0)
        self.assertEqual(pathlib.Path('docs/DECISIONS.md').read_text(), PAGE.replace('old\n', (
            '| number | what it is | constant |\n|---|---|---|\n'
            '| 1,000 | The most loads, of all kinds | [`MOST_LOADS`](../crates/low/src/limits.rt) of low |\n'
            '| [0; 2] | The seed | [`SEED`](../crates/low/src/limits.rt) of low |\n')))
        self.assertEqual(printed(own_numbers.check_own_numbers), (0, []))

    def test_a_page_without_a_place_for_it(self):
        self.write({'docs/DECISIONS.md': 'A.\n'})
        with self.assertRaises(SystemExit):
            own_numbers.main([])


if __name__ == '__main__':
    unittest.main()
