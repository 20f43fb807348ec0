"""The list of ported crates, of a made-up crates.txt."""
import pathlib
import unittest

from scratch import Scratch, printed

import trusted
from made import END, begin_of

CRATES = '# Layers.\n\nlow: hex\nmiddle: low toml\nkmipctl: middle\n\n# tests\nother: kmipctl clap\n'
PAGE = f'A.\n\n{begin_of("tools/trusted.py")}old\n{END}B.\n'


class Trusted(Scratch):
    def test_those_of_the_program_and_of_the_tests(self):
        self.assertEqual(trusted.ported(CRATES), (['hex', 'toml'], ['clap']))

    def test_it_is_written_and_then_up_to_date(self):
        self.write({'crates.txt': CRATES, 'docs/PROOF.md': PAGE})
        self.assertEqual(printed(trusted.check_trusted), (
            1, ['docs/PROOF.md: its list of ported crates is out of date: run tools/trusted.py']))
        self.assertEqual(trusted.main([]), 0)
        self.assertEqual(pathlib.Path('docs/PROOF.md').read_text(), PAGE.replace('old\n', (
            '- The contracts of the ported crates that it brings: hex and toml.\n- The tests also use clap.\n')))
        self.assertEqual(printed(trusted.check_trusted), (0, []))
        self.write({'crates.txt': CRATES.replace('middle: low toml', 'middle: low toml serde')})
        self.assertEqual(printed(trusted.check_trusted)[0], 1)

    def test_no_page_is_no_fault(self):
        self.write({'crates.txt': CRATES})
        self.assertEqual(printed(trusted.check_trusted), (0, []))


if __name__ == '__main__':
    unittest.main()
