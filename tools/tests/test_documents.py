"""What `make documents` finds in documents of made-up crates."""
import unittest

from scratch import Scratch, printed
from made_up import CRATES

import documents
import mistakes
from sources import Repository


class Documents(Scratch):
    def setUp(self):
        super().setUp()
        self.write(CRATES)

    def test_names_that_stand_nowhere(self):
        self.write({'README.md': '`high::send`, `is_late`, `IsLight`, `low::IsLight` and `plain`.\n'})
        self.assertEqual(printed(documents.check_names), (2, [
            'stands nowhere in the code: is_late in README.md', 'stands nowhere in the code: low::IsLight in README.md']))

    def test_rows_of_mistakes(self):
        self.write({'crates/low/must-fail/late.edit': 'file: a\n', 'docs/MISTAKES.md': (
            '| the mistake | tried | refused |\n|---|---|---|\n'
            '| late | low: `late.edit` | `Carrier::carry`, *quick* |\n'
            '| heavy | low: `heavy.edit` | `Carrier::carry`, *light* |\n'
            '| none | high: the test `fails` | |\n')})
        self.assertEqual(printed(mistakes.check_mistakes, Repository()), (3, [
            'docs/MISTAKES.md:4: low has no edit heavy.edit', 'docs/MISTAKES.md:4: low::Carrier::carry has no clause light',
            'docs/MISTAKES.md:5: high has no test fails']))


if __name__ == '__main__':
    unittest.main()
