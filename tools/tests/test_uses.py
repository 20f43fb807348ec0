"""The `use` lines of made-up crates that lead nowhere."""
import unittest

from scratch import Scratch, printed
from made_up import CRATES

import uses
from sources import Repository


class Uses(Scratch):
    def found_with(self, old, new):
        self.write(CRATES | {'crates/high/specs/Calls.antt': CRATES['crates/high/specs/Calls.antt'].replace(old, new, 1)})
        return printed(uses.check_uses, Repository())

    def test_all_lead_somewhere(self):
        self.assertEqual(self.found_with('', ''), (0, []))

    def test_a_file_that_is_not_there(self):
        self.assertEqual(self.found_with('low.specs.Start.', 'low.specs.Begin.'), (
            1, ['crates/high/specs/Calls.antt: low has no specs/Begin']))

    def test_a_name_that_its_file_does_not_have(self):
        self.assertEqual(self.found_with('{History}', '{Story as History}'), (
            1, ['crates/high/specs/Calls.antt: low has no Story in specs/Start']))

    def test_a_type_of_another_file(self):
        self.assertEqual(self.found_with('declared.carrying.Load', 'declared.load.Load'), (
            1, ['crates/high/specs/Calls.antt: low has no Load in src/load.rt']))

    def test_a_type_that_is_not_there(self):
        self.assertEqual(self.found_with('carrying.Load.{Load}', 'carrying.Weight.{Weight}'), (
            1, ['crates/high/specs/Calls.antt: low has no Weight in src/carrying.rt']))


if __name__ == '__main__':
    unittest.main()
