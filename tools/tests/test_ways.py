"""The ways that a document lists."""
import unittest

from scratch import Scratch, printed

import ways


class Ways(Scratch):
    def check(self, text):
        self.write({
            'crates/low/src/lib.rt': 'pub struct Line;\n\nimpl Line {\n    pub fn carry(&self) {\n        // carry and lose\n        weigh::<u8>(self);\n    }\n}\n',
            'crates/low/src/weighing.rt': 'pub fn weigh(load: u8) {\n    check_all(load);\n}\n\nfn check_all(load: u8) {\n    test(load, is_light);\n}\n\nfn is_light() {\n}\n\nfn lose() {\n}\n',
            'crates/high/src/lib.rt': 'pub fn send(line: Line) {\n    line.carry();\n}\n', 'docs/A.md': text})
        return printed(ways.check_ways)

    def test_a_way(self):
        self.assertEqual(self.check(
            '## The way of a load\n\n1. `high::send` takes it.\n2. `low::Line::carry` carries it.\n'
            '3. `low::weigh` weighs it,\n   and is slow.\n4. `low::is_light`\n'), (0, []))

    def test_a_step_that_a_function_between_calls(self):
        self.assertEqual(self.check('## The way of a load\n\n- `low::Line::carry`\n- `low::check_all`\n- `low::is_light`\n'), (0, []))

    def test_a_step_that_is_reached_from_none_above(self):
        self.assertEqual(self.check('## The way of a load\n\n- `high::send`\n- `low::weigh`\n- `low::lose`\n'), (2, [
            'docs/A.md:4: no step above it reaches low::weigh', 'docs/A.md:5: no step above it reaches low::lose']))

    def test_what_a_comment_names_is_not_called(self):
        self.assertEqual(self.check('## The way\n\n- `low::Line::carry`\n- `low::lose`\n')[0], 1)

    def test_a_step_that_is_no_function(self):
        self.assertEqual(self.check('## The way of a load\n\n- `high::receive`\n- `low::Other::carry`\n'), (2, [
            'docs/A.md:3: high has no function receive', 'docs/A.md:4: low has no function Other::carry']))

    def test_each_list_is_a_way(self):
        self.assertEqual(self.check('## The way\n\n- `high::send`\n\nAnd then\n\n- `low::weigh`\n'), (0, []))

    def test_other_lists_are_none(self):
        self.assertEqual(self.check('## What there is\n\n- `high::send`\n- `low::lose`\n'), (0, []))


if __name__ == '__main__':
    unittest.main()
