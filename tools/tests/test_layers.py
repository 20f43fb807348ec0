"""The layers of made-up crates."""
import pathlib
import unittest

from scratch import Scratch, printed
from made_up import CRATES

import layers

PAGE = f'Before.\n\n{layers.BEGIN}old\n{layers.END}After.\n'
MORE = {
    'crates.txt': '# The crates.\n\n## Base: what carries\nlow: hex\n\n## Top: what calls\nhigh: low\nbeside: low\n'
                  '## Tests: apart\ntry: high\n',
    'crates/beside/src/main.rt': '//! Beside: it ensures nothing. And more.\nfn main() {} // ensures\n',
    'crates/try/src/lib.rt': '//! Tries 2.1 | all\n',
}


class Layers(Scratch):
    def setUp(self):
        super().setUp()
        self.write(CRATES | MORE | {'docs/ARCHITECTURE.md': PAGE})

    def list(self, *lines):
        """Writes these lines as crates.txt."""
        self.write({'crates.txt': '\n'.join(lines) + '\n'})

    def faults(self):
        return list(layers.Layers().faults())

    def test_it_is_written_and_then_up_to_date(self):
        self.assertEqual(printed(layers.check_layers), (1, [
            'docs/ARCHITECTURE.md: its crates are out of date: run tools/layers.py']))
        self.assertEqual(printed(layers.main, ['--check'])[0], 1)
        self.assertEqual(layers.main([]), 0)
        self.assertEqual(printed(layers.main, ['--check']), (0, []))
        self.assertEqual(pathlib.Path('docs/ARCHITECTURE.md').read_text(), (
            f'Before.\n\n{layers.BEGIN}```mermaid\nflowchart TB\n  tests["<b>Tests</b>: apart<br/>try"]\n'
            '  top["<b>Top</b>: what calls<br/>high ✓, beside"]\n  base["<b>Base</b>: what carries<br/>low ✓"]\n'
            '  top --> base\n  tests -.-> top\n```\n\n'
            '| layer | crate | what it is | ✓ |\n|---|---|---|---|\n'
            '| Base | [low](../crates/low/src/lib.rt) | A line that carries numbers. | ✓ |\n'
            '| Top | [high](../crates/high/src/lib.rt) | Who calls a carrier. | ✓ |\n'
            '|  | [beside](../crates/beside/src/main.rt) | Beside: it ensures nothing. |  |\n'
            f'| Tests | [try](../crates/try/src/lib.rt) | Tries 2.1 \\| all |  |\n{layers.END}After.\n'))

    def test_who_promises_something_is_marked(self):
        self.assertEqual(layers.Layers().proved, {'low', 'high'})

    def test_a_crate_in_no_layer(self):
        self.list('low:', '## Top: it', 'high: low', 'beside: low', '## Tests: apart', 'try: high')
        self.assertEqual(self.faults(), ['low is in 0 layers of crates.txt'])
        self.assertEqual(printed(layers.main, [])[0], 1)
        self.assertEqual(printed(layers.check_layers)[0], 1)

    def test_layers_that_stand_on_each_other(self):
        self.list('## Base: it', 'low:', 'beside: high', '## Top: it', 'high: low', '## Tests: apart', 'try: low')
        self.assertEqual(self.faults(), [
            'the layer Base stands on one that stands on it', 'the layer Top stands on one that stands on it'])

    def test_what_stands_on_tests(self):
        self.list('## Base: it', 'low:', '## Top: it', 'high: low try', 'beside: low', '## Tests: apart', 'try: low')
        self.assertEqual(self.faults(), ['the layer Top stands on tests'])

    def test_no_page_is_no_fault(self):
        pathlib.Path('docs/ARCHITECTURE.md').unlink()
        self.assertEqual(printed(layers.check_layers), (0, []))


if __name__ == '__main__':
    unittest.main()
