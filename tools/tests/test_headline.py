"""The list of what the headline rests on, for a made-up call."""
import pathlib
import unittest

from scratch import Scratch, printed
from made_up import CRATES

import headline
from made import END, begin_of
from sources import Repository

BEGIN = begin_of('tools/headline.py')


class Headline(Scratch):
    def setUp(self):
        super().setUp()
        self.write(CRATES | {'docs/PROOF.md': f'Before.\n\n{BEGIN}old\n{END}After.\n'})
        was = headline.CALL
        headline.CALL = 'high::send'
        self.addCleanup(setattr, headline, 'CALL', was)

    def test_it_is_written_and_then_up_to_date(self):
        self.assertEqual(printed(headline.check_headline, Repository()), (
            1, ['docs/PROOF.md: its list of definitions is out of date: run tools/headline.py']))
        self.assertEqual(headline.main([]), 0)
        self.assertEqual(pathlib.Path('docs/PROOF.md').read_text(), (
            f'Before.\n\n{BEGIN}**What is promised**: 2 definitions (4 lines).\n\n'
            'low\n\n- [Start](../crates/low/specs/Start.antt): The start.\n  `History`\n\n'
            'high\n\n- [Calls](../crates/high/specs/Calls.antt): What a call is.\n  `Sent`\n\n'
            '**What the methods of Carrier owe**: 2 more definitions (4 lines).\n\n'
            f'low\n\n- [Carried](../crates/low/specs/Carried.antt): What carrying is.\n  `Carried`, `Worn`\n\n{END}After.\n'))
        self.assertEqual(printed(headline.check_headline, Repository()), (0, []))

    def test_the_file_to_open_first_names_the_others(self):
        texts = {path: text.replace('specs.Carried.', 'specs.Headline.').replace('mod Carried', 'mod Headline') for path, text in CRATES.items()}
        text = texts.pop('crates/low/specs/Carried.antt')
        found = []
        for head in '', '--     Start  what there is\n':
            self.write(texts | {'crates/low/specs/Headline.antt': text.replace('-- Source', f'{head}-- Source', 1)})
            found.append(list(headline.first_faults(Repository())))
        self.assertEqual(found, [['crates/low/specs/Headline.antt: it has to name, in this order: Start'], []])

    def test_no_page_is_no_fault(self):
        pathlib.Path('docs/PROOF.md').unlink()
        self.assertEqual(printed(headline.check_headline, Repository()), (0, []))


if __name__ == '__main__':
    unittest.main()
