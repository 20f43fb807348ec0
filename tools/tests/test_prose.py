"""Long sentences, lines and documents."""
import unittest

from scratch import Scratch, printed

import prose


def words(count):
    return ' '.join(['word'] * count)


class Sentences(unittest.TestCase):
    def found(self, text):
        return [(number, fault.split(':')[0]) for number, fault in prose.faults_of(text)]

    def test_thirty_five_words_are_allowed(self):
        self.assertEqual(self.found(f'{words(35)}. {words(35)}; {words(35)}\n'), [])

    def test_thirty_six_are_not(self):
        self.assertEqual(self.found(f'Short.\n{words(20)}: {words(36)}.\n'), [(2, '36 words')])

    def test_a_sentence_ends_with_its_line(self):
        self.assertEqual(self.found(f'{words(30)}\n{words(30)}\n'), [])

    def test_each_cell_of_a_table_counts_for_itself(self):
        self.assertEqual(self.found(f'| {words(20)} | {words(20)} | {words(36)} |\n'), [(1, '36 words')])

    def test_blocks_have_no_sentences(self):
        self.assertEqual(self.found(f'    {words(40)}\n```\n{words(40)}\n```\n{words(40)}\n'), [(5, '40 words')])

    def test_long_lines(self):
        self.assertEqual(self.found(f'{"a" * 600}\n{"a" * 601}\n    {"a" * 700}\n'), [(2, 'a line of 601 characters')])
        self.assertEqual(self.found(f'| {"a" * 600} |\n'), [(1, 'a line of 604 characters')])


class Documents(Scratch):
    def setUp(self):
        super().setUp()
        for name, value in ('SIZES', {'README.md': (20, 2), 'docs/B.md': (20, None)}), ('NOT_REWRITTEN', {}):
            self.addCleanup(setattr, prose, name, getattr(prose, name))
            setattr(prose, name, value)

    def test_what_is_within_the_limits(self):
        self.write({'README.md': 'Ten words.\n\n', 'docs/B.md': 'a\n' * 10})
        self.assertEqual(printed(prose.check_prose), (0, []))
        self.assertEqual(printed(prose.main, []), (0, [
            'README.md: 12 bytes, 2 words, 0 to look at', 'docs/B.md: 20 bytes, 10 words, 0 to look at', '0 to look at']))

    def test_sizes(self):
        self.write({'README.md': 'a\nb\nc\n', 'docs/B.md': 'a' * 21})
        self.assertEqual(printed(prose.check_prose), (2, [
            'README.md: 3 lines, and at most 2 are allowed', 'docs/B.md: 21 bytes, and at most 20 are allowed']))

    def test_what_a_tool_made_has_no_size(self):
        made = '<!-- made by tools/x.py -->\n' + 'line\n' * 20 + '<!-- end of what is made -->\n'
        self.write({'README.md': 'a\n' + made + 'b\n'})
        self.assertEqual(prose.size_of((self.top / 'README.md').read_text()), (4, 2))
        self.assertEqual(printed(prose.check_prose), (0, []))

    def test_a_document_without_a_size(self):
        self.write({'NEW.md': 'a\n'})
        self.assertEqual(printed(prose.check_prose), (1, ['NEW.md: no size is set for it (SIZES of tools/prose.py)']))

    def test_what_is_not_rewritten_is_only_reported(self):
        prose.NOT_REWRITTEN = {'README.md': 'not rewritten yet'}
        self.write({'README.md': words(36) + '\n\n\n'})
        self.assertEqual(printed(prose.check_prose), (0, ['README.md: not rewritten yet: 182 bytes, 3 over the limits']))

    def test_the_list_holds_nothing_that_is_rewritten_or_gone(self):
        prose.NOT_REWRITTEN = {'README.md': 'not rewritten yet', 'docs/GONE.md': 'not rewritten yet'}
        self.write({'README.md': 'a\n'})
        self.assertEqual(printed(prose.check_prose), (2, [
            'README.md: nothing is over the limits: take its line out of NOT_REWRITTEN of tools/prose.py',
            'docs/GONE.md: it is not there: take its line out of NOT_REWRITTEN of tools/prose.py']))


if __name__ == '__main__':
    unittest.main()
