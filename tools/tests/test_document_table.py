"""The members of documents are read from the definitions of their lines."""
import os
import pathlib
import sys
import tempfile
import unittest

sys.path.insert(0, str(pathlib.Path(__file__).resolve().parent.parent))

from document_table import definitions, members_of, row_of

SPECS = '''-- Lines of a command.
abbrev pub place_pieces : Option (List ℕ) → List Piece
place_pieces at = word_or (codes ": ") (codes "at") (codes "") at ∷ noted (codes "why") null ∷ []

-- A line.
unfoldable pub fault_line : ℕ → Option (List ℕ) → List Piece
fault_line n at =
    word (codes "") (codes "fault") (codes "refused")
    ∷ said (codes " number")
    ∷ told_if (is_shown n) (number (codes " ") (codes "number") n)
    ∷ (place_pieces at ++ noted (codes "keys") (words_of []) ∷ [])

-- No line.
abbrev pub other : ℕ → List ℕ
other n = codes "word"

abbrev pub longer_line : ℕ → List Piece
longer_line n = number [] (codes "number") n ∷ noted (codes "fault") null ∷ noted (codes "more") null ∷ []
'''


class DocumentTable(unittest.TestCase):
    def setUp(self):
        folder = self.enterContext(tempfile.TemporaryDirectory())
        self.addCleanup(os.chdir, os.getcwd())
        os.chdir(folder)
        specs = pathlib.Path('crates/some/specs')
        specs.mkdir(parents=True)
        (specs / 'Lines.antt').write_text(SPECS)

    def test_lines_alone_are_read(self):
        self.assertEqual(sorted(definitions()), ['some.Lines.fault_line', 'some.Lines.longer_line', 'some.Lines.place_pieces'])

    def test_members_are_in_the_order_of_the_line_and_of_those_that_it_cites(self):
        self.assertEqual(members_of('some.Lines.fault_line', definitions()), ['fault', 'number', 'at', 'why', 'keys'])

    def test_a_second_line_has_further_members(self):
        self.assertEqual(row_of(['some.Lines.place_pieces', 'some.Lines.longer_line'], definitions()),
                         '`at`, `why`; if it makes none also `number`, `fault`, `more`')

    def test_a_line_that_is_not_defined_is_told(self):
        with self.assertRaises(SystemExit):
            members_of('some.Lines.absent_line', definitions())


if __name__ == '__main__':
    unittest.main()
