"""What the sources of made-up crates do not say of themselves."""
import unittest

from scratch import Scratch, printed
from made_up import CRATES

import comments
from sources import Repository


class Comments(Scratch):
    def found_in(self, changed):
        self.write(CRATES | changed)
        faults, lines = printed(comments.check_comments, Repository())
        self.assertEqual(faults, len(lines))
        return lines

    def test_what_has_no_sentence(self):
        self.assertEqual(self.found_in({}), [
            'crates/low/src/carrying.rt:39: no sentence above ensures quick of low::Carrier::carry',
            'crates/low/src/carrying.rt:39: no sentence above ensures worn of low::Carrier::carry',
            'crates/high/src/calling.rt:9: no sentence above requires of high::send',
            'crates/high/src/calling.rt:9: no sentence above ensures told of high::send',
            'crates/low/specs/Carried.antt:14: no sentence above Quick',
            'crates/high/specs/Calls.antt:21: no public contract rests on IsFull, and its file is not named Private..',
            'crates/low/specs/Lib.antt:3: no line above Carried',
            'crates/low/src/carrying.rt: it is not named after Load: load.rt',
            'crates/low/src/carrying.rt: it is not named after Wear: wear.rt',
            'crates/low/src/carrying.rt: it is not named after Carrier: carrier.rt',
            'crates/high/specs/Lib.antt:1: no line above Calls'])

    def test_the_docstring_is_the_sentence_of_an_only_promise(self):
        only = CRATES['crates/high/src/calling.rt'].replace('    ensures told { IsTold result }\n', '').replace(
            '    // What was sent is carried.\n', '').replace('    requires { IsLight load.now }\n', '')
        self.assertNotIn('send', ' '.join(self.found_in({'crates/high/src/calling.rt': only})))

    def test_files_and_crates_that_do_not_say_what_they_are(self):
        long = '//! ' + 'word ' * 15 + 'end. More.\n#![tactic(auto)]\n\npub use calling::send;\n'
        bare = CRATES['crates/low/specs/Start.antt'].split('\n', 2)[2]
        lines = self.found_in({'crates/high/src/lib.rt': long, 'crates/low/specs/Start.antt': bare})
        self.assertIn('crates/high: its first sentence has 16 words, and at most 15 are allowed', lines)
        self.assertIn('crates/low/specs/Start.antt:1: it does not say what it is about', lines)
        self.assertIn('crates/low/specs/Start.antt: it names no source', lines)

    def test_private_files(self):
        lib = CRATES['crates/low/specs/Lib.antt'].replace('Start', 'PrivateStart')
        start = CRATES['crates/low/specs/Start.antt']
        uses = {path: text.replace('specs.Start.', 'specs.PrivateStart.') for path, text in CRATES.items()}
        self.assertIn('crates/low/specs/PrivateStart.antt:6: a public contract rests on History, which stands in a file Private..',
                      self.found_in(uses | {'crates/low/specs/Lib.antt': lib, 'crates/low/specs/PrivateStart.antt': start}))

    def test_what_a_type_gives_a_trait(self):
        carried = CRATES['crates/low/specs/Carried.antt'] + '\n-- what it weighs\nabbrev pub weight_of : ℕ → ℕ\nweight_of load = load\n'
        self.assertIn('no public contract rests on weight_of', ' '.join(self.found_in({'crates/low/specs/Carried.antt': carried})))
        given = CRATES['crates/low/src/carrying.rt'].replace('{ λ load. load.weight }', '{ weight_of }').replace(
            'Worn, Quick}', 'Worn, Quick, weight_of}')
        self.assertNotIn('weight_of', ' '.join(self.found_in(
            {'crates/low/specs/Carried.antt': carried, 'crates/low/src/carrying.rt': given})))

    def test_types_of_tests_stand_beside_them(self):
        self.assertEqual(list(comments.type_faults('test_low')), [])

    def test_ghosts(self):
        bare = CRATES['crates/low/src/carrying.rt'].replace('    /// It drops nothing.\n', '')
        self.assertIn('crates/low/src/carrying.rt:29: no docstring of the ghost careful of Carrier',
                      self.found_in({'crates/low/src/carrying.rt': bare}))

    def test_long_sentences(self):
        said = '//! What carries.\n//!\n//!     ' + 'word ' * 40 + '\n// ' + 'word ' * 20 + '\n// ' + 'word ' * 16 + 'end. Short.\n'
        code = CRATES['crates/low/src/carrying.rt'].replace('//! What carries.\n', said)
        found = [line for line in self.found_in({'crates/low/src/carrying.rt': code}) if ' words: ' in line]
        self.assertEqual([line[:50] for line in found], ['crates/low/src/carrying.rt:4: 37 words: word word '])


if __name__ == '__main__':
    unittest.main()
