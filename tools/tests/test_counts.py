"""Counts in documents, and sentences that rest on a place of the code."""
import operator
import pathlib
import re
import unittest

from scratch import Scratch, printed

import claims
import counts


class Counts(Scratch):
    def setUp(self):
        super().setUp()
        was = counts.COUNTED
        counts.COUNTED = [(re.compile(rf'\b{counts.NUMBER} commands\b', re.I), lambda: 10, operator.eq), was[2]]
        self.addCleanup(setattr, counts, 'COUNTED', was)

    def test_words_and_digits(self):
        self.write({'README.md': '## Seven commands\n\nThere are ten commands, 10 commands and 12 commands.\n\n```\ntwo commands\n```\n'})
        self.assertEqual(printed(counts.check_counts), (2, [
            'README.md:1: "Seven commands", and there are 10', 'README.md:3: "12 commands", and there are 10']))

    def test_a_most_is_no_less_than_the_count(self):
        self.write({f'crates/low/must-fail/{name}.edit': '' for name in 'abc'})
        self.write({'README.md': 'Keep about 3 a crate.\nKeep about 2 edits a crate.\n'})
        self.assertEqual(printed(counts.check_counts), (1, ['README.md:2: "about 2 edits a crate", and there are 3']))


class Claims(Scratch):
    def setUp(self):
        super().setUp()
        was = claims.CLAIMS
        claims.CLAIMS = [(r'one by one', 'crates/low/src/lib.rt', 'not HashSet'), (r'in a set', 'crates/low/src/lib.rt', 'HashSet')]
        self.addCleanup(setattr, claims, 'CLAIMS', was)

    def test_what_is_not_so(self):
        self.write({'README.md': 'Names are compared one by one.\nThey are looked up in a set.\n', 'crates/low/src/lib.rt': 'names: HashSet<String>\n'})
        self.assertEqual(printed(claims.check_claims), (1, [
            'README.md:1: "one by one" is not so: crates/low/src/lib.rt has HashSet']))
        self.write({'crates/low/src/lib.rt': 'names: Vec<String>\n'})
        self.assertEqual(printed(claims.check_claims), (1, [
            'README.md:2: "in a set" is not so: crates/low/src/lib.rt does not have HashSet']))


class EachClaim(unittest.TestCase):
    def test_each_rests_on_a_file_that_is_there(self):
        top = pathlib.Path(claims.__file__).parents[1]
        for _, path, _ in claims.CLAIMS:
            self.assertTrue((top / path).exists(), path)


if __name__ == '__main__':
    unittest.main()
