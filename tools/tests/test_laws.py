"""The calls of laws, and of what is no law, in made-up crates."""
import unittest

from scratch import Scratch, printed

import laws

LAWS = '''//! Laws.

/// All numbers are small. It does nothing.
pub fn numbers_are_small()
    ensures { AreSmall }
{}

/// A list is short. It does nothing.
pub(crate) fn a_list_is_short(list: &List)
    ensures { IsShort list.now }
{
    list.size(); // proof
}

/// A length.
pub fn size_of(list: &List) -> usize
    ensures { result ≡ length list.now }
{
BODY
    list.size()
}

impl List {
    pub fn size(&self) -> usize
        ensures { result ≡ length self.now }
    {
        self.items.len()
    }

    pub fn clear(&mut self) {
        self.items.clear();
    }
}
'''
FILE = 'crates/low/src/laws.rt'


class Laws(Scratch):
    def found_for(self, *body):
        self.write({FILE: LAWS.replace('BODY', '\n'.join('    ' + line for line in body))})
        faults, lines = printed(laws.check_laws)
        self.assertEqual(faults, len(lines))
        return lines

    def test_laws_and_what_changes_something(self):
        self.assertEqual(self.found_for('numbers_are_small(); // proof', 'a_list_is_short(list); // proof', 'list.clear();'), [])

    def test_a_law_that_is_called_without_a_word(self):
        self.assertEqual(self.found_for('numbers_are_small();'),
                         [f'{FILE}:19: numbers_are_small is a law: its call ends in `// proof`'])

    def test_what_is_called_for_its_contract_and_is_no_law(self):
        for line in 'list.size();', 'let _size = list.size();', 'list.size(); // proof':
            self.assertEqual(self.found_for(line),
                             [f'{FILE}:19: what size returns is dropped: a law says what this call is there for'])

    def test_a_call_that_is_no_proof(self):
        self.assertEqual(self.found_for('list.clear(); // proof'), [f'{FILE}:19: clear is no law, and its call no proof'])

    def test_a_law_of_a_trait(self):
        self.write({'crates/low/src/source.rt': '''//! A source.

pub trait Source {
    /// It ends.
    fn is_bounded(&self)
        ensures { IsBounded self.now };
}

impl Source for Reader {
    fn is_bounded(&self) {}
}

impl Source for Memory {
    fn is_bounded(&self) {
        self.bytes.len(); // proof
    }
}
'''})
        self.assertEqual(self.found_for('list.is_bounded();'),
                         [f'{FILE}:19: is_bounded is a law: its call ends in `// proof`'])


if __name__ == '__main__':
    unittest.main()
