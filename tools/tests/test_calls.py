"""Which calls of made-up crates the program reaches, and what a table of commands says of them."""
import unittest

from scratch import Scratch

import calls

PROGRAM = '''//! The program.
use low::{list_all as all, run_to};
use low::shown;

pub fn run_program(words: u32) {
    execute(words);
}

fn execute(words: u32) {
    low::run_plan(words);
    words.for_each(run_to);
    shown(words);
    words.check();
}

fn never(words: u32) {
    // low::run(words)
    low::run(words);
}
'''
LOW = '''//! Runs.
pub fn run(words: u32) {
    run_plan(words);
}

pub fn run_plan(words: u32) {
    deeper::<u32>(words);
}

fn deeper(words: u32) {
}

pub fn run_to(words: u32) {
}

pub fn check(words: u32) {
}
'''
TABLE = '''# A

## What this says of the commands

| command | calls |
|---|---|
| `run` | `low::run_plan`, with `run_to` |
| `list`, `show` | `low::check` |

## Next

| `other` | `low::run` |
'''


class Calls(Scratch):
    def setUp(self):
        super().setUp()
        self.write({'crates/kmip_program/src/lib.rt': PROGRAM, 'crates/low/src/lib.rt': 'pub use base::shown;\n\n' + LOW,
                    'crates/base/src/lib.rt': '/// Shows.\npub fn shown(words: u32) {\n}\n'})
        self.reached = calls.Crates(['base', 'low', 'kmip_program']).reached(calls.FIRST)

    def test_what_is_reached(self):
        self.assertEqual(sorted(self.reached), [
            ('base', 'shown'), ('kmip_program', 'execute'), ('kmip_program', 'run_program'), ('low', 'deeper'),
            ('low', 'run_plan'), ('low', 'run_to')])

    def test_a_table_that_is_so(self):
        text = TABLE.replace('low::check', 'base::shown')
        self.assertEqual(list(calls.faults_of(text, ['run', 'list', 'show'], self.reached)), [])

    def test_a_table_that_is_not_so(self):
        text = TABLE.replace('low::run_plan', 'low::run')
        self.assertEqual(list(calls.faults_of(text, ['run', 'show', 'serve'], self.reached)), [
            'docs/PROOF.md: `serve` has 0 rows below "What this says of the commands"',
            'docs/PROOF.md: the program has no command list',
            'docs/PROOF.md: the program does not call low::run', 'docs/PROOF.md: the program does not call low::check'])
        self.assertEqual(list(calls.faults_of(TABLE.replace('`run_to`', '`never`'), ['run', 'list', 'show'], self.reached)), [
            'docs/PROOF.md: the program does not call never', 'docs/PROOF.md: the program does not call low::check'])


if __name__ == '__main__':
    unittest.main()
