"""The table of the functions that touch the machine, of made-up crates."""
import pathlib
import unittest

from scratch import Scratch, printed

import touches
from made import END, begin_of

CRATES = 'pure:\nlow: toml\nkmipctl: low pure\n\n# tests\ntest_low: low\n'
LOW = '''//! Calls fs::open(..).
use std::fs::{self, Files, metadata};
use std::net::{
    Net, OpenStream,
};

/// Opens by fs::rename(..).
pub fn open(rt: &R) -> io::Result<File>
    ensures told { result ≡ result }
{
    // rt.bind(address)
    fs::open(rt, "path")
}

fn is_there(rt: &R, path: &str) -> bool {
    metadata(rt, path).is_ok()
}

fn name_of(path: &str) -> &str {
    path.metadata(1)
}
'''
DOOR = '''use std::net::TcpListener;
use std::time::Instant;

pub(crate) struct Door<'a, R> {
    rt: &'a R,
    listener: TcpListener,
    stream: Printer<'a, HostRuntime>,
    other: Printer<'a, R>,
    /// At most.
    limit: u32,
}

pub trait Opens {
    fn stay(&self);

    fn wait(&self) {
        thread::sleep(1);
    }
}

impl<'a, R: Files<File = File> + Net> Door<'a, R> {
    pub(crate) const fn new(rt: &'a R) -> Self {
        Door { rt, limit: 1 }
    }

    fn open(&mut self) {
        self.listener
            .register(self.limit);
        self.other.write(b"");
    }
}

impl<'a, R: Files<File = File>> Write for Door<'a, R>
{
    fn write(&mut self) -> Result<(), Fault> {
        self.stream.write(b"")
    }

    fn late(&self) {
        let _ = Instant::now(self.rt);
        let _ = self.rt
            .eprintln("late");
    }
}

impl<
    A,
> Opens for Door<'_, A> {
    fn stay(&self) {
        fs::read(self.rt);
    }
}

fn after(rt: &R) {
    rt.println("x");
}
'''
PAGE = f'A.\n\n{begin_of("tools/touches.py")}old\n{END}B.\n'
MAKEFILE = 'all: x\n\npeers: $(program)\n\t@x\n'
TRIALS = {
    'kmipctl': 'make peers', 'low door': 'make peers', 'low door Door::late': touches.UNCALLED,
    'low opening': 'test_low', 'low opening is_there': 'make peers'}


class Touches(Scratch):
    def setUp(self):
        super().setUp()
        self.addCleanup(setattr, touches, 'TRIALS', touches.TRIALS)
        touches.TRIALS = dict(TRIALS)
        self.write({
            'crates.txt': CRATES, 'docs/PROOF.md': PAGE, 'Makefile': MAKEFILE, 'crates/low/src/opening.rt': LOW,
            'crates/low/src/door.rt': DOOR,
            'crates/pure/src/lib.rt': 'fn draw(rng: &mut ChaCha) {\n    rng.fill_bytes(bytes);\n}\n',
            'crates/kmipctl/src/main.rt': 'fn main(rt: HostRuntime) {\n    rt.println("x");\n}\n',
            'crates/test_low/src/lib.rt': 'fn test(rt: &R) {\n    fs::open(rt, "path")\n}\n'})

    def faults(self):
        """What is told once the table is up to date."""
        self.assertEqual(touches.main([]), 0)
        count, lines = printed(touches.check_touches)
        self.assertEqual(count, len(lines))
        return [line.removeprefix('tools/touches.py: ') for line in lines]

    def test_the_functions_that_touch_a_thing(self):
        self.assertEqual(list(touches.touching(['low', 'pure'])), [
            ('low', 'door', 'Opens::wait', ['clock']), ('low', 'door', 'Door::open', ['sockets']),
            ('low', 'door', 'Door::write', ['input, output']),
            ('low', 'door', 'Door::late', ['standard error', 'clock']),
            ('low', 'door', 'Door::stay', ['files']), ('low', 'door', 'after', ['input, output']),
            ('low', 'opening', 'open', ['files']), ('low', 'opening', 'is_there', ['files'])])

    def test_the_owner_of_a_block(self):
        for header, owner in (
                ('impl<T: Read<A<B>> + Fn(u32) -> u32> Told<T> {', 'Told'), ('impl Door {', 'Door'),
                ('pub(crate) trait Opens {', 'Opens'), ("impl<'a, R> Write for Door<'a, R> {", 'Door')):
            self.assertEqual(touches.owner_of(header), owner)

    def test_it_is_written_and_then_up_to_date(self):
        self.assertEqual(printed(touches.check_touches), (
            1, ['docs/PROOF.md: its table of what touches the machine is out of date: run tools/touches.py']))
        self.assertEqual(touches.main([]), 0)
        self.assertEqual(pathlib.Path('docs/PROOF.md').read_text(), PAGE.replace('old\n', (
            f'\n{touches.SAYS}\n\n'
            '| crate | file | functions | touch | trial |\n'
            '|---|---|---|---|---|\n'
            '| kmipctl | main | `main` | input, output | `make peers` |\n'
            '| low | door | `Opens::wait` | clock | `make peers` |\n'
            '|  |  | `Door::open` | sockets | `make peers` |\n'
            '|  |  | `Door::write`, `after` | input, output | `make peers` |\n'
            '|  |  | `Door::late` | standard error, clock | none: nothing calls it |\n'
            '|  |  | `Door::stay` | files | `make peers` |\n'
            '|  | opening | `open` | files | test_low |\n'
            '|  |  | `is_there` | files | `make peers` |\n')))
        self.assertEqual(printed(touches.check_touches), (0, []))
        self.assertEqual(printed(touches.main, ['--check']), (0, []))

    def test_the_functions_of_a_type_stand_behind_its_name(self):
        self.assertEqual(touches.joined(['Door::open', 'close', 'Door::shut']), '`Door::{open, shut}`, `close`')

    def test_a_function_without_a_trial(self):
        del touches.TRIALS['kmipctl']
        self.assertEqual(self.faults(), ['no trial is known of kmipctl main main, which touches input, output'])

    def test_an_entry_of_no_function_that_touches_anything(self):
        for entry in ('low opening name_of', 'low opening gone', 'low gone', 'pure', 'test_low', 'low'):
            touches.TRIALS = TRIALS | {entry: 'make peers'}
            self.assertEqual(self.faults(), [f'the entry {entry} is of no function that touches anything'])

    def test_a_trial_that_is_none(self):
        for trial in ('make gone', 'peers', 'test_gone', 'low', 'none'):
            touches.TRIALS = TRIALS | {'kmipctl': trial}
            self.assertEqual(self.faults(), [
                f'the trial of kmipctl is neither a target of the Makefile nor a crate of tests: {trial}'])
        self.assertEqual(printed(touches.main, ['--check'])[0], 1)

    def test_no_page_is_no_fault(self):
        (self.top / 'docs/PROOF.md').unlink()
        self.assertEqual(printed(touches.check_touches), (0, []))


if __name__ == '__main__':
    unittest.main()
