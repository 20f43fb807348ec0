//! Looks amid the runs of a storm: what is told of a key never goes back, and no look tells of a conflict.

use crate::network::Shared;
use crate::runs::{Plan, TARGETS};
use std::collections::HashMap;
use std::io;
use std::path::Path;
use std::process::{Child, Command, Output, Stdio};

/// The state after each operation that a key's way may have.
const STATES: [(u8, &str); 4] = [
    (0x01, "PreActive"),
    (0x12, "Active"),
    (0x13, "Deactivated"),
    (0x14, "Destroyed"),
];

/// What looks told, and what was wrong.
#[derive(Default)]
pub struct Looks {
    /// The look that goes on, if one does.
    under_way: Option<Child>,
    /// How many steps each key had had when it was told of last.
    places: HashMap<String, usize>,
    pub made: u64,
    pub told: u64,
    pub untold: u64,
    pub wrong: u64,
}

/// After how many operations of its way a key is in the state of a word; none where its way does not lead there.
fn place_of(target: usize, word: &str) -> Option<usize> {
    let (_, operations) = TARGETS[target];
    let (operation, _) = STATES.iter().find(|(_, state)| *state == word)?;
    Some(operations.iter().position(|own| own == operation)? + 1)
}

/// The words of a look at the keys of the plan in the folder, over a connection to this port.
fn words(shared: &Shared, program: &Path, folder: &Path, port: u16) -> Command {
    let patience = shared.patience();
    let mut look = Command::new(program);
    look.args(["look", "--plan"])
        .arg(folder.join("plan.toml"))
        .args(["--connect", &format!("127.0.0.1:{port}")])
        .args(["--batch", &(1 + shared.below(8)).to_string()])
        .args(["--timeout", &patience.to_string(), "--give-up", &(3 * patience).to_string()])
        .stdout(Stdio::piped())
        .stderr(Stdio::null());
    look
}

impl Looks {
    /// Begins a look, unless one goes on.
    pub fn begin(&mut self, shared: &Shared, program: &Path, folder: &Path, port: u16, plan: &Plan) -> io::Result<()> {
        if let Some(look) = &mut self.under_way {
            if look.try_wait()?.is_none() {
                return Ok(());
            }
        }
        self.end(plan)?;
        self.under_way = Some(words(shared, program, folder, port).spawn()?);
        Ok(())
    }

    /// Waits for the look that goes on, and takes what it tells.
    pub fn end(&mut self, plan: &Plan) -> io::Result<()> {
        if let Some(look) = self.under_way.take() {
            let output = look.wait_with_output()?;
            self.take(plan, &output);
        }
        Ok(())
    }

    /// Looks once more where nothing is disturbed and all is done: each key has to be told as finished.
    pub fn end_in_calm(&mut self, shared: &Shared, program: &Path, folder: &Path, port: u16, plan: &Plan) -> io::Result<()> {
        let output = words(shared, program, folder, port).output()?;
        self.take(plan, &output);
        let text = String::from_utf8_lossy(&output.stdout);
        let finished = text.lines().filter(|line| line.ends_with(" finished")).count();
        if !output.status.success() || finished != plan.len() {
            self.say_wrong("a look at finished keys", &text);
        }
        Ok(())
    }

    /// Takes what a look told: a line a key, in the order of the plan, and their count.
    fn take(&mut self, plan: &Plan, output: &Output) {
        let text = String::from_utf8_lossy(&output.stdout);
        self.made += 1;
        if text.lines().count() != plan.len() + 1 {
            self.say_wrong("a look with other lines", &text);
            return;
        }
        for ((name, target), line) in plan.iter().zip(text.lines()) {
            self.take_line(name, *target, line);
        }
    }

    /// Takes the line of a key: its name, its target, its identifier, and how it stands.
    fn take_line(&mut self, name: &str, target: usize, line: &str) {
        let mut words = line.splitn(4, ' ');
        let head = (words.next(), words.next());
        words.next();
        let stands = words.next().unwrap_or("");
        if head != (Some(name), Some(TARGETS[target].0)) {
            self.say_wrong("a line of another key", line);
        } else if stands.starts_with("not told: ") {
            self.untold += 1;
        } else {
            let state = stands.split(' ').next().unwrap_or("");
            let place = if stands.starts_with("none to do:") { Some(0) } else { place_of(target, state) };
            self.take_place(name, place, line);
        }
    }

    /// Takes how many steps a key has had: no fewer than were told before.
    fn take_place(&mut self, name: &str, place: Option<usize>, line: &str) {
        let before = self.places.get(name).copied().unwrap_or(0);
        match place {
            Some(place) if place >= before => {
                self.told += 1;
                self.places.insert(name.to_owned(), place);
            }
            _ => self.say_wrong("a key that went back, or is in conflict", line),
        }
    }

    fn say_wrong(&mut self, what: &str, text: &str) {
        println!("wrong: {what}: {text}");
        self.wrong += 1;
    }
}
