//! Probes through storms: of a server that keeps all rules, and of servers that break one each.

use crate::breaker::{BREACHES, Breach};
use crate::network::Shared;
use std::io;
use std::path::Path;
use std::process::Command;

/// How many of so many exchanges of a probe are disturbed: nine.
const SIDES: u64 = 60;

/// What the lines of the rules said.
#[derive(Default)]
struct Tally {
    yes: u64,
    no: u64,
    untold: u64,
    unbegun: u64,
}

/// What `probe` prints through a storm.
fn probe(
    shared: &Shared,
    program: &Path,
    port: u16,
    prefix: &str,
    breach: Option<Breach>,
) -> io::Result<String> {
    shared.begin_probe(SIDES, breach, prefix);
    let output = Command::new(program)
        .args(["probe", "--name-prefix", prefix, "--timeout", "2", "--connect"])
        .arg(format!("127.0.0.1:{port}"))
        .output()?;
    shared.end_storm(port)?;
    Ok(String::from_utf8_lossy(&output.stdout).into_owned())
}

/// The first line of a probe of this prefix that makes keys.
fn making(prefix: &str) -> String {
    format!("making two keys: {prefix}-1 and {prefix}-2\n")
}

/// What is said of each rule, behind the line of the keys: the line's beginning, and what stands behind it.
fn rules(text: &str) -> impl Iterator<Item = (&str, &str)> {
    text.lines().skip(1).take(8).filter_map(|line| line.split_once(": "))
}

/// Whether a look at a name was lost or refused, so that nothing was made.
fn is_unbegun(text: &str) -> bool {
    text.contains(" is free could not be told; nothing was made")
}

/// Counts what is said.
fn count(tally: &mut Tally, text: &str) {
    if is_unbegun(text) {
        tally.unbegun += 1;
        return;
    }
    for (_, said) in rules(text) {
        match said {
            "yes" => tally.yes += 1,
            "could not be told" => tally.untold += 1,
            _ => tally.no += 1,
        }
    }
}

/// Probes the server as often as there are plans, and servers that break one rule each half as often.
/// Says how much was wrong.
pub fn probe_all(shared: &Shared, program: &Path, port: u16, plans: u64) -> io::Result<u64> {
    let mut wrong = 0;
    let mut tally = Tally::default();
    for number in 0..plans {
        let prefix = format!("keeps{number}");
        let text = probe(shared, program, port, &prefix, None)?;
        count(&mut tally, &text);
        let begins = text.strip_prefix(&making(&prefix)).is_some_and(|rest| rest.starts_with("names are unique: "));
        if !(begins || is_unbegun(&text))
            || rules(&text).any(|(_, said)| said.starts_with("no ("))
        {
            println!("wrong: a server that keeps all rules:\n{text}");
            wrong += 1;
        }
    }
    say("of one that keeps all rules", plans, &tally);
    let mut tally = Tally::default();
    for (place, (breach, rule)) in BREACHES.iter().enumerate() {
        for number in 0..plans / 2 {
            let prefix = format!("breaks{place}{number}");
            let text = probe(shared, program, port, &prefix, Some(*breach))?;
            count(&mut tally, &text);
            if rules(&text).any(|(said_of, said)| said_of == *rule && said == "yes") {
                println!("wrong: {breach:?}:\n{text}");
                wrong += 1;
            }
        }
    }
    say("of those that break one", plans / 2 * BREACHES.len() as u64, &tally);
    Ok(wrong)
}

fn say(of: &str, probes: u64, tally: &Tally) {
    println!(
        "{probes} probes {of}, {} not begun: {} lines say yes, {} no, {} could not be told",
        tally.unbegun, tally.yes, tally.no, tally.untold
    );
}
