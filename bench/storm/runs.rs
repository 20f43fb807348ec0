//! Random plans, carried out in storms by runs that are killed and go on from old progress files: up to four
//! runs of one plan at once, each with a file of its own.

use crate::looks::Looks;
use crate::network::{Shared, Weather};
use crate::refreshes::{CONTRADICTED, Refreshes, are_at_targets, held};
use crate::serve;
use std::collections::HashMap;
use std::fs;
use std::io::{self, BufReader, Read, Write};
use std::path::{Path, PathBuf};
use std::process::{Child, Command, Output, Stdio};
use std::sync::atomic::Ordering;
use std::thread;
use std::time::Duration;

/// The targets of a plan, and the operations that lead to each.
pub const TARGETS: [(&str, &[u8]); 5] = [
    ("created", &[0x01]),
    ("active", &[0x01, 0x12]),
    ("revoked", &[0x01, 0x12, 0x13]),
    ("destroyed", &[0x01, 0x12, 0x13, 0x14]),
    ("discarded", &[0x01, 0x14]),
];

/// The state after each operation, as the server tells it: pre-active, active, deactivated and destroyed.
pub const OPERATIONS_STATES: [(u8, u32); 4] = [(0x01, 1), (0x12, 2), (0x13, 3), (0x14, 5)];

/// A plan: the names of its keys, and the target of each.
pub type Plan = Vec<(String, usize)>;

/// A random plan of one to six keys.
fn random_plan(shared: &Shared, number: u64) -> Plan {
    let count = 1 + shared.below(6);
    (0..count)
        .map(|key| (format!("plan{number}-key{key}"), shared.below(5) as usize))
        .collect()
}

/// The text of a plan.
pub fn text_of(plan: &Plan) -> String {
    let mut text = String::new();
    for (name, target) in plan {
        text += &format!(
            "[[key]]\nname = \"{name}\"\nalgorithm = \"AES\"\nlength = 256\nusage = [\"encrypt\", \"decrypt\"]\ntarget = \"{}\"\n\n",
            TARGETS[*target].0
        );
    }
    text
}

/// How many exchanges a plan may need: two more for each key than its target has steps.
pub fn bound(plan: &Plan) -> usize {
    plan.iter().map(|(_, target)| TARGETS[*target].1.len() + 2).sum()
}

/// The most runs of a plan at once.
const MOST_RUNS: u64 = 4;

/// The progress file of each run of a plan that is carried out by so many at once.
fn progress_files(folder: &Path, count: u64) -> Vec<PathBuf> {
    (0..count).map(|number| folder.join(format!("progress{number}"))).collect()
}

/// Removes each progress file that a plan before may have left, with what lies beside it.
fn remove_files(folder: &Path) {
    for progress in progress_files(folder, MOST_RUNS) {
        for behind in ["", ".origin", ".new", ".before"] {
            let _ = fs::remove_file(format!("{}{behind}", progress.display()));
        }
    }
}

/// A run of a plan, with one more option or none. Its messages ask about so many keys at most as the storm draws.
pub fn start(
    shared: &Shared,
    program: &Path,
    folder: &Path,
    progress: &Path,
    port: u16,
    limit: usize,
    option: Option<&str>,
) -> io::Result<Child> {
    let batch = 1 + shared.below(8);
    Command::new(program)
        .args(["run", "--plan"])
        .arg(folder.join("plan.toml"))
        .arg("--progress")
        .arg(progress)
        .arg("--connect")
        .arg(format!("127.0.0.1:{port}"))
        .args(["--limit", &limit.to_string(), "--batch", &batch.to_string()])
        .args(["--timeout", &shared.patience().to_string(), "--wait", "1"])
        .args(option)
        .stdout(Stdio::piped())
        .stderr(Stdio::null())
        .spawn()
}

/// Whether a progress is whole: its head, a line a key, and its end.
fn is_whole(text: &str, plan: &Plan) -> bool {
    let lines: Vec<&str> = text.lines().collect();
    text.ends_with('\n')
        && lines.len() == plan.len() + 2
        && lines[0] == "kmip-progress 2"
        && lines[plan.len() + 1] == format!("end {}", plan.len())
}

/// What went on.
#[derive(Default)]
struct Tally {
    /// Plans that were carried out by several runs at once.
    together: u64,
    kills: u64,
    ends: u64,
    restores: u64,
    removals: u64,
    wrong: u64,
}

/// Kills a run that has not ended, and looks at the output of one that has.
fn end_run(shared: &Shared, plan: &Plan, mut run: Child, tally: &mut Tally) -> io::Result<()> {
    if run.try_wait()?.is_some() {
        tally.ends += 1;
        return judge(shared, plan, &run.wait_with_output()?, tally);
    }
    run.kill()?;
    run.wait()?;
    tally.kills += 1;
    Ok(())
}

/// Says what is wrong with a run that ended. The server contradicts none, and has each key at its target if the run
/// succeeded.
fn judge(shared: &Shared, plan: &Plan, output: &Output, tally: &mut Tally) -> io::Result<()> {
    let text = String::from_utf8_lossy(&output.stdout);
    if text.starts_with(CONTRADICTED) {
        println!("wrong: a contradiction of the same server: {text}");
        tally.wrong += 1;
    }
    if output.status.success() && !are_at_targets(&held(shared.server())?, plan) {
        println!("wrong: a run that succeeds, but not all keys are finished: {text}");
        tally.wrong += 1;
    }
    Ok(())
}

/// Looks whether a progress is whole, and puts back an older one, which any run may have saved, or removes it.
fn disturb_file(
    shared: &Shared,
    plan: &Plan,
    progress: &Path,
    old: &mut Vec<String>,
    tally: &mut Tally,
) -> io::Result<()> {
    match fs::read_to_string(progress) {
        Ok(text) if is_whole(&text, plan) => old.push(text),
        Ok(text) => {
            println!("wrong: a progress that is not whole: {text:?}");
            tally.wrong += 1;
        }
        Err(_) => {}
    }
    match shared.below(4) {
        0 if !old.is_empty() => {
            let text = &old[shared.below(old.len() as u64) as usize];
            fs::write(progress, text)?;
            tally.restores += 1;
        }
        1 => {
            let _ = fs::remove_file(progress);
            tally.removals += 1;
        }
        _ => {}
    }
    Ok(())
}

/// One of four runs of the plan itself is begun with `--refresh`.
fn refresh_or_none(shared: &Shared) -> Option<&'static str> {
    (shared.below(4) == 0).then_some("--refresh")
}

/// Carries one plan through a storm and then to its end, by one to four runs at once. Returns the different
/// progress files that there were. The last one is finished.
fn carry_plan(
    shared: &Shared,
    program: &Path,
    folder: &Path,
    port: u16,
    plan: &Plan,
    tally: &mut Tally,
    looks: &mut Looks,
) -> io::Result<Vec<String>> {
    remove_files(folder);
    let files = progress_files(folder, 1 + shared.below(MOST_RUNS));
    tally.together += u64::from(files.len() > 1);
    fs::write(folder.join("plan.toml"), text_of(plan))?;
    let mut old = Vec::new();
    shared.is_calm.store(false, Ordering::SeqCst);
    for _ in 0..2 + shared.below(6) {
        let start =
            |progress: &PathBuf| start(shared, program, folder, progress, port, 10_000, refresh_or_none(shared));
        let runs = files.iter().map(start).collect::<io::Result<Vec<Child>>>()?;
        looks.begin(shared, program, folder, port, plan)?;
        thread::sleep(Duration::from_micros(500 + shared.below(40_000)));
        for run in runs {
            end_run(shared, plan, run, tally)?;
        }
        for progress in &files {
            disturb_file(shared, plan, progress, &mut old, tally)?;
        }
    }
    looks.end(plan)?;
    // The storm ends: what killed runs have sent comes to its end, and what was delayed.
    shared.end_storm(port)?;
    shared.is_calm.store(true, Ordering::SeqCst);
    finish(shared, program, folder, &files, port, plan, tally)?;
    looks.end_in_calm(shared, program, folder, port, plan)?;
    Ok(all_different(old, fs::read_to_string(&files[0])?))
}

/// The different ones of old progress files, with a last one.
fn all_different(mut old: Vec<String>, last: String) -> Vec<String> {
    old.sort();
    old.dedup();
    old.retain(|text| *text != last);
    old.push(last);
    old
}

/// Finishes a plan in a calm by its runs, all at once. One alone needs no more exchanges than the plan's bound, and
/// one amid others at most twice as many.
fn finish(
    shared: &Shared,
    program: &Path,
    folder: &Path,
    files: &[PathBuf],
    port: u16,
    plan: &Plan,
    tally: &mut Tally,
) -> io::Result<()> {
    let limit = if files.len() > 1 { 2 * bound(plan) } else { bound(plan) };
    let start = |progress: &PathBuf| start(shared, program, folder, progress, port, limit, refresh_or_none(shared));
    let runs = files.iter().map(start).collect::<io::Result<Vec<Child>>>()?;
    for run in runs {
        let output = run.wait_with_output()?;
        judge(shared, plan, &output, tally)?;
        if !output.status.success() {
            println!("wrong: not finished within {limit}:");
            print!("{}", String::from_utf8_lossy(&output.stdout));
            tally.wrong += 1;
        }
    }
    Ok(())
}

/// The value of the first line of a shown item with this tag and type.
fn shown<'a>(text: &'a str, tag: &str) -> Option<&'a str> {
    text.lines()
        .find_map(|line| line.trim_start().strip_prefix(tag))
        .map(str::trim)
}

/// The operations that succeeded for each name, in order, as `kmipctl show` tells the replies.
fn effects(program: &Path, replies: &[Vec<u8>]) -> io::Result<HashMap<String, Vec<u8>>> {
    let mut show = Command::new(program)
        .arg("show")
        .stdin(Stdio::piped())
        .stdout(Stdio::piped())
        .spawn()?;
    let mut input = show.stdin.take().unwrap();
    let lines: Vec<String> = replies
        .iter()
        .map(|reply| reply.iter().map(|byte| format!("{byte:02x}")).collect())
        .collect();
    let writer = thread::spawn(move || {
        for line in lines {
            let _ = writeln!(input, "{line}");
        }
    });
    let mut text = String::new();
    BufReader::new(show.stdout.take().unwrap()).read_to_string(&mut text)?;
    writer.join().unwrap();
    show.wait()?;
    let mut effects: HashMap<String, Vec<u8>> = HashMap::new();
    for item in text.split("42000F Structure").skip(1) {
        let id = shown(item, "420093 ByteString").unwrap_or("");
        let is_done = shown(item, "42007F Enumeration") == Some("00000000");
        let bytes: Vec<u8> = (0..id.len() / 2)
            .filter_map(|place| u8::from_str_radix(&id[2 * place..2 * place + 2], 16).ok())
            .collect();
        if let Some((operation, name)) = bytes.split_first() {
            if is_done && [0x01, 0x12, 0x13, 0x14].contains(operation) {
                let name = String::from_utf8_lossy(name).into_owned();
                effects.entry(name).or_default().push(*operation);
            }
        }
    }
    Ok(effects)
}

/// Carries plans through storms, each to a server of its own, and says how much was wrong.
pub fn carry_plans(
    shared: &Shared,
    program: &Path,
    folder: &Path,
    port: u16,
    plans: u64,
    seed: u64,
) -> io::Result<u64> {
    let mut tally = Tally::default();
    let mut looks = Looks::default();
    let mut refreshes = Refreshes::new(shared, program, folder, port);
    let mut all = Vec::new();
    for number in 0..plans {
        let plan = random_plan(shared, number);
        let server = serve(program)?;
        shared.exchange(server.port);
        let files = carry_plan(shared, program, folder, port, &plan, &mut tally, &mut looks)?;
        refreshes.refresh_plan(seed_of(seed, number), &plan, &server, &files)?;
        all.extend(plan);
    }
    let replies = shared.replies.lock().unwrap();
    let effects = effects(program, &replies)?;
    for (name, target) in &all {
        let done = effects.get(name).map_or(&[][..], |done| done.as_slice());
        if done != TARGETS[*target].1 {
            println!("wrong: {name}, {}: {done:02x?}", TARGETS[*target].0);
            tally.wrong += 1;
        }
    }
    if effects.len() != all.len() {
        println!("wrong: steps of {} names, where the plans have {}", effects.len(), all.len());
        tally.wrong += 1;
    }
    report(shared, plans, all.len(), replies.len(), &tally);
    println!("{} looks, {} keys told and {} not told", looks.made, looks.told, looks.untold);
    Ok(tally.wrong + looks.wrong + refreshes.report())
}

/// The seed of what is drawn for a plan after it is finished.
fn seed_of(seed: u64, number: u64) -> u64 {
    seed.wrapping_mul(0x9e37_79b9_7f4a_7c15) ^ (number + 1).wrapping_mul(0xbf58_476d_1ce4_e5b9)
}

/// Says what went on.
fn report(shared: &Shared, plans: u64, keys: usize, replies: usize, tally: &Tally) {
    let counts = shared.counts.lock().unwrap();
    let count = |weather| counts.get(&weather).copied().unwrap_or(0);
    println!("{plans} plans of {keys} keys, {} by several runs at once, {replies} replies of the server", tally.together);
    println!(
        "{} requests lost, {} replies lost, {} delayed, {} doubled, {} requests and {} replies cut, {} garbled",
        count(Weather::LoseRequest),
        count(Weather::LoseReply),
        count(Weather::Delay),
        count(Weather::Double),
        count(Weather::CutRequest),
        count(Weather::CutReply),
        count(Weather::Reset),
    );
    println!(
        "{} runs killed and {} ended in the storm, {} progress files put back and {} removed",
        tally.kills, tally.ends, tally.restores, tally.removals
    );
}
