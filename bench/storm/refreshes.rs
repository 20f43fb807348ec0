//! Runs with `--refresh` after the server was changed behind a progress file, through storms. What they say is
//! judged by what the server holds. The server itself is asked that, without the program and the network.
//!
//! For each trial one progress file is put there, finished or older. By the file and by what the server holds a run
//! has to finish, to contradict the file, or to stop with a conflict. Some runs in a storm are killed; those that end
//! have to do that, and so has the one in the calm behind it.

use crate::network::{Random, Shared, read_message};
use crate::runs::{OPERATIONS_STATES, Plan, TARGETS, bound, start, text_of};
use crate::{Server, serve};
use std::fs;
use std::io::{self, Write};
use std::net::TcpStream;
use std::path::{Path, PathBuf};
use std::process::{Child, Command, Output, Stdio};
use std::sync::atomic::Ordering;
use std::thread;
use std::time::{Duration, Instant};

/// The tags of a request for attributes.
const REQUEST: u32 = 0x420078;
const REQUEST_HEADER: u32 = 0x420077;
const VERSION: u32 = 0x420069;
const MAJOR: u32 = 0x42006a;
const MINOR: u32 = 0x42006b;
const BATCH_COUNT: u32 = 0x42000d;
const BATCH_ITEM: u32 = 0x42000f;
const OPERATION: u32 = 0x42005c;
const REQUEST_PAYLOAD: u32 = 0x420079;
const IDENTIFIER: u32 = 0x420094;

/// The tags of its reply.
const RESPONSE: u32 = 0x42007b;
const STATUS: u32 = 0x42007f;
const RESPONSE_PAYLOAD: u32 = 0x42007c;
const ATTRIBUTES: u32 = 0x420125;
const NAME: u32 = 0x420053;
const NAME_VALUE: u32 = 0x420055;
const STATE: u32 = 0x42008d;
const OBJECT_TYPE: u32 = 0x420057;
const ALGORITHM: u32 = 0x420028;
const LENGTH: u32 = 0x42002a;
const MASK: u32 = 0x42002c;

/// The types of items.
const STRUCTURE: u8 = 1;
const INTEGER: u8 = 2;
const ENUMERATION: u8 = 5;
const TEXT: u8 = 7;

const GET_ATTRIBUTES: u32 = 0x0b;

/// What each key of a plan is: a symmetric key, AES, 256 bits, to encrypt and to decrypt.
const PLANNED: [u32; 4] = [2, 3, 256, 0x0c];

/// How a run begins its output when the server contradicts its progress file.
pub const CONTRADICTED: &str = "progress of another server";

/// How often a plan is refreshed at most.
const MOST_REFRESHES: u64 = 3;

/// The file beside the progress file of the runs.
const ORIGIN: &str = "progress0.origin";

/// What takes longer in a storm never ends.
const LONGEST: Duration = Duration::from_secs(60);

/// An object that a server holds.
#[derive(Clone, Debug, PartialEq, Eq)]
pub struct Object {
    identifier: String,
    name: String,
    state: u32,
    /// Its type, algorithm, length and usage.
    attributes: [u32; 4],
}

fn item(tag: u32, kind: u8, value: &[u8]) -> Vec<u8> {
    let mut bytes = tag.to_be_bytes()[1..].to_vec();
    bytes.push(kind);
    bytes.extend((value.len() as u32).to_be_bytes());
    bytes.extend(value);
    bytes.resize(8 + value.len().next_multiple_of(8), 0);
    bytes
}

fn number(tag: u32, kind: u8, value: u32) -> Vec<u8> {
    item(tag, kind, &value.to_be_bytes())
}

/// A request for the attributes of the object with this identifier.
fn question(identifier: &str) -> Vec<u8> {
    let version = [number(MAJOR, INTEGER, 2), number(MINOR, INTEGER, 1)].concat();
    let header = [item(VERSION, STRUCTURE, &version), number(BATCH_COUNT, INTEGER, 1)].concat();
    let payload = item(IDENTIFIER, TEXT, identifier.as_bytes());
    let asked = [number(OPERATION, ENUMERATION, GET_ATTRIBUTES), item(REQUEST_PAYLOAD, STRUCTURE, &payload)].concat();
    let parts = [item(REQUEST_HEADER, STRUCTURE, &header), item(BATCH_ITEM, STRUCTURE, &asked)].concat();
    item(REQUEST, STRUCTURE, &parts)
}

/// The value of the first item with this tag.
fn value_of(bytes: &[u8], tag: u32) -> Option<&[u8]> {
    let mut rest = bytes;
    while rest.len() >= 8 {
        let size = u32::from_be_bytes(rest[4..8].try_into().ok()?) as usize;
        let value = rest.get(8..8 + size)?;
        if rest[..3] == tag.to_be_bytes()[1..] {
            return Some(value);
        }
        rest = rest.get(8 + size.next_multiple_of(8)..)?;
    }
    None
}

/// The value of the item at the end of a way through Structures.
fn value_at<'a>(bytes: &'a [u8], way: &[u32]) -> Option<&'a [u8]> {
    way.iter().try_fold(bytes, |inner, tag| value_of(inner, *tag))
}

fn number_at(bytes: &[u8], way: &[u32]) -> Option<u32> {
    Some(u32::from_be_bytes(value_at(bytes, way)?.get(..4)?.try_into().ok()?))
}

/// The object that the payload of a reply tells of.
fn object_in(payload: &[u8]) -> Option<Object> {
    let own = |tag| number_at(payload, &[ATTRIBUTES, tag]);
    Some(Object {
        identifier: String::from_utf8(value_of(payload, IDENTIFIER)?.to_vec()).ok()?,
        name: String::from_utf8(value_at(payload, &[ATTRIBUTES, NAME, NAME_VALUE])?.to_vec()).ok()?,
        state: own(STATE)?,
        attributes: [own(OBJECT_TYPE)?, own(ALGORITHM)?, own(LENGTH)?, own(MASK)?],
    })
}

/// All that a server holds: its identifiers are 1 and so on.
pub fn held(server: u16) -> io::Result<Vec<Object>> {
    let mut stream = TcpStream::connect(("127.0.0.1", server))?;
    let mut objects = Vec::new();
    loop {
        stream.write_all(&question(&(objects.len() + 1).to_string()))?;
        let reply = read_message(&mut stream)?.ok_or_else(|| io::Error::from(io::ErrorKind::UnexpectedEof))?;
        let status = number_at(&reply, &[RESPONSE, BATCH_ITEM, STATUS]);
        let told = value_at(&reply, &[RESPONSE, BATCH_ITEM, RESPONSE_PAYLOAD]).and_then(object_in);
        match (status, told) {
            (Some(0), Some(object)) => objects.push(object),
            (Some(1), None) => return Ok(objects),
            (status, told) => return Err(io::Error::other(format!("the server replied {status:?} {told:?}"))),
        }
    }
}

/// After how many steps of the way to a target an object is in this state.
fn place_of(target: usize, state: u32) -> Option<usize> {
    let leads = |operation: &u8| OPERATIONS_STATES.contains(&(*operation, state));
    Some(TARGETS[target].1.iter().position(leads)? + 1)
}

/// The objects of this name.
fn named<'a>(held: &'a [Object], name: &str) -> Vec<&'a Object> {
    held.iter().filter(|object| object.name == name).collect()
}

/// Whether the one object of a name is at the target.
fn is_at_target(held: &[Object], name: &str, target: usize) -> bool {
    match named(held, name).as_slice() {
        [object] => place_of(target, object.state) == Some(TARGETS[target].1.len()),
        [] | [_, _, ..] => false,
    }
}

/// Whether each key of the plan is at its target.
pub fn are_at_targets(held: &[Object], plan: &Plan) -> bool {
    plan.iter().all(|(name, target)| is_at_target(held, name, *target))
}

/// What a progress file says of a key: its steps, and its identifier.
type Known = Option<(usize, String)>;

/// What a progress says of each key, where it knows an identifier.
fn known_in(progress: &str) -> Vec<Known> {
    let keys = progress.lines().filter(|line| !line.starts_with("kmip-progress ") && !line.starts_with("end "));
    keys.map(|line| {
        let words: Vec<&str> = line.split(' ').collect();
        let bytes = (0..words[4].len() / 2).map(|place| u8::from_str_radix(&words[4][2 * place..2 * place + 2], 16));
        let identifier = bytes.collect::<Result<Vec<u8>, _>>().ok()?;
        Some((words[3].parse().ok()?, String::from_utf8(identifier).ok()?)).filter(|(_, text)| !text.is_empty())
    })
    .collect()
}

/// How a server stands to what a file says of a key.
#[derive(PartialEq, Eq)]
enum Stand {
    /// The file knows no object of the key.
    Unknown,
    Agrees,
    /// Destroyed by the file, and the server has no object of the name.
    Gone,
    Contradicts,
}

fn stand_of(name: &str, target: usize, known: &Known, held: &[Object]) -> Stand {
    let Some((steps, identifier)) = known else {
        return Stand::Unknown;
    };
    let way = TARGETS[target].1;
    let is_destroyed = way.len() == *steps && way.ends_with(&[0x14]);
    let is_so = |object: &Object| {
        object.identifier == *identifier
            && object.attributes == PLANNED
            && place_of(target, object.state).is_some_and(|place| place >= *steps)
    };
    match named(held, name).as_slice() {
        [] if is_destroyed => Stand::Gone,
        [object] if is_so(object) => Stand::Agrees,
        [] | [_] | [_, _, ..] => Stand::Contradicts,
    }
}

/// How a run with `--refresh` has to end.
#[derive(Clone, Copy, Debug, PartialEq, Eq)]
enum Due {
    Finish,
    Contradiction,
    /// A key that the file does not know has an object whose state does not lead to the target.
    Conflict,
}

/// How a run from a progress file has to end, by what the server holds.
fn due_of(plan: &Plan, known: &[Known], held: &[Object]) -> Due {
    let stands: Vec<Stand> =
        plan.iter().zip(known).map(|((name, target), known)| stand_of(name, *target, known, held)).collect();
    let has = |stand| stands.contains(&stand);
    if has(Stand::Contradicts) || (has(Stand::Gone) && !has(Stand::Agrees)) {
        return Due::Contradiction;
    }
    let is_open = |(name, target): &(String, usize)| {
        named(held, name).iter().all(|object| place_of(*target, object.state).is_some())
    };
    if plan.iter().all(is_open) { Due::Finish } else { Due::Conflict }
}

/// How a run has to end that begins now. A run before may have saved more in the progress file. A file that is missing
/// knows nothing.
fn due_now(trial: &Trial) -> io::Result<Due> {
    let mut known = known_in(&fs::read_to_string(&trial.progress).unwrap_or_default());
    if matches!(trial.asked, Asked::NoOrigin) && trial.progress.with_file_name(ORIGIN).exists() {
        // A run before has compared all, so this one does not.
        known.fill(None);
    }
    Ok(due_of(trial.plan, &known, &held(trial.server)?))
}

/// What another server has of the objects of the one before.
#[derive(Clone, Copy, Debug)]
enum Kept {
    All,
    /// All, of which some are in earlier states.
    Earlier,
    Half,
    AllButLast,
    None,
}

/// How the server is changed behind the progress file.
#[derive(Clone, Copy, Debug)]
enum Change {
    Nothing,
    /// Others take keys beyond their targets.
    ByOthers,
    /// Another server that has some objects under the same identifiers. It is as if this one had lost the rest.
    Loses(Kept),
    /// Another server that has some objects of the same names under other identifiers.
    Exchanged(Kept),
    /// The first server is back.
    Back,
}

const CHANGES: [Change; 14] = [
    Change::Nothing,
    Change::ByOthers,
    Change::ByOthers,
    Change::Loses(Kept::None),
    Change::Loses(Kept::Half),
    Change::Loses(Kept::Half),
    Change::Loses(Kept::AllButLast),
    Change::Loses(Kept::All),
    Change::Loses(Kept::Earlier),
    Change::Loses(Kept::Earlier),
    Change::Exchanged(Kept::All),
    Change::Exchanged(Kept::Half),
    Change::Exchanged(Kept::None),
    Change::Back,
];

/// The target whose way ends in a state.
fn target_in(state: u32) -> usize {
    (0..TARGETS.len()).find(|target| place_of(*target, state) == Some(TARGETS[*target].1.len())).unwrap_or(0)
}

/// The targets to which another client may take a key beyond its target.
fn targets_beyond(target: usize) -> Vec<usize> {
    let way = TARGETS[target].1;
    let is_beyond = |other: &usize| TARGETS[*other].1.len() > way.len() && TARGETS[*other].1.starts_with(way);
    (0..TARGETS.len()).filter(is_beyond).collect()
}

/// How a run is made to check its progress file.
#[derive(Clone, Copy, Debug)]
enum Asked {
    Refresh,
    /// By `--believe`, as the file is of another address.
    Believe,
    /// By no option, as it is not known which server the file is of.
    NoOrigin,
}

const ASKED: [Asked; 4] = [Asked::Refresh, Asked::Refresh, Asked::Believe, Asked::NoOrigin];

/// What went on.
#[derive(Default)]
struct Tally {
    plans: u64,
    refreshes: u64,
    kills: u64,
    ends: u64,
    contradictions: u64,
    finishes: u64,
    conflicts: u64,
    anew: u64,
    wrong: u64,
}

/// A progress file and the server behind it, before the runs.
struct Trial<'a> {
    plan: &'a Plan,
    change: Change,
    asked: Asked,
    progress: PathBuf,
    text: String,
    /// What is written of the server that the file was saved for.
    origin: Option<String>,
    known: Vec<Known>,
    server: u16,
    before: Vec<Object>,
    due: Due,
}

/// The refreshes of all plans.
pub struct Refreshes<'a> {
    shared: &'a Shared,
    program: &'a Path,
    folder: &'a Path,
    /// The port of the network.
    port: u16,
    random: Random,
    /// How many keys of other names there are.
    foreign: u64,
    tally: Tally,
}

impl<'a> Refreshes<'a> {
    pub fn new(shared: &'a Shared, program: &'a Path, folder: &'a Path, port: u16) -> Refreshes<'a> {
        Refreshes { shared, program, folder, port, random: Random::new(0), foreign: 0, tally: Tally::default() }
    }

    /// Changes the server of a finished plan, and refreshes, once or more. Any of these progress files may be there.
    pub fn refresh_plan(&mut self, seed: u64, plan: &Plan, server: &Server, files: &[String]) -> io::Result<()> {
        self.random = Random::new(seed);
        // The notes of the replies are of the plan itself.
        let notes = std::mem::take(&mut *self.shared.replies.lock().unwrap());
        let mut others = Vec::new();
        for _ in 0..1 + self.random.below(MOST_REFRESHES) {
            let change = CHANGES[self.random.below(CHANGES.len() as u64) as usize];
            let behind = others.last().map_or(server.port, |other: &Server| other.port);
            match change {
                Change::Nothing => {}
                Change::ByOthers => self.take_beyond(plan, behind)?,
                Change::Loses(kept) => others.push(self.other_server(plan, behind, kept, true)?),
                Change::Exchanged(kept) => others.push(self.other_server(plan, behind, kept, false)?),
                Change::Back => others.clear(),
            }
            let behind = others.last().map_or(server.port, |other| other.port);
            self.shared.exchange(behind);
            let trial = self.trial(plan, change, behind, files)?;
            self.refresh(&trial)?;
        }
        self.tally.plans += 1;
        *self.shared.replies.lock().unwrap() = notes;
        Ok(())
    }

    /// Carries out a plan of others on a server itself.
    fn run_of_others(&self, server: u16, plan: &Plan) -> io::Result<()> {
        let (path, progress) = (self.folder.join("others.toml"), self.folder.join("others"));
        fs::write(&path, text_of(plan))?;
        for behind in ["", ".origin"] {
            let _ = fs::remove_file(format!("{}{behind}", progress.display()));
        }
        Command::new(self.program)
            .args(["run", "--batch", "8", "--connect", &format!("127.0.0.1:{server}"), "--plan"])
            .arg(path)
            .arg("--progress")
            .arg(progress)
            .stdout(Stdio::null())
            .stderr(Stdio::null())
            .status()?;
        Ok(())
    }

    /// Others take about half of the keys beyond their targets.
    fn take_beyond(&mut self, plan: &Plan, server: u16) -> io::Result<()> {
        let mut further = Plan::new();
        for (name, target) in plan {
            let targets = targets_beyond(*target);
            if !targets.is_empty() && self.random.below(2) == 0 {
                further.push((name.clone(), targets[self.random.below(targets.len() as u64) as usize]));
            }
        }
        if further.is_empty() { Ok(()) } else { self.run_of_others(server, &further) }
    }

    /// A key of a name that no plan has.
    fn foreign_key(&mut self) -> (String, usize) {
        self.foreign += 1;
        (format!("foreign{}", self.foreign), 0)
    }

    /// Another server with some of the objects that a server has.
    fn other_server(&mut self, plan: &Plan, server: u16, kept: Kept, has_same: bool) -> io::Result<Server> {
        let other = serve(self.program)?;
        let mut copies = self.copies(plan, &held(server)?, kept, has_same);
        if !has_same {
            copies.reverse();
            for _ in 0..self.random.below(3) {
                copies.insert(0, self.foreign_key());
            }
        } else if matches!(kept, Kept::None) && self.random.below(2) == 0 {
            // It has lost all, and nobody else's keys came in their place.
            copies.clear();
        }
        if !copies.is_empty() {
            self.run_of_others(other.port, &copies)?;
        }
        let names = held(other.port)?.into_iter().map(|object| object.name);
        if !names.eq(copies.into_iter().map(|(name, _)| name)) {
            return Err(io::Error::other("the other server does not have the objects in their order"));
        }
        Ok(other)
    }

    /// The plan of another server's keys: what it has kept of these objects, and keys of other names for the rest,
    /// so that the identifiers stay as they are.
    fn copies(&mut self, plan: &Plan, objects: &[Object], kept: Kept, has_same: bool) -> Plan {
        let mut copies = Plan::new();
        for object in objects {
            let is_last = plan.last().is_some_and(|(name, _)| *name == object.name);
            let target = target_in(object.state);
            let copy = match kept {
                Kept::All => Some(target),
                Kept::Earlier if self.random.below(3) > 0 => Some(target),
                Kept::Earlier => Some(self.earlier(plan, &object.name).unwrap_or(target)),
                Kept::Half => (self.random.below(2) == 0).then_some(target),
                Kept::AllButLast => (!is_last).then_some(target),
                Kept::None => None,
            };
            match copy {
                Some(target) => copies.push((object.name.clone(), target)),
                None if has_same => copies.push(self.foreign_key()),
                None => {}
            }
        }
        copies
    }

    /// A target on the way to the key's own, if the plan has this key.
    fn earlier(&mut self, plan: &Plan, name: &str) -> Option<usize> {
        let (_, target) = plan.iter().find(|(own, _)| own == name)?;
        let way = TARGETS[*target].1;
        let begin = &way[..1 + self.random.below(way.len() as u64) as usize];
        TARGETS.iter().position(|(_, other)| *other == begin)
    }

    /// Puts one of the progress files there, and finds out what the server has.
    fn trial<'p>(&mut self, plan: &'p Plan, change: Change, server: u16, files: &[String]) -> io::Result<Trial<'p>> {
        let place = self.random.below(3 * files.len() as u64) as usize;
        let text = match (files.get(place), files.last()) {
            (Some(text), _) => text.clone(),
            (None, Some(text)) if self.random.below(2) == 0 => self.older(text),
            (None, Some(text)) => text.clone(),
            (None, None) => return Err(io::Error::other("there is no progress file")),
        };
        let asked = ASKED[self.random.below(ASKED.len() as u64) as usize];
        let progress = self.folder.join("progress0");
        fs::write(&progress, &text)?;
        let origin = self.put_origin(asked, plan)?;
        let (known, before) = (known_in(&text), held(server)?);
        let due = due_of(plan, &known, &before);
        Ok(Trial { plan, change, asked, progress, text, origin, known, server, before, due })
    }

    /// A progress that knows less of some keys than this one does.
    fn older(&mut self, text: &str) -> String {
        let mut older = String::new();
        for line in text.lines() {
            let words: Vec<&str> = line.split(' ').collect();
            let draw = self.random.below(3);
            match words.as_slice() {
                [name, target, reason, _, _] if draw == 0 => older += &format!("{name} {target} {reason} 0 -\n"),
                [name, target, reason, steps, identifier] if draw == 1 => {
                    let fewer = self.random.below(1 + steps.parse().unwrap_or(0));
                    older += &format!("{name} {target} {reason} {fewer} {identifier}\n");
                }
                [..] => older += &format!("{line}\n"),
            }
        }
        older
    }

    /// Writes which server the progress file was saved for, or that this is not known.
    fn put_origin(&self, asked: Asked, plan: &Plan) -> io::Result<Option<String>> {
        let path = self.folder.join(ORIGIN);
        let port = match asked {
            Asked::Refresh => self.port,
            // Another address.
            Asked::Believe => 1,
            Asked::NoOrigin => {
                let _ = fs::remove_file(path);
                return Ok(None);
            }
        };
        let keys: String = plan.iter().map(|(name, _)| format!("key {name} AES 256 0000000c\n")).collect();
        let text = format!("kmipctl origin 1\nserver tcp 127.0.0.1:{port}\nkept 1\n{keys}");
        fs::write(path, &text)?;
        Ok(Some(text))
    }

    /// Begins some runs in a storm, and one in the calm behind it.
    fn refresh(&mut self, trial: &Trial) -> io::Result<()> {
        self.shared.is_calm.store(false, Ordering::SeqCst);
        for _ in 0..1 + self.random.below(3) {
            let due = due_now(trial)?;
            let run = self.start(trial, 10_000)?;
            let is_awaited = self.random.below(3) == 0;
            let time = Duration::from_micros(500 + self.random.below(40_000));
            self.end(trial, due, run, if is_awaited { LONGEST } else { time })?;
        }
        self.shared.end_storm(self.port)?;
        self.shared.is_calm.store(true, Ordering::SeqCst);
        let (due, before) = (due_now(trial)?, held(trial.server)?);
        let output = self.start(trial, bound(trial.plan))?.wait_with_output()?;
        self.judge(trial, due, &output)?;
        if due == Due::Contradiction && held(trial.server)? != before {
            println!("wrong: a contradicted server has changed in a calm");
            self.tally.wrong += 1;
        }
        self.count(trial);
        Ok(())
    }

    fn count(&mut self, trial: &Trial) {
        self.tally.refreshes += 1;
        match trial.due {
            Due::Finish => self.tally.finishes += 1,
            Due::Contradiction => self.tally.contradictions += 1,
            Due::Conflict => self.tally.conflicts += 1,
        }
    }

    fn start(&self, trial: &Trial, limit: usize) -> io::Result<Child> {
        let option = match trial.asked {
            Asked::Refresh => Some("--refresh"),
            Asked::Believe => Some("--believe"),
            Asked::NoOrigin => None,
        };
        start(self.shared, self.program, self.folder, &trial.progress, self.port, limit, option)
    }

    /// Judges a run if it ends in this time, and kills it otherwise.
    fn end(&mut self, trial: &Trial, due: Due, mut run: Child, patience: Duration) -> io::Result<()> {
        let begin = Instant::now();
        while begin.elapsed() < patience {
            if run.try_wait()?.is_some() {
                self.tally.ends += 1;
                return self.judge(trial, due, &run.wait_with_output()?);
            }
            thread::sleep(Duration::from_millis(1));
        }
        run.kill()?;
        run.wait()?;
        self.tally.kills += 1;
        if patience == LONGEST {
            println!("wrong: {:?} after {:?}: a run that does not end", trial.asked, trial.change);
            self.tally.wrong += 1;
        }
        Ok(())
    }

    /// Compares what a run said with what was due and what the server has.
    fn judge(&mut self, trial: &Trial, due: Due, output: &Output) -> io::Result<()> {
        let after = held(trial.server)?;
        let text = String::from_utf8_lossy(&output.stdout);
        let mut faults = faults_of_end(due, &text, output.status.success());
        let origin = fs::read_to_string(self.folder.join(ORIGIN)).ok();
        let text_now = fs::read_to_string(&trial.progress).unwrap_or_default();
        let is_same_file = text_now == trial.text && origin == trial.origin;
        if trial.due == Due::Contradiction && !(is_same_file && after == trial.before) {
            faults.push("a contradicted server or progress file has changed".to_owned());
        }
        faults.extend(faults_of_words(trial, &text, output.status.success(), &after));
        let anew = made_anew(trial, &after);
        if anew > 0 {
            faults.push(format!("{anew} keys were made anew"));
        }
        if !faults.is_empty() {
            self.tally.wrong += 1;
            self.tally.anew += anew;
            println!("wrong: {:?} after {:?}: {}", trial.asked, trial.change, faults.join("; "));
            println!("{}before {:?}\nafter {after:?}\n{text}", trial.text, trial.before);
        }
        Ok(())
    }

    /// Says what went on, and how much was wrong.
    pub fn report(&self) -> u64 {
        let tally = &self.tally;
        println!(
            "{} plans refreshed {} times, {} runs killed and {} ended in the storm",
            tally.plans, tally.refreshes, tally.kills, tally.ends
        );
        println!(
            "{} contradictions found, {} plans finished and {} in conflict, {} keys made anew, {} wrong of these",
            tally.contradictions, tally.finishes, tally.conflicts, tally.anew, tally.wrong
        );
        tally.wrong
    }
}

/// What is wrong with how a run ended.
fn faults_of_end(due: Due, text: &str, is_success: bool) -> Vec<String> {
    let is_contradicted = text.starts_with(CONTRADICTED);
    let is_due = match due {
        Due::Finish => is_success && !is_contradicted,
        Due::Contradiction => !is_success && is_contradicted,
        Due::Conflict => !is_success && text.contains("\nstop Conflict "),
    };
    if is_due { Vec::new() } else { vec![format!("{due:?} was due")] }
}

/// What a run said to be finished that is not.
fn faults_of_words(trial: &Trial, text: &str, is_success: bool, after: &[Object]) -> Vec<String> {
    let mut faults = Vec::new();
    let count = trial.plan.len();
    let mut is_all = true;
    for ((name, target), known) in trial.plan.iter().zip(&trial.known) {
        let is_gone = stand_of(name, *target, known, after) == Stand::Gone;
        let is_finished = is_gone || is_at_target(after, name, *target);
        is_all &= is_finished;
        let begin = format!("{name} ");
        if !is_finished && text.lines().any(|line| line.starts_with(&begin) && line.ends_with(" finished")) {
            faults.push(format!("{name} is not finished"));
        }
    }
    let says_all = is_success || text.lines().any(|line| line == format!("finished {count} of {count}"));
    if says_all && !is_all {
        faults.push("not all keys are finished".to_owned());
    }
    faults
}

/// How many objects there are of names that the file knew, which were not there before.
fn made_anew(trial: &Trial, after: &[Object]) -> u64 {
    let is_new = |object: &&Object| trial.before.iter().all(|before| before.identifier != object.identifier);
    let of_known = trial.plan.iter().zip(&trial.known).filter(|(_, known)| known.is_some());
    of_known.map(|((name, _), _)| named(after, name).into_iter().filter(is_new).count() as u64).sum()
}
