//! Carries random plans by `kmipctl run` through a network that loses, repeats, delays and cuts messages,
//! kills the runs, puts back old progress files, and says whether any key was made twice or any step taken
//! twice or out of turn. Then `kmipctl probe` asks through the same network. Plain Rust, with std alone.
//!
//!     storm PROGRAM FOLDER PLANS SEED
//!
//! A proxy stands between the runs of a plan and one `kmipctl serve`. What the server answers is noted there, and
//! read at the end by `kmipctl show`. For each plan there are some stormy rounds: one to four runs are started at
//! once, each with a progress file of its own. Their messages ask about one to eight keys. Each is killed after a
//! random time if it has not ended. Between two rounds a progress file may be put back to an older copy of any
//! run, or removed. Then the storm ends: what was delayed is delivered or dropped. Each run is started once more,
//! all at once, and has to finish all keys: one alone within the plan's bound, one amid others within twice that.
//! One run of four is begun with `--refresh`. The server contradicts none.
//!
//! Amid the runs of a plan `kmipctl look` asks how its keys stand. What it tells of a key never goes back, and
//! is never a conflict; after the last run it tells each key as finished. No step is any look's.
//!
//! Then the server is changed behind the progress file, one to three times. It loses all keys, half or the last; it
//! is exchanged behind its address for one with other identifiers or other names; or others take keys beyond their
//! targets. Runs with `--refresh` follow, in a storm and in a calm. They are judged by what the server holds: none
//! succeeds or says `finished` of what is not so there, none changes a server that contradicts its file, and no key
//! that the file knows is made anew. If nothing contradicts, the plan is finished within its bound.
//!
//! Of as many probes no line may say no; and where the proxy makes the server break a rule, its line may
//! not say yes.

mod breaker;
mod looks;
mod network;
mod probes;
mod refreshes;
mod runs;

use crate::network::{Shared, proxy};
use crate::probes::probe_all;
use crate::runs::carry_plans;
use std::fs;
use std::io::{self, BufRead, BufReader};
use std::path::{Path, PathBuf};
use std::process::{Child, Command, ExitCode, Stdio};
use std::sync::Arc;

/// A server, which ends with this.
struct Server {
    child: Child,
    port: u16,
}

impl Drop for Server {
    fn drop(&mut self) {
        let _ = self.child.kill();
        let _ = self.child.wait();
    }
}

/// A server without objects.
fn serve(program: &Path) -> io::Result<Server> {
    let mut child = Command::new(program)
        .args(["serve", "--port", "0", "--connections", "4294967295", "--timeout", "60"])
        .stdout(Stdio::piped())
        .spawn()?;
    let mut line = String::new();
    BufReader::new(child.stdout.as_mut().unwrap()).read_line(&mut line)?;
    let port = line.trim().strip_prefix("listening ").and_then(|port| port.parse().ok());
    match port {
        Some(port) => Ok(Server { child, port }),
        None => Err(io::Error::other(format!("the server said {line:?}"))),
    }
}

fn storm(program: &Path, folder: &Path, plans: u64, seed: u64) -> io::Result<bool> {
    fs::create_dir_all(folder)?;
    let server = serve(program)?;
    let shared = Arc::new(Shared::new(server.port, seed));
    let port = proxy(Arc::clone(&shared))?;
    let mut wrong = carry_plans(&shared, program, folder, port, plans, seed)?;
    shared.exchange(server.port);
    wrong += probe_all(&shared, program, port, plans)?;
    println!("{wrong} wrong");
    Ok(wrong == 0)
}

fn main() -> ExitCode {
    let words: Vec<String> = std::env::args().collect();
    let [_, program, folder, plans, seed] = words.as_slice() else {
        eprintln!("usage: storm PROGRAM FOLDER PLANS SEED");
        return ExitCode::from(2);
    };
    let (Ok(plans), Ok(seed)) = (plans.parse(), seed.parse()) else {
        eprintln!("storm: PLANS and SEED are numbers");
        return ExitCode::from(2);
    };
    match storm(Path::new(program), &PathBuf::from(folder), plans, seed) {
        Ok(true) => ExitCode::SUCCESS,
        Ok(false) => ExitCode::from(1),
        Err(error) => {
            eprintln!("storm: {error}");
            ExitCode::from(1)
        }
    }
}
