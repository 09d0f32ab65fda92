//! Holds `replay_ascending` to the reference model, to the Rust, and to `replay_calls` on the calls that it accepts.
//!
//!   ascending runs OPENING        the runs of a text on standard input (oracle/FORMAT.md) that this word opens, `ascending`,
//!                                 or `session` for lists in the profile; the answers that stand beside the calls are compared
//!   ascending accepted SEED COUNT
//!                                 writes lists of accepted calls, as runs of an ordinary session
//!   ascending lists SEED COUNT    random lists, most of them with breaches
//!   ascending limits              the greatest lists of places
//!   ascending openings            refusals of a whole replay: 1, 2 and 15, with nothing written
//!
//! Prints what was compared; with status 1, what differed and the smallest such list found.

mod compared;
mod limits;
mod made;

// Storage, lists and their refusals as the tests of sessions have them.
#[path = "../session/buffers.rs"]
#[allow(dead_code)]
mod buffers;
#[path = "../session/lists.rs"]
#[allow(dead_code)]
mod lists;
#[path = "../session/openings.rs"]
mod openings;
#[path = "../session/state.rs"]
#[allow(dead_code)]
mod state;
#[path = "../session/summary.rs"]
mod summary;
#[path = "../session/text.rs"]
mod text;

#[path = "../reference/generate.rs"]
#[allow(dead_code)]
mod generate;
#[path = "../reference/model.rs"]
#[allow(dead_code)]
mod model;
// The proved calls by the Rust host's own declaration, layout and encoding.
#[path = "../../hosts/rust/src/calls.rs"]
#[allow(dead_code)]
mod calls;
#[path = "../../hosts/rust/src/layout.rs"]
#[allow(dead_code)]
mod layout;
#[path = "../../hosts/rust/src/sys.rs"]
#[allow(dead_code)]
mod sys;

use compared::{Replays, Under};
use std::io::BufRead;
use std::process::exit;

const USE: &str = "runs OPENING | accepted SEED COUNT | lists SEED COUNT | limits | openings";

/// A call with lists of its own.
type Call = calls::Call<Vec<u64>>;

/// The lane of an add; without one it is 0.
fn lane_of(call: &Call) -> u64 {
    match call {
        Call::AddInLane(lane, ..) => *lane,
        _ => 0,
    }
}

/// How many places stand in a call's lists.
fn list_numbers(call: &Call) -> usize {
    let lists = call.lists();
    lists.map_or(0, |(inputs, outputs)| inputs.len() + outputs.len())
}

fn main() {
    let words: Vec<String> = std::env::args().skip(1).collect();
    let words: Vec<&str> = words.iter().map(String::as_str).collect();
    let done = match words[..] {
        ["runs", "ascending"] => check_runs("ascending"),
        ["runs", "session"] => check_runs("session"),
        ["accepted", seed, count] => return made::write_accepted(number(seed), number(count)),
        ["lists", seed, count] => check_lists(number(seed), number(count)),
        ["limits"] => limits::check(),
        ["openings"] => check_openings(),
        _ => fail(USE),
    };
    match done {
        Ok(message) => println!("ascending: {message}"),
        Err(message) => {
            println!("DIFFERENCE: {message}");
            exit(1)
        }
    }
}

fn number(word: &str) -> u64 {
    word.parse().unwrap_or_else(|_| fail(&format!("not a number: {word}")))
}

/// What the reference model's generators call, too.
fn fail(message: &str) -> ! {
    eprintln!("ascending: {message}");
    exit(2)
}

fn check_runs(opening: &'static str) -> Result<String, String> {
    let (mut reader, mut replays) = (text::Reader::of(opening), Replays::new());
    for line in std::io::stdin().lock().lines() {
        let line = line.unwrap_or_else(|error| fail(&format!("the input can't be read: {error}")));
        let Some(run) = reader.take(&line).unwrap_or_else(|error| fail(&error)) else {
            continue;
        };
        let told = run.told.ok_or_else(|| format!("no answers beside the run at line {}", run.line))?;
        let checked = replays.check(&run.list, Some(&told));
        checked.map_err(|message| format!("the run at line {}: {message}", run.line))?;
    }
    match replays.met.lists {
        0 => Err("the text has no such run".to_owned()),
        _ => Ok(replays.met.text()),
    }
}

fn check_lists(seed: u64, count: u64) -> Result<String, String> {
    let mut replays = Replays::new();
    for i in 0..count {
        let list = made::list(seed, i);
        let Err(message) = replays.check(&list, None) else {
            continue;
        };
        let found = lists::shrink(&list, |list| replays.check(list, None).err());
        let (list, message) = found.unwrap_or((list, message));
        return Err(format!("{message}\nthe smallest list found:\n{}", compared::text(&list)));
    }
    replays.met.look_for_missing()?;
    Ok(replays.met.text())
}

/// By any W, which no refusal of a whole list looks at.
fn check_openings() -> Result<String, String> {
    let [slices @ .., buffers::Short::Waiting] = &openings::SHORT else {
        fail("the waiting storage is not the last slice")
    };
    let mut told = Err("no W".to_owned());
    for w in [0, 7, u64::MAX] {
        let mut under = Under::new();
        under.set(w);
        told = openings::check(&mut under.storage, slices);
        told.as_ref().map_err(|message| format!("W {w}: {message}"))?;
    }
    told.map(|told| told.trim().to_owned())
}
