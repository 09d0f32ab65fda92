//! Why registrations wait, by the exported `replay_reason` and `order_reason` and by the program `order_reason`.
//!
//!   reason worked                          answers worked out by hand, by both calls
//!   reason program PATH SEED COUNT         the same by the program, so many random jobs, and words that it must not take
//!   reason openings                        refusals of a whole list of calls, with nothing written
//!   reason lists SEED COUNT                lists, all registrations after each beginning, and lists of calls after it
//!   reason rust                            the lists of a text on standard input, beside the Rust's answers that stand there
//!   reason jobs SEED LISTS JOBS BYTES PATH..
//!                                          jobs of lists, of files, at the boundaries, random ones and random bytes,
//!                                          beside running them by `order_job`
//!   reason stack KB                        how much stack `order_reason` needs, which must be less (by
//!                                          `reason on SIZE FILE`, one call each)
//!   reason time PLACES                     how long `replay_reason` takes beside `replay_calls`
//!
//! Prints what was compared; with status 1, what differed.

mod made;
mod polled;
mod program;
mod ran;
mod rust;
mod time;
mod worked;

// Storage, lists and their refusals as the tests of sessions have them.
#[path = "../session/buffers.rs"]
#[allow(dead_code)]
mod buffers;
#[path = "../session/lists.rs"]
#[allow(dead_code)]
mod lists;
#[path = "../session/openings.rs"]
mod openings;
#[path = "../session/shapes.rs"]
#[allow(dead_code)]
mod shapes;
#[path = "../session/state.rs"]
#[allow(dead_code)]
mod state;
#[path = "../session/summary.rs"]
#[allow(dead_code)]
mod summary;
#[path = "../session/text.rs"]
#[allow(dead_code)]
mod text;

#[path = "../job/made.rs"]
#[allow(dead_code)]
mod boundaries;
#[path = "../reference/generate.rs"]
#[allow(dead_code)]
mod generate;
#[path = "../reference/jobs.rs"]
mod jobs;
#[path = "../reference/model.rs"]
#[allow(dead_code)]
mod model;
#[path = "../job/stack.rs"]
mod stack;
#[path = "../../bench/driver/workloads.rs"]
#[allow(dead_code)]
mod workloads;
// The proved calls by the Rust host's own declaration, layout and encoding.
#[path = "../../hosts/rust/src/calls.rs"]
#[allow(dead_code)]
mod calls;
#[path = "../../hosts/rust/src/layout.rs"]
#[allow(dead_code)]
mod layout;
#[path = "../../hosts/rust/src/sys.rs"]
#[allow(dead_code)]
mod sys;

use std::process::exit;

const USE: &str = "worked | program PATH SEED COUNT | openings | lists SEED COUNT | rust | \
                   jobs SEED LISTS JOBS BYTES PATH.. | stack KB | time PLACES";

/// A call with lists of its own.
type Call = calls::Call<Vec<u64>>;

/// The lane of an add; without one it is 0.
fn lane_of(call: &Call) -> u64 {
    match call {
        Call::AddInLane(lane, ..) => *lane,
        _ => 0,
    }
}

/// How many places stand in a call's lists.
fn list_numbers(call: &Call) -> usize {
    let lists = call.lists();
    lists.map_or(0, |(inputs, outputs)| inputs.len() + outputs.len())
}

fn main() {
    let words: Vec<String> = std::env::args().skip(1).collect();
    let words: Vec<&str> = words.iter().map(String::as_str).collect();
    let done = match words[..] {
        ["worked"] => worked::check(),
        ["program", path, seed, count] => program::check(path, number(seed), number(count)),
        ["openings"] => openings::check(&mut polled::opening(), &openings::SHORT).map(|told| told.trim().to_owned()),
        ["lists", seed, count] => polled::check(number(seed), number(count)),
        ["rust"] => rust::check(),
        ["jobs", seed, lists, jobs, bytes, ref paths @ ..] => {
            let counts = [lists, jobs, bytes].map(number);
            ran::check(number(seed), counts, paths)
        }
        ["stack", most] => stack::check(ran::stacked(), number(most) as usize),
        ["on", size, path] => return stack::on(number(size) as usize, path, ran::answered),
        ["time", places] => time::measure(number(places)),
        _ => fail(USE),
    };
    match done {
        Ok(message) => println!("reason: {message}"),
        Err(message) => {
            println!("DIFFERENCE: {message}");
            exit(1)
        }
    }
}

fn number(word: &str) -> u64 {
    word.parse().unwrap_or_else(|_| fail(&format!("not a number: {word}")))
}

/// What the reference model's generators call, too.
fn fail(message: &str) -> ! {
    eprintln!("reason: {message}");
    exit(2)
}
