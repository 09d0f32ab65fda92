//! Holds `replay_calls` and `replay_held` to the reference model and to the oracle.
//!
//!   session runs                 replays the sessions of a text on standard input (oracle/FORMAT.md);
//!                                the answers that stand beside the calls are compared too
//!   session shapes SEED COUNT    writes runs of chosen shapes: deep cascades, waiting, overfull spans
//!   session openings             refusals of a whole replay: 1, 2 and 15, with nothing written
//!   session limits               the greatest lists, and that the work stays linear
//!   session held SEED COUNT      what the window holds after every beginning of so many lists
//!   session lanes                lists as numbers with their lanes, and storage worked out by hand
//!
//! Prints what was compared; with status 1, what differed and the smallest such list found.

mod buffers;
mod held;
mod lanes;
mod limits;
mod lists;
mod openings;
mod shapes;
mod state;
mod summary;
mod text;

#[path = "../reference/generate.rs"]
#[allow(dead_code)]
mod generate;
#[path = "../reference/model.rs"]
#[allow(dead_code)]
mod model;
// The proved call by the Rust host's own declaration, layout and encoding.
#[path = "../../hosts/rust/src/calls.rs"]
#[allow(dead_code)]
mod calls;
#[path = "../../hosts/rust/src/layout.rs"]
#[allow(dead_code)]
mod layout;
#[path = "../../hosts/rust/src/sys.rs"]
#[allow(dead_code)]
mod sys;

use buffers::Buffers;
use lists::{Counts, List, Pair};
use std::io::BufRead;
use std::process::exit;

/// A call with lists of its own.
type Call = calls::Call<Vec<u64>>;

/// The lane of an add; without one it is 0.
fn lane_of(call: &Call) -> u64 {
    match call {
        Call::AddInLane(lane, ..) => *lane,
        _ => 0,
    }
}

/// How many places stand in a call's lists.
fn list_numbers(call: &Call) -> usize {
    let lists = call.lists();
    lists.map_or(0, |(inputs, outputs)| inputs.len() + outputs.len())
}

fn main() {
    let arguments: Vec<String> = std::env::args().skip(1).collect();
    let words: Vec<&str> = arguments.iter().map(|word| word.as_str()).collect();
    match words[..] {
        ["runs"] => compare_runs(),
        ["shapes", seed, count] => shapes::write(plain(seed), plain(count)),
        ["openings"] => report(openings::check(&mut Buffers::new(), &openings::SHORT)),
        ["limits"] => report(limits::check()),
        ["held", seed, count] => report(held::check(plain(seed), plain(count))),
        ["lanes"] => report(lanes::check()),
        _ => fail("use: runs | shapes SEED COUNT | openings | limits | held SEED COUNT | lanes"),
    }
}

pub fn fail(message: &str) -> ! {
    eprintln!("session: {message}");
    exit(2)
}

fn plain(word: &str) -> u64 {
    word.parse()
        .unwrap_or_else(|_| fail(&format!("`{word}` is no number")))
}

/// Prints what was compared, or what differed and ends.
fn report(result: Result<String, String>) {
    match result {
        Ok(message) => println!("{message}"),
        Err(message) => {
            println!("DIFFERENCE: {message}");
            exit(1)
        }
    }
}

/// How many differences are shown.
const SHOWN: u64 = 3;

fn compare_runs() {
    let mut reader = text::Reader::of("session");
    let (mut pair, mut counts) = (Pair::new(), Counts::default());
    let mut differences = 0;
    for line in std::io::stdin().lock().lines() {
        let line = line.unwrap_or_else(|error| fail(&format!("the input can't be read: {error}")));
        let run = reader.take(&line).unwrap_or_else(|error| fail(&error));
        let Some(run) = run else { continue };
        let checked = lists::check(&run.list, run.told.as_ref(), &mut pair, &mut counts);
        if let Err(message) = checked {
            differences += 1;
            if differences <= SHOWN {
                show(&run, &message, &mut pair);
            }
        }
    }
    print_counts(&counts);
    println!("  {differences} differences");
    if counts.lists == 0 {
        fail("the input has no session");
    }
    if differences > 0 {
        exit(1);
    }
}

/// Shows a difference, with a smaller list where there is one that differs from the model.
fn show(run: &text::Run, message: &str, pair: &mut Pair) {
    println!("DIFFERENCE in the run at line {}: {message}", run.line);
    let differs = |list: &List| lists::check(list, None, pair, &mut Counts::default()).err();
    match lists::shrink(&run.list, differs) {
        Some((list, message)) => {
            println!("the smallest list found that differs from the model: {message}");
            print!("{}", text::run_text(&list, false));
        }
        None => print!("{}", text::run_text(&run.list, false)),
    }
}

fn print_counts(counts: &Counts) {
    let Counts {
        lists,
        told,
        polled,
        polled_held,
        calls,
        replays,
        entries,
        waited,
        most_placed,
        overfull,
        flushes,
        in_lanes,
        lanes_struck,
        refused,
        refused_compared,
        not_opened,
    } = counts;
    println!(
        "  {lists} lists ({told} with another program's answers), {calls} calls, {replays} replays"
    );
    println!("  {polled} polled, as was told; {polled_held} of them with entries held");
    println!(
        "  {entries} order entries, {waited} registrations waited, one call placed up to {most_placed}, \
         {flushes} flushes, {overfull} lists with an overfull span"
    );
    if *in_lanes > 0 {
        println!("  {in_lanes} order entries in lanes; {lanes_struck} lists leave the same storage but for lanes where all are 0");
    }
    let numbers = refused_text(refused);
    if !numbers.is_empty() || *not_opened > 0 {
        println!(
            "  refused calls: {numbers}; {refused_compared} of them compared byte for byte; {not_opened} openings"
        );
    }
}

/// How many calls were refused with each number.
fn refused_text(refused: &[u64]) -> String {
    let numbers = refused.iter().enumerate().filter(|(_, count)| **count > 0);
    let numbers: Vec<String> = numbers
        .map(|(number, count)| format!("{count} with {number}"))
        .collect();
    numbers.join(", ")
}
