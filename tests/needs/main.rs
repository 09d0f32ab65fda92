//! What jobs need, by the exported `job_needs`: each job beside the reference model's own reader, and
//! beside what running it comes to, by the exported `order_job` and in the model.
//!
//!   needs worked                            jobs with answers worked out by hand
//!   needs compare SEED JOBS BYTES PATH..    the jobs of the files named, those at the boundaries, beginnings
//!                                           and changed copies of small ones, random ones and random bytes
//!   needs runs                              sessions on standard input with the Rust's answers
//!   needs stack KB                          how much stack the call needs, which must be less (by
//!                                           `needs on SIZE FILE`, one call each)
//!
//! Prints what was compared; with status 1, what differed.

mod compared;
#[path = "../reference/generate.rs"]
#[allow(dead_code)]
mod generate;
#[path = "../reference/jobs.rs"]
mod jobs;
#[path = "../job/made.rs"]
#[allow(dead_code)]
mod made;
#[path = "../reference/model.rs"]
#[allow(dead_code)]
mod model;
mod runs;
mod sources;
#[path = "../job/stack.rs"]
mod stack;
#[path = "../../hosts/rust/src/sys.rs"]
#[allow(dead_code)]
mod sys;
mod worked;

use std::process::exit;

fn main() {
    let words: Vec<String> = std::env::args().skip(1).collect();
    let words: Vec<&str> = words.iter().map(String::as_str).collect();
    let done = match words[..] {
        ["worked"] => worked::check(),
        ["compare", seed, jobs, bytes, ref paths @ ..] => {
            sources::check(number(seed), number(jobs), number(bytes), paths)
        }
        ["runs"] => runs::check(std::io::stdin().lock()),
        ["stack", most] => stack::check(stacked(), number(most) as usize),
        ["on", size, path] => return stack::on(number(size) as usize, path, read),
        _ => fail("worked | compare SEED JOBS BYTES PATH.. | runs | stack KB"),
    };
    match done {
        Ok(message) => println!("needs: {message}"),
        Err(message) => {
            println!("DIFFERENCE: {message}");
            exit(1)
        }
    }
}

/// The jobs by which the stack is measured.
fn stacked() -> Vec<Vec<u8>> {
    let largest = worked::largest().into_iter().map(|worked| worked.job);
    largest.chain([sources::J1.into(), Vec::new()]).collect()
}

/// The call gives the job's needs, or that it is malformed.
fn read(job: &[u8]) -> bool {
    matches!(sys::needs(job, &mut [0; 4]) % 64, 0 | 15)
}

fn number(word: &str) -> u64 {
    word.parse().unwrap_or_else(|_| fail(&format!("not a number: {word}")))
}

/// What the reference model's generators call, too.
fn fail(message: &str) -> ! {
    eprintln!("needs: {message}");
    exit(2)
}
