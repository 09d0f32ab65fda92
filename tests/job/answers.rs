//! Host code, not proved: what the program `order` and the exported `order_job` and `job_needs` answer to every job that
//! the tests of jobs have, so that the answers before and after a change can be compared.
//!
//!   answers FILE PROGRAM SEED JOBS BYTES PATH..
//!
//! A PATH is a job, or a file of cases (reference/jobs.rs). FILE gets a line for each job:
//!
//!   SOURCE NUMBER job LENGTH DIGEST program STATUS LENGTH DIGEST SAID host LENT RETURNED DIGEST .. needs RETURNED DIGEST
//!
//! A program's status, the length and digest of what it printed, and how many bytes it said on standard error; of each
//! call what it returned and the digest of all that was lent, with what lies around it. A digest is FNV-1a of 64 bits.
//!
//! Where ANSWERS_WITHOUT is KEY, the line that begins with KEY= and the field KEY= of any other line are left out of every
//! listing, and of its length in what is printed and returned; out of every job, too, before it is asked. `order_job` has
//! then LENT RETURNED DIGEST UNTOUCHED for each call: LENT is `all`, `enough`, `fewer` or `none`, since a length would tell
//! of what is left out; DIGEST is that of what is left; UNTOUCHED says whether all else that is lent, and what lies around
//! it, is as it was.

#[path = "../../hosts/rust/src/sys.rs"]
#[allow(dead_code)]
mod archives;
#[path = "../needs/compared.rs"]
mod compared;
#[path = "../reference/generate.rs"]
#[allow(dead_code)]
mod generate;
#[path = "../reference/jobs.rs"]
mod jobs;
#[allow(dead_code)]
mod made;
#[path = "../reference/model.rs"]
#[allow(dead_code)]
mod model;
#[path = "../needs/sources.rs"]
mod sources;
#[path = "../needs/worked.rs"]
mod worked;

use std::fs::{self, File};
use std::io::Write;
use std::process::{exit, Command};

/// What is lent is full of it before a call, with more of it on either side.
const PATTERN: u8 = 0xA5;
const AROUND: usize = 64;
/// The job that the program is asked, as its standard input.
const ASKED: &str = "target/job/answers.job";

/// Stands where the code of needs/ has the archives' calls: the model answers, and every job that is asked is kept.
mod sys {
    use crate::{compared::Answer, model};
    use std::cell::RefCell;

    thread_local!(static KEPT: RefCell<Vec<Vec<u8>>> = const { RefCell::new(Vec::new()) });

    pub fn job(job: &[u8], listing: &mut [u8]) -> u64 {
        let (returned, text) = model::host(job, listing.len());
        listing[..text.len()].copy_from_slice(&text);
        returned
    }

    pub fn needs(job: &[u8], needs: &mut [u64; 4]) -> u64 {
        KEPT.with_borrow_mut(|kept| kept.push(job.to_vec()));
        match Answer::of_model(job) {
            Answer::Needs(numbers) => {
                *needs = numbers;
                0
            }
            Answer::Refused(returned) => returned,
        }
    }

    /// The jobs that were asked, each once where it was asked several times in a row.
    pub fn kept() -> Vec<Vec<u8>> {
        let mut kept = KEPT.take();
        kept.dedup();
        kept
    }
}

/// Jobs of one source, each with a count of listing bytes.
struct Source {
    name: String,
    jobs: Vec<(Vec<u8>, usize)>,
}

fn main() {
    let words: Vec<String> = std::env::args().skip(1).collect();
    let [file, program, seed, jobs, bytes, paths @ ..] = &words[..] else {
        fail("FILE PROGRAM SEED JOBS BYTES PATH..");
    };
    let without = std::env::var("ANSWERS_WITHOUT").ok();
    let key = without.as_deref();
    let mut lines = Vec::new();
    let all = all_sources(number(seed), number(jobs), number(bytes), paths);
    for Source { name, jobs } in &all {
        for (i, (job, lent)) in jobs.iter().enumerate() {
            let job = &key.map_or_else(|| job.clone(), |key| left(job, key));
            let run = key.map_or_else(|| run(job, *lent), |key| run_without(job, key));
            let answers = [printed(program, job, key), run, needed(job)].join(" ");
            writeln!(lines, "{name} {i} job {} {} {answers}", job.len(), digest(job)).expect("room");
        }
    }
    fs::write(file, &lines).unwrap_or_else(|error| fail(&format!("{file}: {error}")));
    println!("answers: {}", told(&all));
}

/// How many jobs there are, and where those come from that are not alone in a file.
fn told(all: &[Source]) -> String {
    let (alone, several): (Vec<&Source>, Vec<&Source>) = all.iter().partition(|source| source.jobs.len() == 1);
    let counts: Vec<String> = several.iter().map(|source| format!("{} of {}", source.jobs.len(), source.name)).collect();
    let jobs: usize = all.iter().map(|source| source.jobs.len()).sum();
    format!("{jobs} jobs: {}, {} of a file each", counts.join(", "), alone.len())
}

/// What the reference model's generators and the code of needs/ call, too.
fn fail(message: &str) -> ! {
    eprintln!("answers: {message}");
    exit(2)
}

fn number(word: &str) -> u64 {
    word.parse().unwrap_or_else(|_| fail(&format!("not a number: {word}")))
}

/// Files, what the code of needs/ asks beside its random jobs (those at the boundaries are among it), and random ones.
fn all_sources(seed: u64, jobs: u64, bytes: u64, paths: &[String]) -> Vec<Source> {
    let mut all: Vec<Source> = paths.iter().map(|path| source(path, of_file(path))).collect();
    let checks: [(&str, fn() -> Result<String, String>); 2] = [
        ("tests/needs/sources.rs", || sources::check(0, 0, 0, &[])),
        ("tests/needs/worked.rs", worked::check),
    ];
    for (name, check) in checks {
        check().unwrap_or_else(|message| fail(&message));
        all.push(source(name, sys::kept()));
    }
    all.push(Source { name: "random-jobs".to_owned(), jobs: made::random_jobs(seed, jobs) });
    all.push(Source { name: "random-bytes".to_owned(), jobs: made::random_bytes(seed, bytes) });
    all
}

fn source(name: &str, jobs: Vec<Vec<u8>>) -> Source {
    let jobs = jobs.into_iter().map(|job| (job, model::LISTING_BYTES)).collect();
    Source { name: name.to_owned(), jobs }
}

fn of_file(path: &str) -> Vec<Vec<u8>> {
    let bytes = fs::read(path).unwrap_or_else(|error| fail(&format!("{path}: {error}")));
    if !path.ends_with(".cases") {
        return vec![bytes];
    }
    let text = String::from_utf8(bytes).expect("cases are ASCII");
    text.lines().filter_map(|line| line.strip_prefix("job ")).map(made::unescaped).collect()
}

fn digest(bytes: &[u8]) -> String {
    let step = |hash: u64, &byte: &u8| (hash ^ u64::from(byte)).wrapping_mul(0x0000_0100_0000_01b3);
    format!("{:016x}", bytes.iter().fold(0xcbf2_9ce4_8422_2325, step))
}

/// What is left of a text without the lines that begin with KEY= and without the fields ` KEY=` of other lines.
fn left(text: &[u8], key: &str) -> Vec<u8> {
    let named = |word: &[u8]| word.strip_prefix(key.as_bytes()).is_some_and(|rest| rest.starts_with(b"="));
    let mut kept = Vec::new();
    for line in text.split_inclusive(|&byte| byte == 10).filter(|line| !named(line)) {
        let (line, end) = line.strip_suffix(b"\n").map_or((line, &b""[..]), |line| (line, b"\n"));
        let words: Vec<&[u8]> = line.split(|&byte| byte == b' ').filter(|word| !named(word)).collect();
        kept.extend(words.join(&b' '));
        kept.extend(end);
    }
    kept
}

/// By the program.
fn printed(program: &str, job: &[u8], key: Option<&str>) -> String {
    fs::write(ASKED, job).unwrap_or_else(|error| fail(&format!("{ASKED}: {error}")));
    let input = File::open(ASKED).unwrap_or_else(|error| fail(&format!("{ASKED}: {error}")));
    let done = Command::new(program).stdin(input).output();
    let done = done.unwrap_or_else(|error| fail(&format!("{program}: {error}")));
    let status = done.status.code().map_or("none".to_owned(), |code| code.to_string());
    let text = key.map_or_else(|| done.stdout.clone(), |key| left(&done.stdout, key));
    format!("program {status} {} {} {}", text.len(), digest(&text), done.stderr.len())
}

/// By `order_job`, with listing bytes for all of a listing, as many as are given, just enough, one fewer and none.
fn run(job: &[u8], lent: usize) -> String {
    let mut lents = vec![model::LISTING_BYTES, lent, 0];
    let length = listing_length(archives::job(job, &mut [0; model::LISTING_BYTES]));
    if length > 0 {
        lents.extend([length, length - 1]);
    }
    lents.sort_unstable();
    lents.dedup();
    let answers: Vec<String> = lents.into_iter().map(|lent| run_lent(job, lent)).collect();
    format!("host {}", answers.join(" "))
}

fn run_lent(job: &[u8], lent: usize) -> String {
    let (returned, bytes) = asked(job, lent);
    format!("{lent} {returned} {}", digest(&bytes))
}

/// What `order_job` returns, and what is lent to it with what lies around.
fn asked(job: &[u8], lent: usize) -> (u64, Vec<u8>) {
    let mut bytes = vec![PATTERN; AROUND + lent + AROUND];
    let returned = archives::job(job, &mut bytes[AROUND..AROUND + lent]);
    (returned, bytes)
}

/// By `order_job`, of listings without what KEY names.
fn run_without(job: &[u8], key: &str) -> String {
    let length = listing_length(asked(job, model::LISTING_BYTES).0);
    let lents = [("all", model::LISTING_BYTES), ("enough", length), ("fewer", length.saturating_sub(1)), ("none", 0)];
    let answer = |(name, lent)| {
        let (returned, bytes) = asked(job, lent);
        let end = AROUND + listing_length(returned);
        let text = left(&bytes[AROUND..end], key);
        let untouched = bytes[..AROUND].iter().chain(&bytes[end..]).all(|&byte| byte == PATTERN);
        let left_out = (end - AROUND - text.len()) as u64;
        format!("{name} {} {} {untouched}", returned - 64 * left_out, digest(&text))
    };
    format!("host {}", lents.map(answer).join(" "))
}

/// The length of the listing, 0 where the job is refused.
fn listing_length(returned: u64) -> usize {
    match returned % 64 {
        0 => (returned / 64) as usize,
        _ => 0,
    }
}

/// By `job_needs`.
fn needed(job: &[u8]) -> String {
    let mut numbers = [u64::from_ne_bytes([PATTERN; 8]); AROUND + 4 + AROUND];
    let four: &mut [u64; 4] = (&mut numbers[AROUND..AROUND + 4]).try_into().expect("four numbers");
    let returned = archives::needs(job, four);
    let bytes: Vec<u8> = numbers.iter().flat_map(|number| number.to_le_bytes()).collect();
    format!("needs {returned} {}", digest(&bytes))
}
