//! Jobs through the exported call, by the Rust host's declaration of it, each beside the reference
//! model's answer. Every call runs on a thread with 2 MB of stack, with bytes around the listing that
//! must stay as they were.
//!
//!   job jobs SEED COUNT     random jobs, half of them damaged, as `reference jobs` makes them
//!   job bytes SEED COUNT    random bytes, and random bytes of a job's own alphabet
//!   job edges               jobs at every boundary of document 01, made here
//!   job lanes SEED COUNT    pairs of jobs that differ in the numbers of their lanes alone
//!   job stack KB            how much stack the call needs, which must be less (by `job on SIZE FILE`, one call each)

#[path = "../reference/generate.rs"]
#[allow(dead_code)]
mod generate;
#[path = "../reference/jobs.rs"]
mod jobs;
mod made;
#[path = "../reference/model.rs"]
#[allow(dead_code)]
mod model;
mod pairs;
mod stack;
#[path = "../../hosts/rust/src/sys.rs"]
#[allow(dead_code)]
mod sys;

use made::{edges, random_bytes, random_jobs};
use std::process::exit;

const STACK: usize = 2 << 20;
const PATTERN: u8 = 0xA5;

fn main() {
    let words: Vec<String> = std::env::args().skip(1).collect();
    let words: Vec<&str> = words.iter().map(String::as_str).collect();
    let done = match words[..] {
        ["jobs", seed, count] => on_thread(random_jobs(number(seed), number(count))),
        ["bytes", seed, count] => on_thread(random_bytes(number(seed), number(count))),
        ["edges"] => on_thread(edges()),
        ["lanes", seed, count] => return println!("job: {}", pairs::check(number(seed), number(count))),
        ["stack", most] => return measure(number(most) as usize),
        ["on", size, path] => return stack::on(number(size) as usize, path, accepted),
        _ => fail("jobs SEED COUNT | bytes SEED COUNT | edges | lanes SEED COUNT | stack KB"),
    };
    let codes: Vec<String> = done.codes.iter().map(u64::to_string).collect();
    println!(
        "job: {}: {} jobs, {} accepted, the others refused with {}: no difference",
        words[0], done.jobs, done.accepted, codes.join(" ")
    );
    // 3, 7 and 11 need more lines or longer lists than a job has room for
    if words[0] == "edges" && codes.join(" ") != "1 2 4 5 6 8 9 10 12 15 16 17 18" {
        fail("the edges do not reach every refusal that a job can reach");
    }
}

fn number(word: &str) -> u64 {
    word.parse().unwrap_or_else(|_| fail(&format!("not a number: {word}")))
}

/// What the reference model's generators call, too.
fn fail(message: &str) -> ! {
    eprintln!("job: {message}");
    exit(2)
}

#[derive(Default)]
struct Done {
    jobs: u64,
    accepted: u64,
    codes: std::collections::BTreeSet<u64>,
}

/// Asks for every job on a thread with 2 MB of stack.
fn on_thread(all: Vec<(Vec<u8>, usize)>) -> Done {
    let thread = std::thread::Builder::new().stack_size(STACK);
    let run = move || {
        let mut done = Done::default();
        for (job, lent) in all {
            compare(&job, lent, &mut done);
        }
        done
    };
    thread.spawn(run).expect("a thread").join().expect("no panic")
}

fn compare(job: &[u8], lent: usize, done: &mut Done) {
    let mut bytes = vec![PATTERN; lent + 64];
    let found = sys::job(job, &mut bytes[32..32 + lent]);
    let (wanted, listing) = model::host(job, lent);
    let length = if found % 64 == 0 { (found / 64) as usize } else { 0 };
    let told = 32..32 + length.min(lent);
    let untouched = bytes[..32].iter().chain(&bytes[32 + length.min(lent)..]).all(|&b| b == PATTERN);
    if found != wanted || bytes[told.clone()] != listing[..] || !untouched {
        println!("job: a difference with {lent} listing bytes: returned {found}, the model {wanted}, untouched {untouched}");
        println!("{}", String::from_utf8_lossy(job));
        println!("found:\n{}", String::from_utf8_lossy(&bytes[told]));
        println!("model:\n{}", String::from_utf8_lossy(&listing));
        exit(1);
    }
    done.jobs += 1;
    match found % 64 {
        0 => done.accepted += 1,
        code => {
            done.codes.insert(code);
        }
    }
}

/// The stack that the call needs for three jobs, which must be less than so many KB.
fn measure(most: usize) {
    let chain: String = (1..512).map(|x| format!("in={}\nout={x}\n", x - 1)).collect();
    let jobs = [
        "parallelism=2\nplaces=6\nset=0\nin=0\nout=1\nin=1\nout=2\nin=0\nout=3\nin=\nout=4\nfinal=1\n".to_string(),
        format!("parallelism=64\nplaces=512\nset=0\n{chain}final=1\n"),
        format!("parallelism=1\nplaces=512\n{chain}set=0\nfinal=1\n"),
    ];
    match stack::check(jobs.map(String::into_bytes).into(), most) {
        Ok(told) => println!("job: {told}"),
        Err(message) => fail(&message),
    }
}

/// The call accepts the job. The listing's bytes are not on the stack.
fn accepted(job: &[u8]) -> bool {
    sys::job(job, &mut vec![0; model::LISTING_BYTES]) % 64 == 0
}
