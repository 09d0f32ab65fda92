//! The jobs that are compared, each without an answer of its own.

use crate::compared::{compare, Counts};
use crate::{fail, made, worked};

/// J1 of document 01.
pub const J1: &str = "parallelism=2\nplaces=6\nset=0\nin=0\nout=1\nin=1\nout=2\nin=0\nout=3\nin=\nout=4\nfinal=1\n";

/// The same registrations in lanes 3, 255, 0 (without a line) and 0.
pub const J1_LANES: &str = "parallelism=2\nplaces=6\nset=0\nlane=3\nin=0\nout=1\nlane=255\nin=1\nout=2\nin=0\nout=3\n\
                            lane=0\nin=\nout=4\nfinal=1\n";

/// Jobs whose every beginning is compared: lanes, a refused call, flushes, long numbers, a list of several, surplus lines.
const SMALL: [&str; 6] = [
    J1,
    J1_LANES,
    "parallelism=1\nplaces=4\nflush=1\nin=\nout=0,1,2\nflush=1\nin=0,1\nout=3\nfinal=1\n",
    "parallelism=0\nplaces=18446744073709551615\nset=4611686018427387904\nin=7,7\nout=7\nfinal=1\nfinal=1\n",
    "parallelism=64\nplaces=512\nin=511\nout=\nset=0\nset=0\nfinal=1\n\n",
    "parallelism=18446744073709551616\nplaces=00\nflush=2\nin=,\nout\n",
];
/// The job of which every byte is changed, and what it becomes.
const CHANGED: &str = "parallelism=3\nplaces=9\nset=0\nflush=1\nin=0,0\nout=1,2\nlane=25\nin=\nout=3\nfinal=1\n";
const BYTES: [u8; 13] = [b'\n', b',', b'0', b'1', b'9', b'=', b'i', b'f', b'l', b' ', b'-', 0, 255];

pub fn check(seed: u64, jobs: u64, bytes: u64, paths: &[&str]) -> Result<String, String> {
    let only_jobs = |made: Vec<(Vec<u8>, usize)>| made.into_iter().map(|(job, _)| job).collect();
    let all: [(&str, Vec<Vec<u8>>); 7] = [
        ("from files", paths.iter().flat_map(|path| of_file(path)).collect()),
        ("at the boundaries", made::edge_jobs()),
        ("the most that fits", worked::largest().into_iter().map(|worked| worked.job).collect()),
        ("every beginning of small ones", SMALL.iter().flat_map(|job| beginnings(job.as_bytes())).collect()),
        ("one byte changed", changed(CHANGED.as_bytes())),
        ("random", only_jobs(made::random_jobs(seed, jobs))),
        ("random bytes", only_jobs(made::random_bytes(seed, bytes))),
    ];
    let mut sum = Counts::default();
    for (name, jobs) in all {
        let mut counts = Counts::default();
        for job in jobs {
            compare(&job, &mut counts)?;
        }
        println!("needs: {name}: {counts}: no difference");
        sum = sum.and(&counts);
    }
    let Counts { accepted, malformed, long, others, malformed_later, ceiling } = sum;
    if [accepted, malformed, long, others, malformed_later].contains(&0) {
        fail(&format!("a kind of job is missing: {sum}"));
    }
    Ok(format!("in all: {sum}\nneeds: {ceiling}"))
}

/// The job that a file holds; of a file of cases, those of its lines `job TEXT` (reference/jobs.rs).
fn of_file(path: &str) -> Vec<Vec<u8>> {
    let bytes = std::fs::read(path).unwrap_or_else(|error| fail(&format!("{path}: {error}")));
    if !path.ends_with(".cases") {
        return vec![bytes];
    }
    let text = String::from_utf8(bytes).expect("cases are ASCII");
    text.lines().filter_map(|line| line.strip_prefix("job ")).map(made::unescaped).collect()
}

fn beginnings(job: &[u8]) -> Vec<Vec<u8>> {
    (0..=job.len()).map(|length| job[..length].to_vec()).collect()
}

fn changed(job: &[u8]) -> Vec<Vec<u8>> {
    let mut all = Vec::new();
    for at in 0..job.len() {
        for byte in BYTES {
            let mut other = job.to_vec();
            other[at] = byte;
            all.push(other);
        }
    }
    all
}
