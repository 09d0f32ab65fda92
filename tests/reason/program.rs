//! The program: a job on standard input, the registration's number as its one word.

use crate::ran::shown;
use crate::worked::{self, Worked};
use crate::{boundaries, made, model};
use std::io::Write;
use std::process::{Command, Stdio};

/// Words that are not one number of 64 bits, without a leading zero.
const MISUSED: [&[&str]; 19] = [
    &[],
    &[""],
    &["x"],
    &["00"],
    &["01"],
    &["+1"],
    &["-1"],
    &[" 1"],
    &["1 "],
    &["1\n"],
    &["1x"],
    &["0x1"],
    &["1,0"],
    &["\u{661}"],
    &["100000000000000000000"],
    &["18446744073709551616"],
    &["0", "0"],
    &["0", ""],
    &["0", "1", "2"],
];

pub fn check(path: &str, seed: u64, count: u64) -> Result<String, String> {
    let all = worked::all();
    let mut asked = 0;
    for Worked { job, told } in &all {
        for (r, answer) in told {
            expect(path, job.as_bytes(), *r, &answer.printed())?;
            asked += 1;
        }
    }
    let lists = (0..count).map(|i| made::job(&made::list(seed, i), &mut made::seeded(seed + 1, i)));
    let random = boundaries::random_jobs(seed, count).into_iter().map(|(job, _)| job);
    for (job, r) in lists.chain(random).zip((0..3).cycle()) {
        expect(path, &job, r, &model::reason_program(&job, r))?;
    }
    let misused = misuse(path, all[0].job.as_bytes())?;
    Ok(format!("the program: {asked} answers worked out by hand, {} of random jobs, {misused} misuses", 2 * count))
}

/// On a job of which all is well, so that the words alone are at fault, and on one that is refused.
fn misuse(path: &str, job: &[u8]) -> Result<usize, String> {
    let long = ["0", "1"].map(|digit| digit.repeat(100_000));
    let words = MISUSED.iter().map(|words| words.to_vec());
    let words: Vec<Vec<&str>> = words.chain(long.iter().map(|word| vec![word.as_str()])).collect();
    for words in &words {
        for job in [job, b""] {
            let Printed { out, said } = run(path, words, job)?;
            if !out.is_empty() || said.is_empty() {
                return Err(format!("{words:.40?}: printed {out:?}, said {said:?}"));
            }
        }
    }
    Ok(words.len())
}

struct Printed {
    out: String,
    said: String,
}

fn expect(path: &str, job: &[u8], r: u64, wanted: &str) -> Result<(), String> {
    let Printed { out, said } = run(path, &[&r.to_string()], job)?;
    match out == wanted && said.is_empty() {
        true => Ok(()),
        false => Err(format!("registration {r}: printed {out:?}, not {wanted:?}; said {said:?}\n{}", shown(job))),
    }
}

fn run(path: &str, words: &[&str], job: &[u8]) -> Result<Printed, String> {
    let mut command = Command::new(path);
    command.args(words).stdin(Stdio::piped()).stdout(Stdio::piped()).stderr(Stdio::piped());
    let mut child = command.spawn().map_err(|error| format!("{path}: {error}"))?;
    // It need not read a job that it does not run.
    let _ = child.stdin.take().expect("a pipe").write_all(job);
    let done = child.wait_with_output().map_err(|error| format!("{path}: {error}"))?;
    let text = |bytes: &[u8]| String::from_utf8_lossy(bytes).into_owned();
    Ok(Printed { out: text(&done.stdout), said: text(&done.stderr) })
}
