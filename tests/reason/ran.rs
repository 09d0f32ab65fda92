//! Jobs by `order_reason`, beside the model and beside running them by `order_job`.

use crate::{boundaries, fail, made, model, sys, worked};
use std::collections::BTreeMap;

/// Up to this registration all are asked for, after it ever fewer.
const ALL: u64 = 40;

pub fn check(seed: u64, [lists, jobs, bytes]: [u64; 3], paths: &[&str]) -> Result<String, String> {
    let only_jobs = |made: Vec<(Vec<u8>, usize)>| made.into_iter().map(|(job, _)| job).collect();
    let all: [(&str, Vec<Vec<u8>>); 5] = [
        ("from files", paths.iter().map(|path| of_file(path)).collect()),
        ("of lists", (0..lists).map(|i| made::job(&made::list(seed, i), &mut made::seeded(seed + 1, i))).collect()),
        ("at the boundaries", boundaries::edge_jobs()),
        ("random", only_jobs(boundaries::random_jobs(seed, jobs))),
        ("random bytes", only_jobs(boundaries::random_bytes(seed, bytes))),
    ];
    let mut sum = Counts::default();
    for (name, jobs) in all {
        let before = (sum.jobs, sum.asked);
        for job in &jobs {
            sum.compare(job).map_err(|message| format!("{name}: {message}\n{}", shown(job)))?;
        }
        println!("reason: jobs {name}: {}, asked {} times: no difference", sum.jobs - before.0, sum.asked - before.1);
    }
    sum.look_for_missing()?;
    Ok(sum.text())
}

fn of_file(path: &str) -> Vec<u8> {
    std::fs::read(path).unwrap_or_else(|error| fail(&format!("{path}: {error}")))
}

/// A job as text, its beginning at least.
pub fn shown(job: &[u8]) -> String {
    let text = String::from_utf8_lossy(&job[..job.len().min(2_000)]);
    format!("the job, {} bytes:\n{text}", job.len())
}

/// What was compared: jobs by what running them comes to, 0 for accepted, and answers with a reason.
#[derive(Default)]
struct Counts {
    jobs: u64,
    asked: u64,
    reasons: u64,
    ran: BTreeMap<u64, u64>,
    /// Of those refused with 12, the jobs with something after their final.
    surplus: u64,
}

impl Counts {
    fn compare(&mut self, job: &[u8]) -> Result<(), String> {
        let ran = sys::job(job, &mut [0; model::LISTING_BYTES]);
        let mut r = 0;
        while self.ask(job, ran, r)? {
            r += 1 + r / ALL;
        }
        for r in [1 << 32, u64::MAX] {
            self.ask(job, ran, r)?;
        }
        self.jobs += 1;
        *self.ran.entry(ran % 64).or_default() += 1;
        self.surplus += u64::from(ran % 64 == 12 && job.iter().filter(|&&byte| byte == 10).count() as u64 > ran / 64);
        Ok(())
    }

    /// Asks for a registration, and says whether it was accepted.
    fn ask(&mut self, job: &[u8], ran: u64, r: u64) -> Result<bool, String> {
        let (found, wanted) = (sys::job_reason(job, r), model::reason_host(job, r));
        if found != wanted {
            return Err(format!("registration {r}: {found} is returned, by the model {wanted}"));
        }
        self.asked += 1;
        match (ran % 64, found) {
            (0 | 12, 19) => Ok(false),
            (0 | 12, 20) => Ok(true),
            (12, told) if told % 64 == 0 => {
                self.reasons += 1;
                Ok(true)
            }
            (1..=11 | 13..=18, told) if told == ran => Ok(false),
            _ => Err(format!("registration {r}: {found} is returned, but {ran} by running the job")),
        }
    }

    fn look_for_missing(&self) -> Result<(), String> {
        let numbers: Vec<String> = self.ran.keys().map(u64::to_string).collect();
        match numbers.join(" ") == "0 1 2 4 5 6 8 9 10 12 15 16 18" && self.surplus > 0 && self.reasons > 0 {
            true => Ok(()),
            false => Err(format!("the jobs are too few: {}", self.text())),
        }
    }

    fn text(&self) -> String {
        let ran: Vec<String> = self.ran.iter().map(|(number, count)| format!("{count} with {number}")).collect();
        format!(
            "{} jobs in all, asked {} times, {} with a reason; run by order_job: {}; {} of those with 12 go on after it",
            self.jobs,
            self.asked,
            self.reasons,
            ran.join(", "),
            self.surplus
        )
    }
}

/// The jobs by which the stack is measured: J1, a chain, the same in which all wait, one that is refused.
pub fn stacked() -> Vec<Vec<u8>> {
    let chain: String = (1..512).map(|x| format!("in={}\nout={x}\n", x - 1)).collect();
    let jobs = [
        worked::J1.to_owned(),
        format!("parallelism=64\nplaces=512\nset=0\n{chain}final=1\n"),
        format!("parallelism=1\nplaces=512\n{chain}set=0\nfinal=1\n"),
        format!("parallelism=64\nplaces=512\n{chain}final=1\n"),
        String::new(),
    ];
    jobs.map(String::into_bytes).into()
}

/// The call answers as the model does.
pub fn answered(job: &[u8]) -> bool {
    [0, 510, 511].iter().all(|&r| sys::job_reason(job, r) == model::reason_host(job, r))
}
