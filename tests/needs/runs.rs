//! The ceiling beside the Rust: sessions with its answers (oracle/FORMAT.md), given lanes. Each that a final closed is
//! written as a job; the Rust tells its registrations, and by span 0's number how many spans it released.

use crate::compared::{shown, Answer, Ceiling};
use std::io::BufRead;

/// A session as a job, with what its lines say and what the Rust answered.
#[derive(Default)]
struct Run {
    job: String,
    list_numbers: u64,
    flushes: u64,
    registrations: Option<u64>,
    released: Option<u64>,
}

pub fn check(input: impl BufRead) -> Result<String, String> {
    let mut run = None;
    let (mut closed, mut open) = (0, 0);
    let mut ceiling = Ceiling::default();
    for line in input.lines() {
        let line = line.map_err(|error| error.to_string())?;
        let words: Vec<&str> = line.split(' ').collect();
        match words[..] {
            ["session", p, v, ..] => run = Some(Run::open(p, v)),
            ["end"] => match run.take() {
                Some(Run { registrations: None, .. }) => open += 1,
                Some(run) => {
                    closed += 1;
                    run.compare(&mut ceiling).map_err(|message| format!("{message}\n{}", shown(run.job.as_bytes())))?;
                }
                None => {}
            },
            _ => run.iter_mut().for_each(|run| run.take(&words)),
        }
    }
    if closed == 0 || ceiling.with.is_none() {
        return Err("no session that final closed, or none with a registration".to_owned());
    }
    Ok(format!("{closed} sessions that the Rust closed ({open} others left out): {ceiling}"))
}

impl Run {
    fn open(p: &str, v: &str) -> Self {
        Self { job: format!("parallelism={p}\nplaces={v}\n"), ..Self::default() }
    }

    /// One line of the run: a call, or an answer.
    fn take(&mut self, words: &[&str]) {
        let number = |word: &str| word.parse().expect("a number");
        match words {
            ["set", place] => self.job += &format!("set={place}\n"),
            ["add", inputs, outputs, lane @ ..] => {
                let (inputs, outputs) = (self.list(inputs), self.list(outputs));
                self.job.extend(lane.iter().map(|lane| format!("lane={lane}\n")));
                self.job += &format!("in={inputs}\nout={outputs}\n");
            }
            ["flush"] => {
                self.flushes += 1;
                self.job += "flush=1\n";
            }
            ["final"] => self.job += "final=1\n",
            ["=", "final", registrations, _] => self.registrations = Some(number(registrations)),
            ["=", "window", first, ..] => self.released = Some(number(first)),
            _ => {}
        }
    }

    /// A list as a job has it; its numbers are counted.
    fn list(&mut self, word: &str) -> String {
        if word == "-" {
            return String::new();
        }
        self.list_numbers += word.split(',').count() as u64;
        word.to_owned()
    }

    fn compare(&self, ceiling: &mut Ceiling) -> Result<(), String> {
        let found = Answer::of_call(self.job.as_bytes())?;
        let (Some(n), Some(released)) = (self.registrations, self.released) else {
            return Err("an answer is missing".to_owned());
        };
        match found {
            Answer::Needs(needs) if needs[..3] == [n, self.list_numbers, self.flushes] => ceiling.meet(released, &needs),
            _ => Err(format!("{found}, but the Rust has {n} registrations, with {} and {}", self.list_numbers, self.flushes)),
        }
    }
}
