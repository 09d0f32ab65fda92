//! One job by the call, by the model's reader and by running it.

use crate::{model, sys};
use std::fmt;

/// What stands in the numbers before a call, each with its index.
const BEFORE: u64 = 0xA5C3_96E1_5A3C_6900;
/// Numbers on either side of the four that must stay as they were.
const AROUND: usize = 4;

/// What the call says of a job.
#[derive(Clone, Copy, PartialEq, Eq)]
pub enum Answer {
    Needs([u64; 4]),
    /// As it is returned: 64 times the line plus the number.
    Refused(u64),
}

impl Answer {
    /// By the reference model's reader.
    pub fn of_model(job: &[u8]) -> Self {
        match model::job_needs(job) {
            Ok(needs) => {
                let [n, w, f] = three(&needs);
                Self::Needs([n, w, f, needs.ceiling()])
            }
            Err(refusal) => Self::Refused(refusal.returned()),
        }
    }

    /// By the call.
    pub fn of_call(job: &[u8]) -> Result<Self, String> {
        let before: [u64; AROUND + 4 + AROUND] = std::array::from_fn(|i| BEFORE + i as u64);
        let mut numbers = before;
        let needs = &mut numbers[AROUND..AROUND + 4];
        let returned = sys::needs(job, needs.try_into().expect("four numbers"));
        let four: [u64; 4] = numbers[AROUND..AROUND + 4].try_into().expect("four numbers");
        if returned == 0 {
            numbers[AROUND..AROUND + 4].copy_from_slice(&before[AROUND..AROUND + 4]);
        }
        if numbers != before {
            return Err(format!("returned {returned}, and a number was written that must stay: {numbers:x?}"));
        }
        Ok(match returned {
            0 => Self::Needs(four),
            _ => Self::Refused(returned),
        })
    }
}

impl fmt::Display for Answer {
    fn fmt(&self, f: &mut fmt::Formatter<'_>) -> fmt::Result {
        match self {
            Self::Needs(numbers) => write!(f, "needs {numbers:?}"),
            Self::Refused(returned) => write!(f, "refused with {} on line {}", returned % 64, returned / 64),
        }
    }
}

/// Registrations, list numbers and plain flushes.
pub fn three(needs: &model::Needs) -> [u64; 3] {
    [needs.registrations, needs.list_numbers, needs.flushes]
}

/// What was compared, by what running the jobs comes to.
#[derive(Clone, Copy, Default)]
pub struct Counts {
    pub accepted: u64,
    pub malformed: u64,
    pub long: u64,
    /// Refused with another number, and what they need is told; or a line after that is malformed.
    pub others: u64,
    pub malformed_later: u64,
    pub ceiling: Ceiling,
}

impl Counts {
    pub fn and(&self, more: &Self) -> Self {
        Self {
            accepted: self.accepted + more.accepted,
            malformed: self.malformed + more.malformed,
            long: self.long + more.long,
            others: self.others + more.others,
            malformed_later: self.malformed_later + more.malformed_later,
            ceiling: self.ceiling.and(&more.ceiling),
        }
    }
}

impl fmt::Display for Counts {
    fn fmt(&self, f: &mut fmt::Formatter<'_>) -> fmt::Result {
        let Self { accepted, malformed, long, others, malformed_later, .. } = self;
        let jobs = accepted + malformed + long + others + malformed_later;
        write!(
            f,
            "{jobs} jobs, run: {accepted} accepted, {malformed} refused with 15, {long} with 16, {others} with others, \
             {malformed_later} with others before a malformed line"
        )
    }
}

/// How close released spans came to the ceiling.
#[derive(Clone, Copy, Default)]
pub struct Ceiling {
    /// The least distance in jobs without a registration, and in jobs with some.
    pub without: Option<u64>,
    pub with: Option<u64>,
    /// The job with some in which the released spans are the greatest part of the ceiling: both numbers.
    pub part: Option<(u64, u64)>,
}

impl Ceiling {
    /// So many spans were released by a job with these needs.
    pub fn meet(&mut self, released: u64, needs: &[u64; 4]) -> Result<(), String> {
        let [n, .., ceiling] = *needs;
        let Some(distance) = ceiling.checked_sub(released) else {
            return Err(format!("{released} spans are released, more than the ceiling of {needs:?}"));
        };
        let met = match n {
            0 => Self { without: Some(distance), ..Self::default() },
            _ => Self { with: Some(distance), part: Some((released, ceiling)), ..Self::default() },
        };
        *self = self.and(&met);
        Ok(())
    }

    fn and(&self, more: &Self) -> Self {
        let least = |a: Option<u64>, b| a.into_iter().chain(b).min();
        let parts = self.part.into_iter().chain(more.part);
        Self {
            without: least(self.without, more.without),
            with: least(self.with, more.with),
            part: parts.max_by(|a, b| (a.0 * b.1).cmp(&(b.0 * a.1))),
        }
    }
}

impl fmt::Display for Ceiling {
    fn fmt(&self, f: &mut fmt::Formatter<'_>) -> fmt::Result {
        let told = |number: Option<u64>| number.map_or("none".to_owned(), |number| number.to_string());
        let (without, with) = (told(self.without), told(self.with));
        let (released, ceiling) = self.part.unwrap_or_default();
        write!(
            f,
            "closest to the ceiling, the spans released are {without} below it without registrations and {with} \
             with some, where the greatest part is {released} of {ceiling}"
        )
    }
}

/// Compares one job in every way and counts it.
pub fn compare(job: &[u8], counts: &mut Counts) -> Result<(), String> {
    compare_all(job, counts).map_err(|message| format!("{message}\n{}", shown(job)))
}

fn compare_all(job: &[u8], counts: &mut Counts) -> Result<(), String> {
    let found = Answer::of_call(job)?;
    compare_run(job, found, counts)?;
    let wanted = Answer::of_model(job);
    if found != wanted {
        return Err(format!("{found}, by the model's reader {wanted}"));
    }
    Ok(())
}

/// Beside running the job.
fn compare_run(job: &[u8], found: Answer, counts: &mut Counts) -> Result<(), String> {
    let ran = sys::job(job, &mut [0; model::LISTING_BYTES]);
    match (ran % 64, found) {
        (0, Answer::Needs(needs)) => {
            counts.accepted += 1;
            return compare_used(job, &needs, &mut counts.ceiling);
        }
        (15, Answer::Refused(returned)) if returned == ran => counts.malformed += 1,
        (16, Answer::Refused(returned)) if returned == ran => counts.long += 1,
        (0 | 15 | 16, _) => return Err(format!("{found}, but running it returns {ran}")),
        (_, Answer::Needs(_)) => counts.others += 1,
        // all lines up to the one that is refused are well formed
        (_, Answer::Refused(returned)) if returned % 64 == 15 && returned / 64 > ran / 64 => counts.malformed_later += 1,
        (_, Answer::Refused(_)) => return Err(format!("{found}, but running it returns {ran}")),
    }
    Ok(())
}

/// An accepted job used what it needs, and released no more spans than the ceiling, by the model.
fn compare_used(job: &[u8], needs: &[u64; 4], ceiling: &mut Ceiling) -> Result<(), String> {
    let Ok((session, _)) = model::finish_job(job) else {
        return Err("running it is accepted, by the model refused".to_owned());
    };
    ceiling.meet(session.window.first, needs)?;
    let [n, w, f] = three(&session.used());
    if needs != &[n, w, f, 2 * n + 32 * (f + 1)] {
        return Err(format!("needs {needs:?}, but it used {n}, {w} and {f}"));
    }
    Ok(())
}

/// A job as text, its beginning at least.
pub fn shown(job: &[u8]) -> String {
    let text = String::from_utf8_lossy(&job[..job.len().min(2_000)]);
    format!("the job, {} bytes:\n{text}", job.len())
}
