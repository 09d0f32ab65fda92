//! Host code, not proved: what a job needs, from its text alone, by the proved `job_needs`. Nothing is run;
//! [`crate::job`] runs jobs.

use crate::job::{taken_apart, Rejected};
use crate::layout::JOB_NEEDS;
use crate::sys;

/// What running a job takes. Each number is below 2^32.
#[derive(Clone, Copy, Debug, PartialEq, Eq)]
pub struct Needs {
    /// The registrations: places, V, must be at least as many.
    pub registrations: u64,
    /// The numbers in all their lists: the pool, W, must hold them.
    pub pool: u64,
    /// The plain flushes.
    pub flushes: u64,
    /// Running the job releases no more spans: 2 · registrations + 32 · (flushes + 1).
    pub most_spans: u64,
}

impl Needs {
    /// Of a job. Only one of more than 65,536 bytes and one with a line malformed, missing or surplus are
    /// refused; parallelism, places and calls are read and not judged. The call works on the stack and
    /// needs less than 300 KB of it; `tests/needs/run.sh` measures that, and fails where it is more.
    ///
    /// ```
    /// use witness_order::{Needs, Refusal};
    /// let needs = Needs::of(b"parallelism=2\nplaces=6\nin=\nout=0,1\nflush=1\nfinal=1\n").unwrap();
    /// assert_eq!((needs.registrations, needs.pool), (1, 2));
    /// assert_eq!((needs.flushes, needs.most_spans), (1, 66));
    ///
    /// let rejected = Needs::of(b"parallelism=0\nplaces=6\nset=\n").unwrap_err();
    /// assert_eq!((rejected.refusal, rejected.line), (Refusal::Malformed, 3));
    /// ```
    pub fn of(job: &[u8]) -> Result<Self, Rejected> {
        let mut numbers = [0; JOB_NEEDS];
        taken_apart(sys::needs(job, &mut numbers))?;
        let [registrations, pool, flushes, most_spans] = numbers;
        Ok(Self {
            registrations,
            pool,
            flushes,
            most_spans,
        })
    }
}
