//! Host code, not proved: why a registration waits, by the proved `replay_reason` and `order_reason`.

use std::fmt;

use crate::calls::Calls;
use crate::job::{taken_apart, Rejected};
use crate::layout::limits::PLACE_RADIX;
use crate::refusal::Refusal;
use crate::replay::{made, Storage};
use crate::sys;

/// Why a registration waits. Whatever calls are made later, it waits while `place` is untracked. Where an
/// accepted registration has promised `place`, no later call tracks it; else a set of it is accepted.
#[derive(Clone, Copy, Debug, PartialEq, Eq)]
pub struct Reason {
    /// The registration's greatest input.
    pub input: u64,
    /// The lowest place of the session that is neither set nor written: at or below `input`.
    pub place: u64,
}

/// Why no reason is given for a registration of a job.
#[derive(Clone, Copy, Debug, PartialEq, Eq)]
pub enum NoReason {
    /// The job was refused, and not because registrations wait at its final.
    Job(Rejected),
    /// [`Refusal::NeverAccepted`] or [`Refusal::NotWaiting`]; no line of the job is at fault.
    Registration(Refusal),
}

impl fmt::Display for NoReason {
    fn fmt(&self, f: &mut fmt::Formatter<'_>) -> fmt::Result {
        match self {
            NoReason::Job(rejected) => rejected.fmt(f),
            NoReason::Registration(refusal) => refusal.fmt(f),
        }
    }
}

impl std::error::Error for NoReason {}

impl Reason {
    /// Makes all calls as [`replay()`](crate::replay()) does, and says why a registration, numbered from 0 as it
    /// was accepted, waits then. Refused are [`Refusal::NeverAccepted`] and [`Refusal::NotWaiting`].
    ///
    /// ```
    /// use witness_order::{Calls, Reason, Refusal, Storage};
    ///
    /// # fn main() -> Result<(), Box<dyn std::error::Error>> {
    /// // The first is placed; the second waits for place 3, and for 1 and 2 below it.
    /// let calls = Calls::new().add(&[], &[0]).add(&[3, 0], &[4]).set(3).finish();
    /// let mut storage = Storage::new(2, 6, calls.list_numbers())?;
    /// assert_eq!(Reason::after(&mut storage, &calls, 0), Err(Refusal::NotWaiting));
    /// assert_eq!(Reason::after(&mut storage, &calls, 1)?, Reason { input: 3, place: 1 });
    /// assert_eq!(Reason::after(&mut storage, &calls, 2), Err(Refusal::NeverAccepted));
    /// # Ok(())
    /// # }
    /// ```
    pub fn after(storage: &mut Storage, calls: &Calls, registration: u64) -> Result<Self, Refusal> {
        let told = made(storage, calls, |slices, answers, numbers, p, v| {
            sys::reason(slices, answers, numbers, p, v, registration)
        });
        told.map(Self::taken_apart)
    }

    /// Runs a job as [`crate::job::run`] does, and says why a registration waits where the job stopped: at its
    /// final, accepted or refused with [`Refusal::StillWaiting`]. The call works on the stack and
    /// needs less than 400 KB of it; `tests/reason/run.sh` measures that, and fails where it is more.
    ///
    /// ```
    /// use witness_order::reason::{NoReason, Reason};
    /// use witness_order::Refusal;
    ///
    /// let job = b"parallelism=4\nplaces=6\nset=0\nin=5,1,5\nout=1\nfinal=1\n";
    /// assert_eq!(Reason::of_job(job, 0), Ok(Reason { input: 5, place: 1 }));
    /// let never = NoReason::Registration(Refusal::NeverAccepted);
    /// assert_eq!(Reason::of_job(job, 1), Err(never));
    ///
    /// let refused = Reason::of_job(b"parallelism=4\nplaces=6\nset=9\n", 0).unwrap_err();
    /// assert!(refused.to_string().starts_with("line 3: a place is not below"));
    /// ```
    pub fn of_job(job: &[u8], registration: u64) -> Result<Self, NoReason> {
        match taken_apart(sys::job_reason(job, registration)) {
            Ok(told) => Ok(Self::taken_apart(told)),
            Err(Rejected {
                refusal: refusal @ (Refusal::NeverAccepted | Refusal::NotWaiting),
                ..
            }) => Err(NoReason::Registration(refusal)),
            Err(rejected) => Err(NoReason::Job(rejected)),
        }
    }

    fn taken_apart(told: u64) -> Self {
        Self {
            input: told / PLACE_RADIX,
            place: told % PLACE_RADIX,
        }
    }
}
