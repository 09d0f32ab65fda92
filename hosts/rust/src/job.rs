//! Host code, not proved: a job's text to its listing, by the proved `order_job`. It has storage for a
//! parallelism of at most 64, at most 512 places and 4,096 list numbers; [`crate::large`] has no such
//! bounds.

use std::fmt;

use crate::layout::{limits::REPLY_RADIX, JOB_BYTES};
use crate::refusal::Refusal;
use crate::sys;

/// Why a job was refused, and on which of its lines.
#[derive(Clone, Copy, Debug, PartialEq, Eq)]
pub struct Rejected {
    pub refusal: Refusal,
    /// From 1.
    pub line: u64,
}

impl fmt::Display for Rejected {
    fn fmt(&self, f: &mut fmt::Formatter<'_>) -> fmt::Result {
        write!(f, "line {}: {}", self.line, self.refusal)
    }
}

impl std::error::Error for Rejected {}

/// Runs a job and gives its listing. The call works on the stack and needs less than 450 KB of it;
/// `tests/job/run.sh` measures that, and fails where it is more.
///
/// ```
/// use witness_order::{job, Refusal};
/// let listing = job::run(b"parallelism=2\nplaces=6\nset=0\nin=0\nout=1\nfinal=1\n").unwrap();
/// assert!(listing.starts_with("status=0\nentries=1\nplaces=2\n"));
///
/// let rejected = job::run(b"parallelism=2\nplaces=6\nset=0\nset=0\n").unwrap_err();
/// assert_eq!((rejected.refusal, rejected.line), (Refusal::TakenPlace, 4));
/// assert!(rejected.to_string().starts_with("line 4: a place to be set"));
/// ```
pub fn run(job: &[u8]) -> Result<String, Rejected> {
    let mut listing = vec![0; JOB_BYTES];
    let length = run_into(job, &mut listing)?;
    listing.truncate(length);
    Ok(String::from_utf8(listing).expect("a listing is ASCII"))
}

/// Runs a job and returns its listing's length. The listing stands at the start of `listing`, and what
/// lies behind it is untouched; a refused job leaves all of it untouched.
pub fn run_into(job: &[u8], listing: &mut [u8]) -> Result<usize, Rejected> {
    taken_apart(sys::job(job, listing)).map(|length| length as usize)
}

/// What a call that reads a job returns: for an accepted job a number of its own, else the refusal.
pub(crate) fn taken_apart(returned: u64) -> Result<u64, Rejected> {
    match returned % REPLY_RADIX {
        0 => Ok(returned / REPLY_RADIX),
        number => Err(Rejected {
            refusal: crate::refusal(number),
            line: returned / REPLY_RADIX,
        }),
    }
}
