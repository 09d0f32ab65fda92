//! Host code, not proved: this repository's `replay` and `ascending_replay` as sides of the benchmark. They are linked in by
//! `--cfg ours` and `--cfg ascending`, which bench/build.sh gives once crates.txt lists the crates.

use crate::workloads::Workload;

#[path = "../../hosts/rust/src/layout.rs"]
#[allow(dead_code)]
mod layout;

use layout::{Entry, Needed, ENTRY};

/// Which exported call is made.
#[derive(Clone, Copy, PartialEq, Eq)]
pub enum Session {
    Ordinary,
    Ascending,
}

/// The storage that a session is lent, cleared; an ascending one has neither waiting storage nor pool.
#[cfg_attr(not(ours), allow(dead_code))]
pub struct Lent {
    session: Session,
    spans: Vec<u32>,
    order: Vec<u32>,
    tally: Vec<u32>,
    rows: Vec<u32>,
    marks: Vec<u16>,
    locations: Vec<u64>,
    waiting: Vec<u64>,
    pool: Vec<u32>,
    answers: Vec<u64>,
}

/// Numbers that are really written: a block that the system hands out as zeros would be met for the
/// first time during the run.
fn cleared<T: Clone>(zero: T, count: usize) -> Vec<T> {
    let mut numbers = Vec::with_capacity(count);
    std::hint::black_box(&mut numbers);
    numbers.resize(count, zero);
    numbers
}

impl Lent {
    pub fn new(session: Session, parallelism: u32, workload: &Workload) -> Self {
        let needed = Needed::new(parallelism as usize, workload.capacity());
        let (waiting, pooled) = match session {
            Session::Ordinary => (needed.waiting, workload.pooled),
            Session::Ascending => (0, 0),
        };
        Self {
            session,
            spans: cleared(0, needed.spans),
            order: cleared(0, needed.order),
            tally: cleared(0, needed.tally),
            rows: cleared(0, needed.rows),
            marks: cleared(0, needed.marks),
            locations: cleared(0, needed.locations),
            waiting: cleared(0, waiting),
            pool: cleared(0, pooled),
            answers: cleared(0, workload.calls.len()),
        }
    }

    /// Bytes lent for each place: all but the spans, the tally, the pool and the answers.
    pub fn per_place(session: Session) -> u64 {
        let bytes = |places| match session {
            Session::Ordinary => Needed::new(1, places).bytes(),
            Session::Ascending => Needed::new(1, places).ascending_bytes(),
        };
        bytes(2) - bytes(1)
    }

    /// Whether no call was refused.
    pub fn all_accepted(&self) -> bool {
        self.answers.iter().all(|answer| *answer == 0)
    }

    /// Each entry's added, accepted and parallelism, in the order.
    pub fn order(&self, length: usize) -> impl Iterator<Item = (u32, u32, u32)> + '_ {
        let entries = self.order[..ENTRY * length].chunks_exact(ENTRY).map(Entry::from_numbers);
        entries.map(|entry| (entry.added, entry.accepted, entry.parallelism))
    }
}

#[cfg(ours)]
mod linked {
    use super::layout::limits::REPLY_RADIX;
    use super::{Lent, Session};

    // A slice goes as a pointer and a length.
    extern "C" {
        #[rustfmt::skip]
        fn replay_calls(
            spans: *mut u32, spans_length: usize, order: *mut u32, order_length: usize,
            tally: *mut u32, tally_length: usize, rows: *mut u32, rows_length: usize,
            marks: *mut u16, marks_length: usize, locations: *mut u64, locations_length: usize,
            waiting: *mut u64, waiting_length: usize, pool: *mut u32, pool_length: usize,
            answers: *mut u64, answers_length: usize, calls: *const u64, calls_length: usize,
            parallelism: u64, places: u64,
        ) -> u64;

        #[cfg(ascending)]
        #[rustfmt::skip]
        fn replay_ascending(
            spans: *mut u32, spans_length: usize, order: *mut u32, order_length: usize,
            tally: *mut u32, tally_length: usize, rows: *mut u32, rows_length: usize,
            marks: *mut u16, marks_length: usize, locations: *mut u64, locations_length: usize,
            answers: *mut u64, answers_length: usize, calls: *const u64, calls_length: usize,
            parallelism: u64, places: u64, list_numbers: u64,
        ) -> u64;
    }

    pub const LINKED: bool = true;

    pub fn run(lent: &mut Lent, calls: &[u64], parallelism: u32, places: usize) {
        macro_rules! slice {
            ($name:ident) => {
                (lent.$name.as_mut_ptr(), lent.$name.len())
            };
        }
        let (spans, order, tally) = (slice!(spans), slice!(order), slice!(tally));
        let (rows, marks, locations) = (slice!(rows), slice!(marks), slice!(locations));
        let (waiting, pool, answers) = (slice!(waiting), slice!(pool), slice!(answers));
        let (p, v) = (parallelism as u64, places as u64);
        // SAFETY, for both: each pointer and length is a whole vector's, all of them apart from each other.
        let number = match lent.session {
            Session::Ordinary => unsafe {
                replay_calls(
                    spans.0, spans.1, order.0, order.1, tally.0, tally.1, rows.0, rows.1, marks.0,
                    marks.1, locations.0, locations.1, waiting.0, waiting.1, pool.0, pool.1,
                    answers.0, answers.1, calls.as_ptr(), calls.len(), p, v,
                )
            },
            #[cfg(ascending)]
            Session::Ascending => unsafe {
                replay_ascending(
                    spans.0, spans.1, order.0, order.1, tally.0, tally.1, rows.0, rows.1, marks.0,
                    marks.1, locations.0, locations.1, answers.0, answers.1, calls.as_ptr(),
                    calls.len(), p, v, u64::MAX,
                )
            },
            #[cfg(not(ascending))]
            Session::Ascending => unreachable!("no ascending_replay is linked in"),
        };
        // The order's length times a radix that is above every refusal's number, or such a number.
        assert!(number % REPLY_RADIX == 0, "replay refused the list with {number}");
    }
}

#[cfg(not(ours))]
mod linked {
    use super::Lent;

    pub const LINKED: bool = false;

    pub fn run(_: &mut Lent, _: &[u64], _: u32, _: usize) {
        unreachable!("no replay is linked in")
    }
}

/// Whether a side of this repository is linked in.
pub fn linked(session: Session) -> bool {
    linked::LINKED && (session == Session::Ordinary || cfg!(ascending))
}

pub use linked::run;
