//! Host code, not proved: a safe interface to the proved scheduler of witness computations.
//!
//! A circuit's registrations each read some places and write others. The scheduler puts them into an
//! order in which every entry carries a parallelism p: the p entries from it on may run together.
//! The calls behind this crate are proved (docs/GUARANTEE.md says what that entitles you to); what
//! stands here hands slices to them and takes their answers apart.
//!
//! | module | call | what it is |
//! |---|---|---|
//! | [`mod@replay`] | `replay_calls` | a list of calls ([`calls`]) on a session of any size |
//! | [`held`] | `replay_held` | the same, and how many entries the window holds then |
//! | [`ascending`] | `replay_ascending` | the same under the ascending profile, in less storage |
//! | [`reason`] | `replay_reason`, `order_reason` | why a registration waits, after a list of calls or a job |
//! | [`job`] | `order_job` | a job's text, of at most 65,536 bytes, to its listing |
//! | [`needs`] | `job_needs` | what such a job needs, without running it |
//! | [`mod@line_end`] | `job_line_end` | where a line of a job ends |
//! | [`summary`] | `order_summary` | average, median and counts of a tally |
//! | [`guide`] | `guide_replay` | requests to the guide alone |
//! | [`entries`] | `order_append_new` | the order as a slice of structs |
//! | [`large`] | `replay_calls` | job texts of any size, as the program `order-large` reads them |
//!
//! # An order
//!
//! ```
//! use witness_order::{replay, Calls, Storage};
//!
//! # fn main() -> Result<(), Box<dyn std::error::Error>> {
//! // Place 0 is given; four registrations write 1, 2, 3 and 4, the last one on hardware of kind 7.
//! let calls = Calls::new()
//!     .set(0)
//!     .add(&[0], &[1])
//!     .add(&[1], &[2])
//!     .add(&[0], &[3])
//!     .add_in_lane(7, &[], &[4])
//!     .finish();
//!
//! // Two at a time, six places, a pool for all numbers of the lists.
//! let mut storage = Storage::new(2, 6, calls.list_numbers())?;
//! let done = replay(&mut storage, &calls)?;
//! assert!(done.first_refused().is_none());
//!
//! let order: Vec<u32> = done.entries().map(|entry| entry.added).collect();
//! assert_eq!(order, [0, 2, 1, 3]);
//! let widths: Vec<u32> = done.entries().map(|entry| entry.parallelism).collect();
//! assert_eq!(widths, [2, 2, 2, 1]);
//! let lanes: Vec<u32> = done.entries().map(|entry| entry.lane).collect();
//! assert_eq!(lanes, [0, 0, 0, 7]);
//! assert_eq!(done.summary().median, 2);
//! # Ok(())
//! # }
//! ```
//!
//! # A refusal
//!
//! A refused call changes nothing, and the calls after it run. Its number is a [`Refusal`], whose
//! `Display` says it in words:
//!
//! ```
//! use witness_order::{replay, Calls, Refusal, Storage};
//!
//! # fn main() -> Result<(), Box<dyn std::error::Error>> {
//! let calls = Calls::new().set(0).set(0).finish();
//! let mut storage = Storage::new(2, 6, 0)?;
//! let done = replay(&mut storage, &calls)?;
//! assert_eq!(done.numbers(), [0, 8, 0]);
//! assert_eq!(done.first_refused(), Some((1, Refusal::TakenPlace)));
//! # Ok(())
//! # }
//! ```
//!
//! # Linking
//!
//! build.rs looks for the archives in the folder that ORDER_LIBS names (an absolute path; that of an
//! installation is PREFIX/lib), else in target/staticlib of the repository, where `tools/archives` builds
//! those that are missing or older than a crate.

#![warn(missing_debug_implementations)]

pub mod ascending;
pub mod calls;
pub mod entries;
pub mod guide;
pub mod job;
pub mod large;
pub mod layout;
pub mod line_end;
pub mod needs;
pub mod reason;
pub mod refusal;
pub mod replay;
pub mod summary;
mod sys;

pub use ascending::{replay_ascending, AscendingStorage};
pub use calls::{Call, Calls};
pub use layout::{limits, Entry, Location, Row};
pub use line_end::line_end;
pub use needs::Needs;
pub use reason::Reason;
pub use refusal::Refusal;
pub use replay::{held, replay, Replayed, Storage, StorageError};
pub use summary::Summary;

/// The repository's version.
pub const VERSION: &str = env!("ORDER_VERSION");

/// A refusal's number as the enum. The proved calls give no other numbers.
fn refusal(number: u64) -> Refusal {
    match Refusal::from_number(number) {
        Some(refusal) => refusal,
        None => panic!("{number} is no number of a refusal"),
    }
}
