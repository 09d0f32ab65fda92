//! Host code, not proved: jobs of any size, by the proved `replay_calls`, and by `replay_reason` who waits at a final.
//!
//! The same text as for [`crate::job`] gives the same listing, or the same two lines for a refused
//! job; but the parallelism goes to 64,999, the places to 16,777,216, the pool has room for all lists
//! of the job, and neither job nor listing has a greatest length.
//!
//! ```
//! use witness_order::large::{run, Options};
//! let job = b"parallelism=2\nplaces=600\nset=0\nin=0\nout=1\nfinal=1\n";
//! let mut listing = Vec::new();
//! let verdict = run(&job[..], &mut listing, &Options::default(), &mut ()).unwrap();
//! assert!(verdict.is_ok());
//! assert!(listing.starts_with(b"status=0\nentries=1\nplaces=2\n"));
//! ```

pub mod listing;
pub mod text;

use std::fmt;
use std::io::{self, BufRead, Write};

use crate::calls::Calls;
use crate::reason::Reason;
use crate::refusal::Refusal;
use crate::replay::{replay, Replayed, Storage, StorageError};
use listing::{Head, Listed, Listing};
use text::{call_lines, Malformed, Part, Quoted, Reader};

/// How a job is run.
#[derive(Clone, Copy, Debug, Default)]
pub struct Options {
    /// The pool's length W; else as many numbers as the lists of the job have.
    pub pool: Option<u64>,
    /// Whether a final that is refused because registrations wait gives a reason, for which the calls are made again.
    pub reasons: bool,
}

/// What keeps a job from being run to its end, apart from its own refusals.
#[derive(Debug)]
pub enum Failure {
    /// The job cannot be read.
    Input(io::Error),
    /// The listing cannot be written.
    Output(io::Error),
    /// So many bytes are needed, and the system does not give them.
    Memory(u64),
}

impl fmt::Display for Failure {
    fn fmt(&self, f: &mut fmt::Formatter<'_>) -> fmt::Result {
        match self {
            Failure::Input(error) => write!(f, "the job cannot be read: {error}"),
            Failure::Output(error) => write!(f, "the listing cannot be written: {error}"),
            Failure::Memory(bytes) => StorageError::Memory(*bytes).fmt(f),
        }
    }
}

impl std::error::Error for Failure {}

/// Is told how far a long job is.
pub trait Progress {
    /// So many bytes of the job are read.
    fn read(&mut self, _bytes: u64) {}
    /// So many calls are about to be made, which takes a while without news.
    fn placing(&mut self, _calls: usize) {}
    /// So many entries of all are written.
    fn written(&mut self, _entries: usize, _of: usize) {}
}

/// Nobody is told.
impl Progress for () {}

/// Why a job was refused.
#[derive(Clone, Debug, PartialEq, Eq)]
pub struct Rejection {
    pub refusal: Refusal,
    /// From 1.
    pub line: u64,
    /// What should have stood on a malformed line.
    pub expected: Option<&'static str>,
    /// The lines that it is about, with their numbers.
    pub quoted: Vec<(u64, Quoted)>,
    /// The first registration that waits at a final that is refused for that, and why it does; if reasons are wanted.
    pub waiting: Option<(u64, Reason)>,
}

impl From<Malformed> for Rejection {
    fn from(malformed: Malformed) -> Self {
        Self {
            refusal: Refusal::Malformed,
            line: malformed.line,
            expected: Some(malformed.expected),
            quoted: vec![(malformed.line, malformed.quoted)],
            waiting: None,
        }
    }
}

/// A job whose head is accepted.
#[derive(Debug)]
pub struct Job {
    pub p: u64,
    pub v: u64,
    /// The calls up to the first malformed line, if there is one.
    pub calls: Calls,
    pub ended: Part<()>,
}

/// The memory that a job takes, in bytes.
#[derive(Clone, Copy, Debug, PartialEq, Eq)]
pub struct Memory {
    /// The session's storage, and of it the pool.
    pub storage: u64,
    pub pool: u64,
    /// The calls as they are read, and their numbers.
    pub calls: u64,
    pub answers: u64,
}

impl Memory {
    pub fn total(&self) -> u64 {
        self.storage
            .saturating_add(self.calls)
            .saturating_add(self.answers)
    }
}

/// Reads a job to its end, or to the line that ends the reading. A head that is refused is an `Err`
/// of the inner result.
pub fn read(
    input: impl BufRead,
    progress: &mut dyn Progress,
) -> Result<Result<Job, Rejection>, Failure> {
    let mut reader = Reader::new(input);
    let (p, v) = match reader.head()? {
        Ok(head) => head,
        Err(malformed) => return Ok(Err(malformed.into())),
    };
    if let Err(refusal) = Storage::bytes(p, v, 0) {
        return Ok(Err(opening(refusal, p, v)));
    }
    let (calls, ended) = reader.calls(progress)?;
    Ok(Ok(Job { p, v, calls, ended }))
}

/// The refusal of an opening, which is line 2's.
fn opening(refusal: Refusal, p: u64, v: u64) -> Rejection {
    let line = |text: String| Quoted::Line {
        start: text.into_bytes(),
        more: false,
    };
    Rejection {
        refusal,
        line: 2,
        expected: None,
        quoted: vec![
            (1, line(format!("parallelism={p}"))),
            (2, line(format!("places={v}"))),
        ],
        waiting: None,
    }
}

impl Job {
    /// The pool's length. A pool that has room for all lists of the job is as good as any longer one.
    fn pool(&self, options: &Options) -> usize {
        let all = self.calls.list_numbers();
        options
            .pool
            .map_or(all, |pool| pool.min(all as u64) as usize)
    }

    /// The memory that running it takes.
    pub fn memory(&self, options: &Options) -> Memory {
        let pool = self.pool(options);
        Memory {
            // The head was accepted, so p and v are in range.
            storage: Storage::bytes(self.p, self.v, pool).unwrap_or(0),
            pool: 4 * pool as u64,
            calls: 8 * self.calls.numbers.len() as u64,
            answers: 8 * self.calls.len() as u64,
        }
    }

    /// Makes the calls and writes the listing, or gives the first refusal.
    fn run<W: Write>(
        self,
        listing: &mut Listing<W>,
        options: &Options,
        progress: &mut dyn Progress,
    ) -> Result<Result<(), Rejection>, Failure> {
        let needed = self.memory(options).total();
        let memory = |_| Failure::Memory(needed);
        let mut storage = Storage::new(self.p, self.v, self.pool(options)).map_err(memory)?;
        storage.reserve_calls(self.calls.len()).map_err(memory)?;
        progress.placing(self.calls.len());
        let done = match replay(&mut storage, &self.calls) {
            Ok(done) => done,
            Err(refusal) => return Ok(Err(opening(refusal, self.p, self.v))),
        };
        // A refused call comes before the malformed line: the lines go one after another.
        if let Some((index, refusal)) = done.first_refused() {
            let quoted = call_lines(&self.calls, index);
            let wanted = options.reasons && refusal == Refusal::StillWaiting;
            let asked = done.first_waiting().filter(|_| wanted);
            // The calls are made once more: final is the last of them.
            let waiting = asked.and_then(|r| {
                let reason = Reason::after(&mut storage, &self.calls, r);
                reason.ok().map(|reason| (r, reason))
            });
            return Ok(Err(Rejection {
                refusal,
                line: quoted.last().map_or(0, |(line, _)| *line),
                expected: None,
                quoted,
                waiting,
            }));
        }
        if let Err(malformed) = self.ended {
            return Ok(Err(malformed.into()));
        }
        write_order(&done, listing, progress).map_err(Failure::Output)?;
        Ok(Ok(()))
    }
}

fn write_order<W: Write>(
    done: &Replayed,
    listing: &mut Listing<W>,
    progress: &mut dyn Progress,
) -> io::Result<()> {
    listing.head(&Head {
        entries: done.len() as u64,
        places: done.leading_places() as u64,
        floor: done.floor().into(),
        median: done.summary().median.into(),
    })?;
    for (index, entry) in done.entries().enumerate() {
        listing.entry(Listed {
            added: entry.added,
            accepted: entry.accepted,
            parallelism: entry.parallelism,
            written: done.written(entry.added),
            lane: entry.lane,
        })?;
        progress.written(index + 1, done.len());
    }
    Ok(())
}

/// Reads a job and writes its listing, or the two lines of a refused one. The inner result says which.
pub fn run(
    input: impl BufRead,
    output: impl Write,
    options: &Options,
    progress: &mut dyn Progress,
) -> Result<Result<(), Rejection>, Failure> {
    let mut listing = Listing::new(output);
    let verdict = match read(input, progress)? {
        Ok(job) => job.run(&mut listing, options, progress)?,
        Err(rejection) => Err(rejection),
    };
    if let Err(rejection) = &verdict {
        let number = rejection.refusal.number();
        listing
            .refused(number, rejection.line)
            .map_err(Failure::Output)?;
    }
    listing.finish().map_err(Failure::Output)?;
    Ok(verdict)
}
