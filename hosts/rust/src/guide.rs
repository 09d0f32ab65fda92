//! Host code, not proved: requests to the guide alone, by the proved `guide_replay`.
//!
//! ```
//! use witness_order::guide::{replay, Request};
//! use witness_order::{Location, Refusal, StorageError};
//!
//! let push = |after| Request::Push { value: 7, added: 0, accepted: 0, after };
//! let first = Location { span: 1, position: 0 };
//! let unknown = Location { span: 9, position: 0 };
//! let requests = [push(None), push(Some(first)), push(Some(unknown)), Request::Flush];
//!
//! let done = replay(3, 9, &requests).unwrap();
//! let answers: Vec<_> = done.answers().map(|answer| answer.result).collect();
//! let second = Location { span: 2, position: 0 };
//! let wanted = [Ok(Some(first)), Ok(Some(second)), Err(Refusal::NotHeld), Ok(None)];
//! assert_eq!(answers, wanted);
//! assert_eq!(done.entries().map(|entry| entry.parallelism).collect::<Vec<_>>(), [1, 1]);
//! let refused = StorageError::Refused(Refusal::OutOfRange);
//! assert_eq!(replay(0, 9, &requests).unwrap_err(), refused);
//! ```

use crate::layout::{Entry, Location, Needed, ANSWER, ENTRY, REQUEST, SPANS};
use crate::refusal::Refusal;
use crate::replay::{zeros, StorageError};
use crate::sys;

/// A request to the guide.
#[derive(Clone, Copy, Debug, PartialEq, Eq)]
pub enum Request {
    /// Places a value, after an entry or after none.
    Push {
        value: u32,
        added: u32,
        accepted: u32,
        after: Option<Location>,
    },
    /// Releases all spans.
    Flush,
}

impl Request {
    fn numbers(&self) -> [u32; REQUEST] {
        match *self {
            Request::Flush => [0; REQUEST],
            Request::Push {
                value,
                added,
                accepted,
                after,
            } => {
                let kind = if after.is_some() { 2 } else { 1 };
                let Location { span, position } = after.unwrap_or_default();
                [kind, span, position, value, added, accepted]
            }
        }
    }
}

/// The guide's answer to a request.
#[derive(Clone, Copy, Debug, PartialEq, Eq)]
pub struct Answer {
    /// Where a pushed value lies, nothing for a flush, or why the request was refused.
    pub result: Result<Option<Location>, Refusal>,
    /// The order's length after it.
    pub written: u32,
    /// The number of the window's first span after it, and the lengths of its 32 spans.
    pub first_span: u32,
    pub lengths: [u32; SPANS],
}

/// What the guide came to.
#[derive(Clone, Debug)]
pub struct Guided {
    requests: Vec<u32>,
    order: Vec<u32>,
    tally: Vec<u32>,
    answers: Vec<u32>,
}

/// Opens a guide of parallelism p for at most v pushes and serves the requests. A refused request
/// changed nothing, and those after it are served. Refused as a whole where p or v is out of range; an
/// error too where the system has not the memory.
pub fn replay(p: u64, v: u64, requests: &[Request]) -> Result<Guided, StorageError> {
    // On no storage at all the proved call refuses p and v out of range with 1, all others with 2.
    let empty = sys::GuideSlices {
        spans: &mut [],
        order: &mut [],
        tally: &mut [],
    };
    match crate::refusal(sys::guide(p, v, &[], empty, &mut []).into()) {
        Refusal::TooShort => {}
        refusal => return Err(StorageError::Refused(refusal)),
    }
    let needed = Needed::new(p as usize, v as usize);
    let lent = needed.spans + needed.order + needed.tally;
    let bytes = 4 * (lent + (REQUEST + ANSWER) * requests.len()) as u64;
    let mut spans = zeros(needed.spans, bytes)?;
    let mut guided = Guided {
        requests: zeros(REQUEST * requests.len(), bytes)?,
        order: zeros(needed.order, bytes)?,
        tally: zeros(needed.tally, bytes)?,
        answers: zeros(ANSWER * requests.len(), bytes)?,
    };
    for (numbers, request) in guided.requests.chunks_exact_mut(REQUEST).zip(requests) {
        numbers.copy_from_slice(&request.numbers());
    }
    let slices = sys::GuideSlices {
        spans: &mut spans,
        order: &mut guided.order,
        tally: &mut guided.tally,
    };
    match sys::guide(p, v, &guided.requests, slices, &mut guided.answers) {
        0 => Ok(guided),
        number => Err(StorageError::Refused(crate::refusal(number.into()))),
    }
}

impl Guided {
    /// The answers, one for each request.
    pub fn answers(&self) -> impl ExactSizeIterator<Item = Answer> + '_ {
        let requests = self.requests.chunks_exact(REQUEST);
        let answers = self.answers.chunks_exact(ANSWER);
        requests.zip(answers).map(|(request, answer)| {
            let location = Location {
                span: answer[1],
                position: answer[2],
            };
            Answer {
                result: match answer[0] {
                    0 => Ok((request[0] != 0).then_some(location)),
                    number => Err(crate::refusal(number.into())),
                },
                written: answer[3],
                first_span: answer[4],
                lengths: answer[5..].try_into().expect("32 lengths"),
            }
        })
    }

    /// The order's entries.
    pub fn entries(&self) -> impl ExactSizeIterator<Item = Entry> + '_ {
        let length = self.answers().last().map_or(0, |answer| answer.written) as usize;
        self.order[..ENTRY * length]
            .chunks_exact(ENTRY)
            .map(Entry::from_numbers)
    }

    /// How many entries have the parallelism 0, 1, .. p.
    pub fn tally(&self) -> &[u32] {
        &self.tally
    }
}
