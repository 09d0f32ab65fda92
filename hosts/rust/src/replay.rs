//! Host code, not proved: a list of calls on a session, by the proved `replay_calls` and `replay_held`.

use std::alloc::{alloc_zeroed, Layout};
use std::fmt;

use crate::calls::Calls;
use crate::layout::limits::REPLY_RADIX;
use crate::layout::{Entry, Location, Needed, Row, ENTRY, ROW, ROW_WRITTEN, SET, UNTRACKED};
use crate::refusal::Refusal;
use crate::summary::Summary;
use crate::sys::{self, Count};

/// The storage of a session: parallelism p, v places, and a pool of w numbers for the lists of all
/// accepted adds. It can be used for one list of calls after another.
#[derive(Debug)]
pub struct Storage {
    results: Results,
    waiting: Vec<u64>,
    pool: Vec<u32>,
}

/// What a session of either kind works on and leaves, and the numbers of its calls.
#[derive(Debug)]
pub(crate) struct Results {
    pub(crate) p: u64,
    pub(crate) v: u64,
    pub(crate) spans: Vec<u32>,
    pub(crate) order: Vec<u32>,
    pub(crate) tally: Vec<u32>,
    pub(crate) rows: Vec<u32>,
    pub(crate) marks: Vec<u16>,
    pub(crate) locations: Vec<u64>,
    pub(crate) answers: Vec<u64>,
}

/// Why there is no storage.
#[derive(Clone, Copy, Debug, PartialEq, Eq)]
pub enum StorageError {
    /// p is not from 1 to 64,999, or v not from 1 to 16,777,216.
    Refused(Refusal),
    /// So many bytes are needed, and the system does not give them.
    Memory(u64),
}

impl fmt::Display for StorageError {
    fn fmt(&self, f: &mut fmt::Formatter<'_>) -> fmt::Result {
        match self {
            StorageError::Refused(refusal) => refusal.fmt(f),
            StorageError::Memory(bytes) => {
                write!(
                    f,
                    "{bytes} bytes of memory are needed, and the system does not give them"
                )
            }
        }
    }
}

impl std::error::Error for StorageError {}

/// Numbers whose 0 has no bit set.
pub(crate) trait Number: Copy {}
impl Number for u16 {}
impl Number for u32 {}
impl Number for u64 {}

/// Zeros as the system hands them out, or an error where it has not so many. (`vec!` would end the
/// program, and a vector that is filled afterwards would be written twice.)
pub(crate) fn zeros<T: Number>(count: usize, bytes: u64) -> Result<Vec<T>, StorageError> {
    let none = StorageError::Memory(bytes);
    let layout = Layout::array::<T>(count).map_err(|_| none)?;
    if layout.size() == 0 {
        return Ok(Vec::new());
    }
    // SAFETY: the layout is that of `count` numbers and not empty, as `alloc_zeroed` asks. The vector
    // takes over what was allocated with just this layout, all of it zeros.
    unsafe {
        let start = alloc_zeroed(layout).cast::<T>();
        match start.is_null() {
            true => Err(none),
            false => Ok(Vec::from_raw_parts(start, count, count)),
        }
    }
}

impl Results {
    /// Allocates them, for p and v in range; `bytes` are told where the system does not give them.
    pub(crate) fn new(p: u64, v: u64, bytes: u64) -> Result<Self, StorageError> {
        let needed = Needed::new(p as usize, v as usize);
        Ok(Self {
            p,
            v,
            spans: zeros(needed.spans, bytes)?,
            order: zeros(needed.order, bytes)?,
            tally: zeros(needed.tally, bytes)?,
            rows: zeros(needed.rows, bytes)?,
            marks: zeros(needed.marks, bytes)?,
            locations: zeros(needed.locations, bytes)?,
            answers: Vec::new(),
        })
    }

    /// Allocates the numbers of so many calls.
    pub(crate) fn reserve_calls(&mut self, count: usize) -> Result<(), StorageError> {
        if self.answers.len() < count {
            self.answers = zeros(count, (count as u64).saturating_mul(8))?;
        }
        Ok(())
    }

    /// The same, where the program ends if the system does not give the memory.
    pub(crate) fn lengthen_answers(&mut self, count: usize) {
        if self.answers.len() < count {
            self.answers.resize(count, 0);
        }
    }
}

impl Storage {
    /// Allocates all that a session needs. Nothing is allocated where p or v is out of range.
    ///
    /// ```
    /// use witness_order::{Refusal, Storage, StorageError};
    /// let error = Storage::new(0, 6, 16).unwrap_err();
    /// assert_eq!(error, StorageError::Refused(Refusal::OutOfRange));
    /// assert!(error.to_string().contains("from 1 to 64,999"));
    /// ```
    pub fn new(p: u64, v: u64, w: usize) -> Result<Self, StorageError> {
        let bytes = Self::bytes(p, v, w).map_err(StorageError::Refused)?;
        Ok(Self {
            results: Results::new(p, v, bytes)?,
            waiting: zeros(Needed::new(p as usize, v as usize).waiting, bytes)?,
            pool: zeros(w, bytes)?,
        })
    }

    /// The bytes that [`Storage::new`] allocates, or the refusal of p and v.
    pub fn bytes(p: u64, v: u64, w: usize) -> Result<u64, Refusal> {
        // The proved call judges the range: on no storage at all it refuses with 1, or else with 2.
        let empty = sys::Slices {
            spans: &mut [],
            order: &mut [],
            tally: &mut [],
            rows: &mut [],
            marks: &mut [],
            locations: &mut [],
            waiting: &mut [],
            pool: &mut [],
        };
        match crate::refusal(sys::replay(Count::Written, empty, &mut [], &[], p, v)) {
            Refusal::TooShort => {
                let needed = Needed::new(p as usize, v as usize);
                Ok(needed.bytes().saturating_add((w as u64).saturating_mul(4)))
            }
            refusal => Err(refusal),
        }
    }

    /// Allocates the numbers of so many calls, which [`replay`] would do otherwise.
    pub fn reserve_calls(&mut self, count: usize) -> Result<(), StorageError> {
        self.results.reserve_calls(count)
    }

    pub fn parallelism(&self) -> u64 {
        self.results.p
    }

    pub fn places(&self) -> u64 {
        self.results.v
    }

    pub fn pool(&self) -> usize {
        self.pool.len()
    }
}

/// Opens a session on the storage, whatever stands there, and makes all calls. Calls that were refused
/// changed nothing; their numbers are in the result. The list as a whole is not refused: the storage
/// has the right lengths and [`Calls`] is well formed; the proved call's own answer is passed on.
pub fn replay<'a>(storage: &'a mut Storage, calls: &'a Calls) -> Result<Replayed<'a>, Refusal> {
    let length = count(Count::Written, storage, calls)?;
    Ok(Replayed {
        storage: &storage.results,
        calls,
        length,
    })
}

/// Makes all calls as [`replay()`] does, and gives how many entries the window's 32 spans hold then: those
/// that are placed and not yet in the order. Registrations that wait are not counted.
///
/// ```
/// use witness_order::{held, Calls, Storage};
///
/// # fn main() -> Result<(), Box<dyn std::error::Error>> {
/// // Two are placed; the third waits for place 3.
/// let calls = Calls::new().add(&[], &[0]).add(&[0], &[1]).add(&[3], &[2]);
/// let mut storage = Storage::new(2, 6, calls.list_numbers())?;
/// assert_eq!(held(&mut storage, &calls)?, 2);
/// assert_eq!(held(&mut storage, &calls.flush())?, 0);
/// # Ok(())
/// # }
/// ```
pub fn held(storage: &mut Storage, calls: &Calls) -> Result<usize, Refusal> {
    count(Count::Held, storage, calls)
}

/// Makes all calls and gives what is counted of the session then.
fn count(count: Count, storage: &mut Storage, calls: &Calls) -> Result<usize, Refusal> {
    let counted = made(storage, calls, |slices, answers, numbers, p, v| {
        sys::replay(count, slices, answers, numbers, p, v)
    });
    counted.map(|counted| counted as usize)
}

/// Makes all calls by one of the exported ones and gives what it says of the session then.
pub(crate) fn made(
    storage: &mut Storage,
    calls: &Calls,
    function: impl FnOnce(sys::Slices, &mut [u64], &[u64], u64, u64) -> u64,
) -> Result<u64, Refusal> {
    let results = &mut storage.results;
    results.lengthen_answers(calls.len());
    let Results { p, v, .. } = *results;
    let slices = sys::Slices {
        spans: &mut results.spans,
        order: &mut results.order,
        tally: &mut results.tally,
        rows: &mut results.rows,
        marks: &mut results.marks,
        locations: &mut results.locations,
        waiting: &mut storage.waiting,
        pool: &mut storage.pool,
    };
    let answers = &mut results.answers[..calls.len()];
    taken_apart(function(slices, answers, calls.numbers(), p, v))
}

/// What one of the exported calls says: a number, or a refusal.
pub(crate) fn taken_apart(returned: u64) -> Result<u64, Refusal> {
    match returned % REPLY_RADIX {
        0 => Ok(returned / REPLY_RADIX),
        number => Err(crate::refusal(number)),
    }
}

/// What stands in the storage after a list of calls.
#[derive(Clone, Copy, Debug)]
pub struct Replayed<'a> {
    pub(crate) storage: &'a Results,
    pub(crate) calls: &'a Calls,
    pub(crate) length: usize,
}

/// A place as the session left it.
#[derive(Clone, Copy, Debug, PartialEq, Eq)]
pub enum Place {
    Untracked,
    Set,
    /// Written by the registration that is placed there.
    Written(Location),
}

impl<'a> Replayed<'a> {
    /// The number of each call, 0 if it was accepted.
    pub fn numbers(&self) -> &'a [u64] {
        &self.storage.answers[..self.calls.len()]
    }

    /// The first refused call, counted from 0, and why.
    pub fn first_refused(&self) -> Option<(usize, Refusal)> {
        let index = self.numbers().iter().position(|number| *number != 0)?;
        Some((index, crate::refusal(self.numbers()[index])))
    }

    /// The order's length.
    pub fn len(&self) -> usize {
        self.length
    }

    pub fn is_empty(&self) -> bool {
        self.length == 0
    }

    /// The order's entries.
    pub fn entries(&self) -> impl ExactSizeIterator<Item = Entry> + DoubleEndedIterator + 'a {
        self.flat_order()
            .chunks_exact(ENTRY)
            .map(Entry::from_numbers)
    }

    /// The order as the proved calls lay it out.
    pub fn flat_order(&self) -> &'a [u32] {
        &self.storage.order[..ENTRY * self.length]
    }

    /// How many adds were accepted.
    pub fn registrations(&self) -> usize {
        let adds = self.calls.iter().zip(self.numbers());
        adds.filter(|(call, number)| call.lists().is_some() && **number == 0)
            .count()
    }

    /// A row for each accepted add, in their order. While its entry is not in the order only
    /// `written` says something; all else is 0.
    pub fn rows(&self) -> impl ExactSizeIterator<Item = Row> + DoubleEndedIterator + 'a {
        let rows = &self.storage.rows[..ROW * self.registrations()];
        rows.chunks_exact(ROW).map(Row::from_numbers)
    }

    /// The order's length when the add of that registration ended; 0 while there is no such add.
    ///
    /// # Panics
    ///
    /// Where `added` is not below v, which no registration is.
    pub fn written(&self, added: u32) -> u32 {
        let number = self.storage.rows.get(ROW * added as usize + ROW_WRITTEN);
        *number.unwrap_or_else(|| panic!("registration {added} of at most {}", self.storage.v))
    }

    /// How many entries have the parallelism 0, 1, .. p.
    pub fn tally(&self) -> &'a [u32] {
        &self.storage.tally
    }

    /// The smallest parallelism among the entries whose index plus p is at most the order's length, 0
    /// where there is none. These are all entries but the last p - 1, in which final lets an order
    /// taper to 1.
    ///
    /// ```
    /// use witness_order::{replay, Calls, Storage};
    ///
    /// # fn main() -> Result<(), Box<dyn std::error::Error>> {
    /// // Four that read nothing: their parallelisms are 3, 3, 2 and 1, and two of them count.
    /// let calls = (0..4).fold(Calls::new(), |calls, place| calls.add(&[], &[place])).finish();
    /// let mut storage = Storage::new(3, 6, calls.list_numbers())?;
    /// assert_eq!(replay(&mut storage, &calls)?.floor(), 3);
    /// # Ok(())
    /// # }
    /// ```
    pub fn floor(&self) -> u32 {
        let counted = (self.length + 1).saturating_sub(self.storage.p as usize);
        self.entries()
            .take(counted)
            .map(|entry| entry.parallelism)
            .min()
            .unwrap_or(0)
    }

    /// How many places from 0 on are tracked, without a gap: the high mark plus 1.
    pub fn leading_places(&self) -> usize {
        let marks = &self.storage.marks;
        marks
            .iter()
            .position(|mark| *mark == UNTRACKED)
            .unwrap_or(marks.len())
    }

    /// The first registration that waits: it has an input that is not among the leading places.
    /// [`crate::Reason::after`] says why it does.
    pub fn first_waiting(&self) -> Option<u64> {
        let leading = self.leading_places() as u64;
        let accepted = self.calls.iter().zip(self.numbers());
        let mut inputs = accepted
            .filter(|(_, number)| **number == 0)
            .filter_map(|(call, _)| call.lists().map(|(inputs, _)| *inputs));
        let waits = |inputs: &[u64]| inputs.iter().any(|input| *input >= leading);
        inputs.position(waits).map(|index| index as u64)
    }

    /// A place as the calls left it.
    ///
    /// # Panics
    ///
    /// Where `place` is not below v.
    pub fn place(&self, place: usize) -> Place {
        match self.storage.marks.get(place) {
            None => panic!("place {place} of {}", self.storage.v),
            Some(&UNTRACKED) => Place::Untracked,
            Some(&SET) => Place::Set,
            Some(_) => Place::Written(Location::from_number(self.storage.locations[place])),
        }
    }

    /// What the tally comes to, by the proved `order_summary`.
    pub fn summary(&self) -> Summary {
        // A session's tally has at most 65,000 counts, and their sum is at most v.
        Summary::of(self.tally())
            .unwrap_or_else(|refusal| panic!("the tally of a session: {refusal}"))
    }
}

#[cfg(test)]
mod tests {
    use super::*;
    use crate::Reason;

    fn shorten<T>(numbers: &mut Vec<T>) {
        numbers.truncate(numbers.len() - 1)
    }

    /// Storage is as long as the proved call asks, and no longer: one number less is refused.
    #[test]
    fn one_number_less_is_too_short() {
        let calls = Calls::new().set(0).finish();
        let each: [fn(&mut Storage); 7] = [
            |storage| shorten(&mut storage.results.spans),
            |storage| shorten(&mut storage.results.order),
            |storage| shorten(&mut storage.results.tally),
            |storage| shorten(&mut storage.results.rows),
            |storage| shorten(&mut storage.results.marks),
            |storage| shorten(&mut storage.results.locations),
            |storage| shorten(&mut storage.waiting),
        ];
        for (i, shorten_one) in each.iter().enumerate() {
            let mut storage = Storage::new(3, 5, 0).expect("in range");
            assert!(replay(&mut storage, &calls).is_ok());
            shorten_one(&mut storage);
            assert_eq!(
                replay(&mut storage, &calls).err(),
                Some(Refusal::TooShort),
                "slice {i}"
            );
            let refused = held(&mut storage, &calls);
            assert_eq!(refused, Err(Refusal::TooShort), "slice {i}");
            let refused = Reason::after(&mut storage, &calls, 0);
            assert_eq!(refused, Err(Refusal::TooShort), "slice {i}");
        }
    }

    #[test]
    fn a_malformed_list_is_refused() {
        let mut storage = Storage::new(3, 5, 0).expect("in range");
        let cut_short = [vec![1], vec![2, 1], vec![2, 0, 1], vec![5], vec![5, 0]];
        for numbers in cut_short.into_iter().chain([vec![0], vec![6]]) {
            let calls = Calls {
                numbers,
                count: 1,
                list_numbers: 0,
            };
            assert_eq!(replay(&mut storage, &calls).err(), Some(Refusal::Malformed));
            assert_eq!(held(&mut storage, &calls), Err(Refusal::Malformed));
            let refused = Reason::after(&mut storage, &calls, 0);
            assert_eq!(refused, Err(Refusal::Malformed));
        }
    }
}
