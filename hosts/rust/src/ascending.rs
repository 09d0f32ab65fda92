//! Host code, not proved: a list of calls on an ascending session, by the proved `replay_ascending`.

use crate::calls::Calls;
use crate::layout::Needed;
use crate::refusal::Refusal;
use crate::replay::{taken_apart, Replayed, Results, StorageError};
use crate::sys;

/// The storage of an ascending session: parallelism p and v places. It has neither waiting storage nor pool, and w only
/// bounds the list numbers of all accepted adds. It can be used for one list of calls after another.
#[derive(Debug)]
pub struct AscendingStorage {
    results: Results,
    w: u64,
}

impl AscendingStorage {
    /// Allocates all that a session needs, whatever w is. Nothing is allocated where p or v is out of range.
    pub fn new(p: u64, v: u64, w: u64) -> Result<Self, StorageError> {
        let bytes = Self::bytes(p, v).map_err(StorageError::Refused)?;
        let results = Results::new(p, v, bytes)?;
        Ok(Self { results, w })
    }

    /// The bytes that [`AscendingStorage::new`] allocates, or the refusal of p and v.
    ///
    /// ```
    /// use witness_order::{AscendingStorage, Storage};
    /// let ascending = AscendingStorage::bytes(64, 1_000).unwrap();
    /// // 32 bytes a place and 4 a list number fewer
    /// assert_eq!(Storage::bytes(64, 1_000, 5_000).unwrap() - ascending, 32_000 + 20_000);
    /// ```
    pub fn bytes(p: u64, v: u64) -> Result<u64, Refusal> {
        // The proved call judges the range: on no storage at all it refuses with 1, or else with 2.
        let empty = sys::AscendingSlices {
            spans: &mut [],
            order: &mut [],
            tally: &mut [],
            rows: &mut [],
            marks: &mut [],
            locations: &mut [],
        };
        match crate::refusal(sys::ascending(empty, &mut [], &[], p, v, 0)) {
            Refusal::TooShort => Ok(Needed::new(p as usize, v as usize).ascending_bytes()),
            refusal => Err(refusal),
        }
    }

    /// Allocates the numbers of so many calls, which [`replay_ascending`] would do otherwise.
    pub fn reserve_calls(&mut self, count: usize) -> Result<(), StorageError> {
        self.results.reserve_calls(count)
    }

    pub fn parallelism(&self) -> u64 {
        self.results.p
    }

    pub fn places(&self) -> u64 {
        self.results.v
    }

    /// The most list numbers of all accepted adds together.
    pub fn most_list_numbers(&self) -> u64 {
        self.w
    }
}

/// Opens an ascending session on the storage, whatever stands there, and makes all calls. A set must be of the lowest
/// place that is neither set nor written, an add write that place and those after it in this order, and read places below
/// them; another call is refused with [`Refusal::ProfileBreach`]. What the accepted calls leave is what
/// [`replay()`](crate::replay()) leaves of them.
///
/// ```
/// use witness_order::{replay_ascending, AscendingStorage, Calls, Refusal};
///
/// # fn main() -> Result<(), Box<dyn std::error::Error>> {
/// // Place 2 comes before place 1, and is refused; all else ascends.
/// let calls = Calls::new()
///     .set(0)
///     .add(&[0], &[2])
///     .add(&[0], &[1])
///     .add(&[1], &[2])
///     .add(&[0], &[3])
///     .add(&[], &[4])
///     .finish();
/// let mut storage = AscendingStorage::new(2, 6, calls.list_numbers() as u64)?;
/// let done = replay_ascending(&mut storage, &calls)?;
/// assert_eq!(done.first_refused(), Some((1, Refusal::ProfileBreach)));
///
/// let order: Vec<u32> = done.entries().map(|entry| entry.added).collect();
/// assert_eq!(order, [0, 2, 1, 3]);
/// # Ok(())
/// # }
/// ```
pub fn replay_ascending<'a>(
    storage: &'a mut AscendingStorage,
    calls: &'a Calls,
) -> Result<Replayed<'a>, Refusal> {
    let results = &mut storage.results;
    results.lengthen_answers(calls.len());
    let slices = sys::AscendingSlices {
        spans: &mut results.spans,
        order: &mut results.order,
        tally: &mut results.tally,
        rows: &mut results.rows,
        marks: &mut results.marks,
        locations: &mut results.locations,
    };
    let answers = &mut results.answers[..calls.len()];
    let returned = sys::ascending(
        slices,
        answers,
        calls.numbers(),
        results.p,
        results.v,
        storage.w,
    );
    let length = taken_apart(returned)? as usize;
    Ok(Replayed {
        storage: results,
        calls,
        length,
    })
}

#[cfg(test)]
mod tests {
    use super::*;

    fn shorten<T>(numbers: &mut Vec<T>) {
        numbers.truncate(numbers.len() - 1)
    }

    /// Storage is as long as the proved call asks, and no longer: one number less is refused.
    #[test]
    fn one_number_less_is_too_short() {
        let calls = Calls::new().set(0).finish();
        let each: [fn(&mut Results); 6] = [
            |results| shorten(&mut results.spans),
            |results| shorten(&mut results.order),
            |results| shorten(&mut results.tally),
            |results| shorten(&mut results.rows),
            |results| shorten(&mut results.marks),
            |results| shorten(&mut results.locations),
        ];
        for (i, shorten_one) in each.iter().enumerate() {
            let mut storage = AscendingStorage::new(3, 5, 0).expect("in range");
            assert!(replay_ascending(&mut storage, &calls).is_ok());
            shorten_one(&mut storage.results);
            let refused = replay_ascending(&mut storage, &calls).err();
            assert_eq!(refused, Some(Refusal::TooShort), "slice {i}");
        }
    }

    #[test]
    fn a_malformed_list_is_refused() {
        let mut storage = AscendingStorage::new(3, 5, 0).expect("in range");
        for numbers in [vec![1], vec![2, 0, 1], vec![5, 0], vec![0], vec![6]] {
            let calls = Calls {
                numbers,
                count: 1,
                list_numbers: 0,
            };
            let refused = replay_ascending(&mut storage, &calls).err();
            assert_eq!(refused, Some(Refusal::Malformed));
        }
    }
}
