//! Host code, not proved: a list of calls, encoded as docs/REPLAY.md says.

use crate::layout::{TAG_ADD, TAG_FINAL, TAG_FLUSH, TAG_LANE_ADD, TAG_SET};

/// A call of a session. `L` holds the places of a list.
#[derive(Clone, Copy, Debug, PartialEq, Eq)]
pub enum Call<L> {
    Set(u64),
    /// Inputs and outputs; the lane is 0.
    Add(L, L),
    /// Lane, inputs and outputs. A lane over 255 is refused with 18.
    AddInLane(u64, L, L),
    Flush,
    Final,
}

impl<L> Call<L> {
    /// The inputs and outputs of an add.
    pub fn lists(&self) -> Option<(&L, &L)> {
        match self {
            Call::Add(inputs, outputs) | Call::AddInLane(_, inputs, outputs) => {
                Some((inputs, outputs))
            }
            Call::Set(_) | Call::Flush | Call::Final => None,
        }
    }
}

impl<L: AsRef<[u64]>> Call<L> {
    /// Puts the call's numbers at the end of a list.
    pub fn encode(&self, list: &mut Vec<u64>) {
        match self {
            Call::Set(place) => list.extend([TAG_SET, *place]),
            Call::Add(..) => list.push(TAG_ADD),
            Call::AddInLane(lane, ..) => list.extend([TAG_LANE_ADD, *lane]),
            Call::Flush => list.push(TAG_FLUSH),
            Call::Final => list.push(TAG_FINAL),
        }
        if let Some((inputs, outputs)) = self.lists() {
            for places in [inputs.as_ref(), outputs.as_ref()] {
                list.push(places.len() as u64);
                list.extend(places);
            }
        }
    }
}

/// A list of calls, made one after the other:
///
/// ```
/// use witness_order::calls::Calls;
/// let calls = Calls::new().set(0).add(&[0], &[1, 2]).flush().finish();
/// assert_eq!(calls.numbers(), [1, 0, 2, 1, 0, 2, 1, 2, 3, 4]);
/// assert_eq!(calls.len(), 4);
/// assert_eq!(Calls::new().add_in_lane(7, &[0], &[1]).numbers(), [5, 7, 1, 0, 1, 1]);
/// ```
#[derive(Clone, Debug, Default, PartialEq, Eq)]
pub struct Calls {
    pub(crate) numbers: Vec<u64>,
    pub(crate) count: usize,
    pub(crate) list_numbers: usize,
}

impl Calls {
    pub fn new() -> Self {
        Self::default()
    }

    /// Sets a place.
    pub fn set(self, place: u64) -> Self {
        self.with(Call::Set(place))
    }

    /// Adds a registration that reads the inputs and writes the outputs, in lane 0.
    pub fn add(self, inputs: &[u64], outputs: &[u64]) -> Self {
        self.with(Call::Add(inputs, outputs))
    }

    /// Adds a registration in a lane: a label for the kind of hardware that it needs, which its entry and
    /// row carry. Lanes are 0 to 255, and a call with a greater one is refused with 18.
    pub fn add_in_lane(self, lane: u64, inputs: &[u64], outputs: &[u64]) -> Self {
        self.with(Call::AddInLane(lane, inputs, outputs))
    }

    /// Releases all spans.
    pub fn flush(self) -> Self {
        self.with(Call::Flush)
    }

    /// The final call: releases all spans and closes the session.
    pub fn finish(self) -> Self {
        self.with(Call::Final)
    }

    fn with(mut self, call: Call<&[u64]>) -> Self {
        self.push(&call);
        self
    }

    /// Puts a call at the end.
    pub fn push<L: AsRef<[u64]>>(&mut self, call: &Call<L>) {
        call.encode(&mut self.numbers);
        self.count += 1;
        if let Some((inputs, outputs)) = call.lists() {
            self.list_numbers += inputs.as_ref().len() + outputs.as_ref().len();
        }
    }

    /// The encoded list.
    pub fn numbers(&self) -> &[u64] {
        &self.numbers
    }

    /// How many calls there are.
    pub fn len(&self) -> usize {
        self.count
    }

    pub fn is_empty(&self) -> bool {
        self.count == 0
    }

    /// How many places stand in the lists of all adds: a pool of so many numbers takes them all.
    pub fn list_numbers(&self) -> usize {
        self.list_numbers
    }

    /// The calls, read from the encoded list.
    pub fn iter(&self) -> Iter<'_> {
        Iter {
            rest: &self.numbers,
        }
    }
}

impl<'a> IntoIterator for &'a Calls {
    type Item = Call<&'a [u64]>;
    type IntoIter = Iter<'a>;

    fn into_iter(self) -> Iter<'a> {
        self.iter()
    }
}

/// Walks over the calls of a list.
#[derive(Clone, Debug)]
pub struct Iter<'a> {
    rest: &'a [u64],
}

impl<'a> Iter<'a> {
    fn take(&mut self, count: usize) -> &'a [u64] {
        let (taken, rest) = self.rest.split_at(count);
        self.rest = rest;
        taken
    }

    fn counted(&mut self) -> &'a [u64] {
        let count = self.take(1)[0] as usize;
        self.take(count)
    }
}

impl<'a> Iterator for Iter<'a> {
    type Item = Call<&'a [u64]>;

    fn next(&mut self) -> Option<Self::Item> {
        if self.rest.is_empty() {
            return None;
        }
        Some(match self.take(1)[0] {
            TAG_SET => Call::Set(self.take(1)[0]),
            TAG_ADD => Call::Add(self.counted(), self.counted()),
            TAG_LANE_ADD => Call::AddInLane(self.take(1)[0], self.counted(), self.counted()),
            TAG_FLUSH => Call::Flush,
            _ => Call::Final,
        })
    }
}

#[cfg(test)]
mod tests {
    use super::*;

    #[test]
    fn calls_are_read_as_they_were_made() {
        let made: [Call<Vec<u64>>; 9] = [
            Call::Set(u64::MAX),
            Call::Add(vec![], vec![]),
            Call::Add(vec![3, 1, 4], vec![]),
            Call::AddInLane(0, vec![], vec![]),
            Call::Flush,
            Call::AddInLane(255, vec![2], vec![6, 5]),
            Call::Add(vec![], vec![5, 9]),
            Call::AddInLane(u64::MAX, vec![], vec![3]),
            Call::Final,
        ];
        let mut calls = Calls::new();
        for call in &made {
            calls.push(call);
        }
        let read: Vec<Call<Vec<u64>>> = calls
            .iter()
            .map(|call| match call {
                Call::Set(place) => Call::Set(place),
                Call::Add(inputs, outputs) => Call::Add(inputs.to_vec(), outputs.to_vec()),
                Call::AddInLane(lane, inputs, outputs) => {
                    Call::AddInLane(lane, inputs.to_vec(), outputs.to_vec())
                }
                Call::Flush => Call::Flush,
                Call::Final => Call::Final,
            })
            .collect();
        assert_eq!(read, made);
        assert_eq!((calls.len(), calls.list_numbers()), (9, 9));
    }

    #[test]
    fn no_calls_are_no_numbers() {
        assert!(Calls::new().is_empty() && Calls::new().numbers().is_empty());
        assert_eq!(Calls::new().iter().next(), None);
    }
}
