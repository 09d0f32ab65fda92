//! Host code, not proved: what a tally comes to, by the proved `order_summary`.

use crate::layout::{LOW_COUNTS, SUMMARY, THOUSANDS};
use crate::refusal::Refusal;
use crate::sys;

/// The summary of a tally.
#[derive(Clone, Copy, Debug, PartialEq)]
pub struct Summary {
    /// The tally's sum divided by 65,000.
    pub average: f32,
    /// The first parallelism with twice the running sum at least the sum.
    pub median: u32,
    /// The counts at the parallelisms 0 to 127.
    pub counts: [u32; LOW_COUNTS],
    /// The sums of the counts at 0 to 999, at 1,000 to 1,999 and so on.
    pub thousands: [u32; THOUSANDS],
}

impl Summary {
    /// Of any tally of at most 65,000 counts whose sum is at most 16,777,216.
    ///
    /// ```
    /// use witness_order::{Refusal, Summary};
    /// let summary = Summary::of(&[0, 1, 3]).unwrap();
    /// assert_eq!((summary.median, summary.counts[2], summary.thousands[0]), (2, 3, 4));
    /// assert_eq!(Summary::of(&[0; 65_001]), Err(Refusal::OutOfRange));
    /// ```
    pub fn of(tally: &[u32]) -> Result<Self, Refusal> {
        let mut numbers = [0; SUMMARY];
        match sys::summary(tally, &mut numbers) {
            0 => Ok(Self::from_numbers(&numbers)),
            number => Err(crate::refusal(number)),
        }
    }

    fn from_numbers(numbers: &[u32; SUMMARY]) -> Self {
        let (head, rest) = numbers.split_at(2);
        let (counts, thousands) = rest.split_at(LOW_COUNTS);
        Self {
            average: f32::from_bits(head[0]),
            median: head[1],
            counts: counts.try_into().expect("so many counts"),
            thousands: thousands.try_into().expect("so many sums"),
        }
    }
}
