//! The storage that the tests lend: each slice stands between guard numbers, may be longer than a
//! session needs, and is full of a pattern before a replay, so that every number that must not be
//! written can be looked at afterwards.

use crate::layout::{Needed, ENTRY, LANE_RADIX, ROW, WAITING};
use crate::sys::{self, Count, Slices};
use crate::Call;

/// Guard numbers before and after each lent slice.
const GUARD: usize = 8;

/// The numbers of a slice, with the pattern that fills it.
pub trait Number: Copy + PartialEq + Into<u64> {
    const PATTERN: Self;
}

impl Number for u16 {
    const PATTERN: Self = 0xA5C3;
}

impl Number for u32 {
    const PATTERN: Self = 0xA5C3_96E1;
}

impl Number for u64 {
    const PATTERN: Self = 0xA5C3_96E1_F00D_5EED;
}

/// A lent slice between its guards.
pub struct Buffer<T> {
    name: &'static str,
    numbers: Vec<T>,
    needed: usize,
    lent: usize,
}

impl<T: Number> Buffer<T> {
    fn new(name: &'static str) -> Self {
        Self {
            name,
            numbers: Vec::new(),
            needed: 0,
            lent: 0,
        }
    }

    /// Fills everything with the pattern; without `whole`, the needed numbers stay as they are.
    fn prepare(&mut self, needed: usize, lent: usize, whole: bool) {
        (self.needed, self.lent) = (needed, lent);
        let end = self.end();
        if self.numbers.len() < end {
            self.numbers.resize(end, T::PATTERN);
        }
        if whole || lent < needed {
            self.numbers[..end].fill(T::PATTERN);
        } else {
            self.numbers[..GUARD].fill(T::PATTERN);
            self.numbers[GUARD + needed..end].fill(T::PATTERN);
        }
    }

    /// Where the guard after the slice ends.
    fn end(&self) -> usize {
        GUARD + self.lent + GUARD
    }

    fn lend(&mut self) -> &mut [T] {
        &mut self.numbers[GUARD..GUARD + self.lent]
    }

    /// The numbers that a session needs.
    pub fn needed(&self) -> &[T] {
        &self.numbers[GUARD..GUARD + self.needed]
    }

    fn needed_mut(&mut self) -> &mut [T] {
        &mut self.numbers[GUARD..GUARD + self.needed]
    }

    /// The guards, and the numbers from `used` on, have the pattern still.
    fn check_untouched(&self, used: usize) -> Result<(), String> {
        let before = self.numbers[..GUARD].iter().enumerate();
        let after = self.numbers[..self.end()].iter().enumerate();
        let mut looked_at = before.chain(after.skip(GUARD + used));
        match looked_at.find(|(_, number)| **number != T::PATTERN) {
            None => Ok(()),
            Some((i, &number)) => Err(format!(
                "{}: number {} of {} lent ones is {}, and must be untouched",
                self.name,
                i as i64 - GUARD as i64,
                self.lent,
                number.into()
            )),
        }
    }

    /// Slice and guards are equal to another's.
    fn check_same(&self, other: &Self) -> Result<(), String> {
        let (ours, others) = (&self.numbers[..self.end()], &other.numbers[..other.end()]);
        if ours == others {
            return Ok(());
        }
        let different = ours.iter().zip(others).position(|(a, b)| a != b);
        Err(match different {
            Some(i) => format!(
                "{}: number {} was {} and is {}",
                self.name,
                i as i64 - GUARD as i64,
                others[i].into(),
                ours[i].into()
            ),
            None => format!("{}: the lengths differ", self.name),
        })
    }
}

/// Which slice is lent one number short, for refusal 2; or none.
#[derive(Clone, Copy, PartialEq, Eq, Debug)]
pub enum Short {
    Nothing,
    Spans,
    Order,
    Tally,
    Rows,
    Marks,
    Locations,
    Waiting,
    Answers,
}

/// What is lent for a replay.
#[derive(Clone, Copy)]
pub struct Lent {
    pub p: u64,
    pub v: u64,
    /// The pool's length.
    pub w: usize,
    /// The count of calls, for the answers.
    pub calls: usize,
    /// Numbers beyond the needed ones, in every slice but the pool.
    pub slack: usize,
    pub short: Short,
    /// Whether the spans are filled with the pattern too.
    pub whole: bool,
}

/// An exported call: on the slices and the answers, with the calls, P and V.
type Function = dyn Fn(Slices, &mut [u64], &[u64], u64, u64) -> u64;

/// All that is lent, and what the replay returned.
pub struct Buffers {
    function: Box<Function>,
    pub spans: Buffer<u32>,
    pub order: Buffer<u32>,
    pub tally: Buffer<u32>,
    pub rows: Buffer<u32>,
    pub marks: Buffer<u16>,
    pub locations: Buffer<u64>,
    pub waiting: Buffer<u64>,
    pub pool: Buffer<u32>,
    pub answers: Buffer<u64>,
    /// The number, or that of a refusal.
    pub returned: Result<usize, u64>,
}

impl Buffers {
    /// For replays by `replay_calls`.
    pub fn new() -> Self {
        Self::counting(Count::Written)
    }

    /// For replays that return this count, by `replay_calls` or `replay_held`.
    pub fn counting(count: Count) -> Self {
        Self::by(move |slices, answers, calls, p, v| {
            sys::replay(count, slices, answers, calls, p, v)
        })
    }

    /// For replays by an exported call that returns 64 times a number of its own.
    pub fn by(function: impl Fn(Slices, &mut [u64], &[u64], u64, u64) -> u64 + 'static) -> Self {
        Self {
            function: Box::new(function),
            spans: Buffer::new("spans"),
            order: Buffer::new("order"),
            tally: Buffer::new("tally"),
            rows: Buffer::new("rows"),
            marks: Buffer::new("marks"),
            locations: Buffer::new("locations"),
            waiting: Buffer::new("waiting"),
            pool: Buffer::new("pool"),
            answers: Buffer::new("answers"),
            returned: Ok(0),
        }
    }

    /// Prepares the storage and replays encoded calls on it.
    pub fn replay(&mut self, lent: &Lent, calls: &[u64]) {
        self.prepare(lent);
        self.call(calls, lent.p, lent.v);
    }

    pub fn prepare(&mut self, lent: &Lent) {
        let (p, v) = (lent.p as usize, lent.v as usize);
        let needed = Needed::new(p, v);
        let length = |needed: usize, which: Short| {
            if lent.short == which {
                needed - 1
            } else {
                needed + lent.slack
            }
        };
        let whole = lent.whole;
        let Needed {
            spans,
            order,
            tally,
            rows,
            marks,
            locations,
            waiting,
        } = needed;
        self.spans
            .prepare(spans, length(spans, Short::Spans), whole);
        self.order.prepare(order, length(order, Short::Order), true);
        self.tally.prepare(tally, length(tally, Short::Tally), true);
        self.rows.prepare(rows, length(rows, Short::Rows), true);
        self.marks.prepare(marks, length(marks, Short::Marks), true);
        self.locations
            .prepare(locations, length(locations, Short::Locations), true);
        self.waiting
            .prepare(waiting, length(waiting, Short::Waiting), true);
        self.pool.prepare(lent.w, lent.w, true);
        self.answers
            .prepare(lent.calls, length(lent.calls, Short::Answers), true);
    }

    /// The call itself, on storage that is prepared.
    pub fn call(&mut self, calls: &[u64], p: u64, v: u64) {
        let slices = Slices {
            spans: self.spans.lend(),
            order: self.order.lend(),
            tally: self.tally.lend(),
            rows: self.rows.lend(),
            marks: self.marks.lend(),
            locations: self.locations.lend(),
            waiting: self.waiting.lend(),
            pool: self.pool.lend(),
        };
        let returned = (self.function)(slices, self.answers.lend(), calls, p, v);
        self.returned = match returned % 64 {
            0 => Ok((returned / 64) as usize),
            _ => Err(returned),
        };
    }

    /// After an accepted replay: nothing is written beyond the needed lengths, in the order beyond
    /// its entries, or in the pool beyond the list numbers of the accepted adds.
    pub fn check_frame(&self, entries: usize, list_numbers: usize) -> Result<(), String> {
        self.spans.check_untouched(self.spans.needed)?;
        self.order.check_untouched(ENTRY * entries)?;
        self.tally.check_untouched(self.tally.needed)?;
        self.rows.check_untouched(self.rows.needed)?;
        self.marks.check_untouched(self.marks.needed)?;
        self.locations.check_untouched(self.locations.needed)?;
        self.waiting.check_untouched(self.waiting.needed)?;
        self.pool.check_untouched(list_numbers)?;
        self.answers.check_untouched(self.answers.needed)
    }

    /// After a refused opening: nothing is written at all.
    pub fn check_nothing_written(&self) -> Result<(), String> {
        self.spans.check_untouched(0)?;
        self.order.check_untouched(0)?;
        self.tally.check_untouched(0)?;
        self.rows.check_untouched(0)?;
        self.marks.check_untouched(0)?;
        self.locations.check_untouched(0)?;
        self.waiting.check_untouched(0)?;
        self.pool.check_untouched(0)?;
        self.answers.check_untouched(0)
    }

    /// All storage but the answers is equal to another's, byte for byte, and so is what was returned.
    pub fn check_same(&self, other: &Self) -> Result<(), String> {
        self.check_same_storage(other)?;
        match self.returned == other.returned {
            true => Ok(()),
            false => Err("the order's length changed".to_owned()),
        }
    }

    /// All storage and the answers are equal to another's, byte for byte, once the lanes are struck from both; and so is
    /// what was returned.
    pub fn check_same_but_lanes(&mut self, other: &mut Self) -> Result<(), String> {
        self.strike_lanes();
        other.strike_lanes();
        self.check_same(other)?;
        self.answers.check_same(&other.answers)
    }

    /// Makes every lane 0: in the last numbers of the spans' and the order's entries and of the rows, and in the cells.
    fn strike_lanes(&mut self) {
        let strike = |numbers: &mut [u32], size: usize| {
            let tuples = numbers.chunks_exact_mut(size);
            tuples.for_each(|tuple| tuple[size - 1] %= LANE_RADIX);
        };
        strike(self.spans.needed_mut(), ENTRY);
        strike(self.order.needed_mut(), ENTRY);
        strike(self.rows.needed_mut(), ROW);
        let waiting = self.waiting.needed_mut();
        let v = waiting.len() / WAITING;
        waiting[2 * v..3 * v]
            .iter_mut()
            .for_each(|cell| *cell &= !0xFF);
    }

    /// All storage and the answers are equal to another's, byte for byte.
    pub fn check_same_written(&self, other: &Self) -> Result<(), String> {
        self.check_same_storage(other)?;
        self.answers.check_same(&other.answers)
    }

    fn check_same_storage(&self, other: &Self) -> Result<(), String> {
        self.check_same_results(other)?;
        self.waiting.check_same(&other.waiting)?;
        self.pool.check_same(&other.pool)
    }

    /// The slices that an ascending session has too are equal to another's, byte for byte.
    pub fn check_same_results(&self, other: &Self) -> Result<(), String> {
        self.spans.check_same(&other.spans)?;
        self.order.check_same(&other.order)?;
        self.tally.check_same(&other.tally)?;
        self.rows.check_same(&other.rows)?;
        self.marks.check_same(&other.marks)?;
        self.locations.check_same(&other.locations)
    }
}

/// The numbers of a list of calls, and where each call ends.
pub fn encode(calls: &[Call]) -> (Vec<u64>, Vec<usize>) {
    let (mut numbers, mut ends) = (Vec::new(), Vec::new());
    for call in calls {
        call.encode(&mut numbers);
        ends.push(numbers.len());
    }
    (numbers, ends)
}
