//! Host code, not proved: how the proved calls lay numbers out in slices. Every length and offset that
//! this crate uses stands here; docs/REPLAY.md and docs/GUIDE.md describe the same.

#[path = "limits.rs"]
pub mod limits;

/// Spans in the guide's window.
pub const SPANS: usize = 32;
/// Numbers of an entry: value, added, accepted, and parallelism with lane.
pub const ENTRY: usize = 4;
/// Numbers of a row: added, accepted, written, order index, and parallelism with lane.
pub const ROW: usize = 5;
/// Where `written` stands in a row.
pub const ROW_WRITTEN: usize = 2;
/// Parallelism and lane stand in one number: parallelism + `LANE_RADIX` · lane.
pub const LANE_RADIX: u32 = 1 << 16;
/// Numbers of the waiting storage for each place.
pub const WAITING: usize = 4;

/// Numbers of a request to the guide alone: kind, span, position, value, added, accepted.
pub const REQUEST: usize = 6;
/// Numbers of its answer: the refusal, span, position, the order's length, span 0's number, the lengths.
pub const ANSWER: usize = 5 + SPANS;

/// Counts of a summary, from the parallelism 0 on.
pub const LOW_COUNTS: usize = limits::LOW_COUNTS as usize;
/// Sums of a thousand counts each.
pub const THOUSANDS: usize = limits::SUMS_OF_THOUSANDS as usize;
/// Numbers of a summary: the average's bits, the median, the counts, the sums.
pub const SUMMARY: usize = 2 + LOW_COUNTS + THOUSANDS;

/// The mark of a place that is not tracked.
pub const UNTRACKED: u16 = 0;
/// The mark of a place that a registration wrote.
pub const WRITTEN: u16 = limits::MARK_WRITTEN as u16;
/// The mark of a place that is set.
pub const SET: u16 = limits::MARK_SET as u16;

/// The most inputs of a registration, and the most outputs; a longer list is refused with 3, whatever
/// stands in it.
pub const MOST_LISTED: usize = limits::MOST_IN_A_LIST as usize;

/// The greatest job and listing of `order_job`, in bytes.
pub const JOB_BYTES: usize = limits::MOST_JOB_BYTES as usize;

/// Numbers of a job's needs: registrations, list numbers, plain flushes, the ceiling on spans.
pub const JOB_NEEDS: usize = 4;

/// What starts a call in an encoded list.
pub const TAG_SET: u64 = 1;
pub const TAG_ADD: u64 = 2;
pub const TAG_FLUSH: u64 = 3;
pub const TAG_FINAL: u64 = 4;
/// An add with its lane; `TAG_ADD` is one in lane 0.
pub const TAG_LANE_ADD: u64 = 5;

/// The numbers that a session of parallelism p over v places needs; the pool may have any length. An ascending one needs
/// neither waiting storage nor pool.
#[derive(Clone, Copy, Debug, PartialEq, Eq)]
pub struct Needed {
    pub spans: usize,
    pub order: usize,
    pub tally: usize,
    pub rows: usize,
    pub marks: usize,
    pub locations: usize,
    pub waiting: usize,
}

impl Needed {
    /// For p and v in range.
    pub fn new(p: usize, v: usize) -> Self {
        Self {
            spans: ENTRY * SPANS * (p + 1),
            order: ENTRY * v,
            tally: p + 1,
            rows: ROW * v,
            marks: v,
            locations: v,
            waiting: WAITING * v,
        }
    }

    /// The bytes of all of them.
    pub fn bytes(&self) -> u64 {
        self.ascending_bytes() + 8 * self.waiting as u64
    }

    /// The bytes of those that an ascending session needs.
    pub fn ascending_bytes(&self) -> u64 {
        let of_32 = self.spans + self.order + self.tally + self.rows;
        (2 * self.marks + 4 * of_32 + 8 * self.locations) as u64
    }
}

/// Parallelism and lane from the number that holds both; its upper half is the lane, whole.
pub fn parallelism_and_lane(number: u32) -> (u32, u32) {
    (number % LANE_RADIX, number / LANE_RADIX)
}

/// An entry of the order.
#[derive(Clone, Copy, Debug, PartialEq, Eq)]
pub struct Entry {
    pub value: u32,
    pub added: u32,
    pub accepted: u32,
    pub parallelism: u32,
    /// Its registration's, at most 255.
    pub lane: u32,
}

impl Entry {
    /// From its numbers in the order.
    pub fn from_numbers(numbers: &[u32]) -> Self {
        let (parallelism, lane) = parallelism_and_lane(numbers[3]);
        Self {
            value: numbers[0],
            added: numbers[1],
            accepted: numbers[2],
            parallelism,
            lane,
        }
    }
}

/// What is recorded of a registration.
#[derive(Clone, Copy, Debug, PartialEq, Eq)]
pub struct Row {
    pub added: u32,
    pub accepted: u32,
    /// The order's length when its add ended.
    pub written: u32,
    pub order_index: u32,
    pub parallelism: u32,
    /// Its entry's.
    pub lane: u32,
}

impl Row {
    /// From its numbers among the rows.
    pub fn from_numbers(numbers: &[u32]) -> Self {
        let (parallelism, lane) = parallelism_and_lane(numbers[4]);
        Self {
            added: numbers[0],
            accepted: numbers[1],
            written: numbers[ROW_WRITTEN],
            order_index: numbers[3],
            parallelism,
            lane,
        }
    }
}

/// Where an entry lies: a span's number and a position in it.
#[derive(Clone, Copy, Debug, Default, PartialEq, Eq, PartialOrd, Ord)]
pub struct Location {
    pub span: u32,
    pub position: u32,
}

impl Location {
    /// From its number: span · 2^32 + position.
    pub fn from_number(number: u64) -> Self {
        Self {
            span: (number >> 32) as u32,
            position: number as u32,
        }
    }
}
