//! Host code, not proved. Written by tools/refusals.py from crates/rules/specs/Limits.antt.
//! The limits of the specification under the names that the definitions have; what each is stands there.

pub const MOST_PARALLELISM: u64 = 64_999;
pub const MOST_PLACES: u64 = 16_777_216;
pub const MOST_IN_A_LIST: u64 = 65_535;
pub const MOST_FLUSHES: u64 = 65_535;
pub const LEAST_FLAGGED: u64 = 4_611_686_018_427_387_904;
pub const LAST_SPAN_LIMIT: u64 = 4_294_967_264;
pub const MARK_WRITTEN: u64 = 32_768;
pub const MARK_SET: u64 = 49_152;
pub const MOST_LANE: u64 = 255;
pub const LOCATION_RADIX: u64 = 4_294_967_296;
pub const AVERAGE_DIVISOR: u64 = 65_000;
pub const LOW_COUNTS: u64 = 128;
pub const SUMS_OF_THOUSANDS: u64 = 65;
pub const MOST_JOB_BYTES: u64 = 65_536;
pub const PROGRAM_LISTING_BYTES: u64 = 65_536;
pub const REPLY_RADIX: u64 = 64;
pub const PLACE_RADIX: u64 = 16_777_216;
pub const JOB_PARALLELISM: u64 = 64;
pub const JOB_PLACES: u64 = 512;
pub const JOB_POOL: u64 = 4_096;
