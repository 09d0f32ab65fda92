//! Stands in for `sorter_playback`. As a child of `sorters` it can read a row's private fields,
//! which is all that the oracle wants of it.

use super::{ResolutionRecord, ResolutionRecordItem};

/// A record row, with the Rust's `order_len` under document 01's name `written`.
#[derive(PartialEq, Eq, Clone, Copy)]
pub struct Row {
    pub added: u32,
    pub accepted: u32,
    pub written: usize,
    pub index: u32,
    pub parallelism: u16,
}

pub fn rows(record: &ResolutionRecord) -> Vec<Row> {
    record.items.iter().map(row).collect()
}

fn row(item: &ResolutionRecordItem) -> Row {
    Row {
        added: item.added_at,
        accepted: item.accepted_at,
        written: item.order_len,
        index: item.order_ix.into(),
        parallelism: item.parallelism,
    }
}

/// The `written` of one row.
pub fn written(record: &ResolutionRecord, registration: usize) -> usize {
    record.items[registration].order_len
}
