//! Jobs by which floors are told apart, with the model's answers: for several P orders of 0 and 1 entries, of P and
//! one fewer and one more, of 2P and of 150, of registrations that read nothing and of chains, each without a flush
//! and with flushes between.

use crate::jobs::case;
use crate::model::{program, LISTING_BYTES};
use std::collections::BTreeSet;

pub fn cases(sink: &mut dyn FnMut(&[u8])) {
    let mut made = BTreeSet::new();
    for p in [1, 2, 3, 4, 7, 16, 63, 64] {
        for length in [0, 1, p - 1, p, p + 1, 2 * p, 150] {
            for flushes in flushes(p, length) {
                for chained in [false, true] {
                    let job = job(p, length, chained, &flushes);
                    if made.insert(job.clone()) {
                        sink(case(&job, &program(&job), LISTING_BYTES).as_bytes());
                    }
                }
            }
        }
    }
}

/// After how many registrations there is a flush: never, in the middle, after every P, after all; and such that the
/// entries run out before it one earlier than the last entry that counts, with that entry, and one later.
fn flushes(p: u64, length: u64) -> Vec<Vec<u64>> {
    let every = (1..=length / p).map(|k| k * p).collect();
    let mut all = vec![vec![], vec![length / 2], every, vec![length]];
    if p <= length {
        let last = length - p;
        all.extend([last, last + 1, last + 2].map(|after| vec![after]));
    }
    all
}

/// Registration k writes place k and reads nothing or, in a chain, place k - 1.
fn job(p: u64, length: u64, chained: bool, flushes: &[u64]) -> Vec<u8> {
    let mut text = format!("parallelism={p}\nplaces={}\n", length.max(1));
    for k in 0..=length {
        if flushes.contains(&k) {
            text += "flush=1\n";
        }
        if k < length {
            let input = match chained && k > 0 {
                true => (k - 1).to_string(),
                false => String::new(),
            };
            text += &format!("in={input}\nout={k}\n");
        }
    }
    (text + "final=1\n").into_bytes()
}
