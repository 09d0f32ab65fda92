//! The greatest lists: 65,535 outputs are accepted, and refused with 6 by the last one, which takes time by the count of
//! outputs and not by its square (2,147 million comparisons each, which would be felt). Nothing is timed.

use crate::compared::Replays;
use crate::lists::{List, Told};
use crate::Call;

const MOST: u64 = 65_535;

fn writes(outputs: impl IntoIterator<Item = u64>) -> Call {
    Call::Add(vec![], outputs.into_iter().collect())
}

/// So many outputs from a place on, but for the last.
fn ended(first: u64, last: u64) -> Call {
    writes((first..first + MOST - 1).chain([last]))
}

/// The same, downwards from the last of them, but for the first.
fn begun(first: u64, head: u64) -> Call {
    writes([head].into_iter().chain((first..first + MOST - 1).rev()))
}

/// V, and the calls of each list with their numbers.
fn lists() -> [(u64, Vec<(Call, u64)>); 3] {
    let many = vec![0; MOST as usize];
    let whole = vec![(ended(0, MOST - 1), 0), (Call::Final, 0)];
    let fresh = vec![
        (writes(0..=MOST), 3),
        (ended(0, 0), 6),
        (ended(0, 7), 6),
        (ended(0, MOST - 2), 6),
        (ended(0, MOST), 21),
        (begun(0, MOST - 1), 21),
        (begun(0, 0), 6),
        (writes([MOST - 1].into_iter().chain(1..MOST)), 6),
        (Call::Add(vec![MOST], (0..MOST).collect()), 21),
        (ended(0, MOST - 1), 0),
        (Call::Add(vec![MOST], vec![]), 21),
        (Call::Add(vec![0; MOST as usize + 1], vec![]), 3),
        (Call::Add(many.clone(), vec![MOST]), 0),
        (ended(0, MOST - 1), 21),
    ];
    let after_a_set = vec![
        (Call::Set(0), 0),
        (ended(1, 1), 6),
        (ended(1, MOST - 1), 6),
        (ended(1, 0), 21),
        (ended(1, MOST + 1), 21),
        (ended(1, MOST + 2), 5),
        (begun(1, MOST), 21),
        (Call::Add(many, (1..=MOST).collect()), 0),
        (Call::Flush, 0),
        // all of them are taken, or all but one
        (ended(1, 1), 6),
        (ended(2, 2), 6),
        (ended(2, MOST + 1), 21),
        (Call::Set(MOST + 1), 0),
        (Call::Final, 0),
    ];
    [(MOST, whole), (MOST + 1, fresh), (MOST + 2, after_a_set)]
}

pub fn check() -> Result<String, String> {
    let mut replays = Replays::new();
    for (v, calls) in lists() {
        let (calls, codes): (Vec<Call>, Vec<u64>) = calls.into_iter().unzip();
        let told = Told { codes: Some(codes), ..Told::default() };
        let checked = replays.check(&List { p: 3, v, w: None, calls }, Some(&told));
        checked.map_err(|message| format!("V {v}: {message}"))?;
    }
    Ok(replays.met.text())
}
