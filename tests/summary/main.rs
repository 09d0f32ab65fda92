//! Holds `order_summary` to two computations of its own: binary32's division of exactly converted
//! numbers, as Rust has it, and the reference model's, by whole numbers only.
//!
//!   summary edges                lengths, sums and lent numbers at their limits, and one past them
//!   summary random SEED COUNT    random tallies
//!
//! Prints what was compared; with status 1, what differed.

#[path = "../session/summary.rs"]
#[allow(dead_code)]
mod exported;
#[path = "../reference/model.rs"]
#[allow(dead_code)]
mod model;

use exported::{lend, Numbers, COUNTS, THOUSANDS};
use std::process::exit;

/// The greatest tally: its length and its sum.
const LONGEST: usize = 65_000;
const GREATEST: u32 = 1 << 24;
/// What stands in the lent numbers before a call.
const BEFORE: u32 = 0xA5C3_96E1;

fn main() {
    let arguments: Vec<String> = std::env::args().skip(1).collect();
    let words: Vec<&str> = arguments.iter().map(|word| word.as_str()).collect();
    let result = match words[..] {
        ["edges"] => edges(),
        ["random", seed, count] => random(seed.parse().unwrap(), count.parse().unwrap()),
        _ => Err("use: edges | random SEED COUNT".to_owned()),
    };
    match result {
        Ok(message) => println!("{message}"),
        Err(message) => {
            println!("DIFFERENCE: {message}");
            exit(1)
        }
    }
}

/// The summary by definition, its average by a division in binary32.
fn by_division(tally: &[u32]) -> Numbers {
    let sum: u64 = tally.iter().map(|count| u64::from(*count)).sum();
    let mut numbers = [0; 195];
    numbers[0] = (sum as f32 / 65_000.0).to_bits();
    let mut running = 0;
    let reaches_half = |count: &u32| {
        running += u64::from(*count);
        2 * running >= sum
    };
    numbers[1] = tally.iter().position(reaches_half).unwrap_or(0) as u32;
    for (parallelism, count) in tally.iter().enumerate() {
        if parallelism < 128 {
            numbers[COUNTS + parallelism] = *count;
        }
        numbers[THOUSANDS + parallelism / 1000] += count;
    }
    numbers
}

/// The same by the reference model.
fn by_model(tally: &[u32]) -> Numbers {
    let wide: Vec<u64> = tally.iter().map(|count| u64::from(*count)).collect();
    let summary = model::Summary::of(&wide);
    let mut numbers = [0; 195];
    numbers[0] = summary.average;
    numbers[1] = summary.median as u32;
    for (i, count) in summary.low.iter().enumerate() {
        numbers[COUNTS + i] = *count as u32;
    }
    for (i, sum) in summary.thousands.iter().enumerate() {
        numbers[THOUSANDS + i] = *sum as u32;
    }
    numbers
}

fn named(tally: &[u32]) -> String {
    let sum: u64 = tally.iter().map(|count| u64::from(*count)).sum();
    format!("{} counts with the sum {sum}", tally.len())
}

/// Accepted, with so many numbers lent: the summary, and what lies past it stays.
fn accepted(tally: &[u32], lent: usize) -> Result<(), String> {
    let mut numbers = vec![BEFORE; lent];
    let number = lend(tally, &mut numbers);
    if number != 0 {
        return Err(format!("{}: refused with {number}", named(tally)));
    }
    for (way, wanted) in [("division", by_division(tally)), ("model", by_model(tally))] {
        if let Some(i) = (0..195).find(|&i| numbers[i] != wanted[i]) {
            let (found, wanted) = (numbers[i], wanted[i]);
            return Err(format!(
                "{}: number {i} is {found}, by {way} {wanted}",
                named(tally)
            ));
        }
    }
    match numbers[195..].iter().all(|number| *number == BEFORE) {
        true => Ok(()),
        false => Err(format!("{}: written past the summary", named(tally))),
    }
}

/// Refused with this number, with so many numbers lent, and nothing written.
fn refused(tally: &[u32], lent: usize, wanted: u64) -> Result<(), String> {
    let mut numbers = vec![BEFORE; lent];
    let number = lend(tally, &mut numbers);
    let what = format!("{}, {lent} numbers lent", named(tally));
    if number != wanted {
        return Err(format!("{what}: {number} is returned, not {wanted}"));
    }
    match numbers.iter().all(|number| *number == BEFORE) {
        true => Ok(()),
        false => Err(format!("{what}: refused, and written")),
    }
}

/// Tallies of this length and sum: all at the first count, at the last, in the middle, and spread.
fn tallies(length: usize, sum: u32) -> Vec<Vec<u32>> {
    let one = |at: usize| {
        let mut tally = vec![0; length];
        tally[at] = sum;
        tally
    };
    let each = sum / length as u32;
    let mut spread = vec![each; length];
    spread[length / 3] += sum - each * length as u32;
    vec![one(0), one(length - 1), one(length / 2), spread]
}

fn edges() -> Result<String, String> {
    let (mut taken, mut not) = (0, 0);
    accepted(&[], 195)?;
    for length in [1, 2, 127, 128, 129, 999, 1000, 1001, 64_000, 64_999, LONGEST] {
        for sum in [0, 1, 2, 64_999, 65_000, 65_001, GREATEST - 1, GREATEST] {
            for tally in tallies(length, sum) {
                for lent in [195, 196, 260] {
                    accepted(&tally, lent)?;
                    taken += 1;
                }
                for lent in [0, 1, 194] {
                    refused(&tally, lent, 2)?;
                    not += 1;
                }
            }
        }
        for sum in [GREATEST + 1, 1 << 31, u32::MAX] {
            for tally in tallies(length, sum) {
                for lent in [0, 194, 195, 260] {
                    refused(&tally, lent, 1)?;
                    not += 1;
                }
            }
        }
    }
    // Too long, and sums that 32 or 64 bits would hide: 2^32, 2^24 + 2^32, all counts at their greatest.
    let too_long = vec![0; LONGEST + 1];
    let wrapped = [1 << 31, 1 << 31];
    let wrapped_more = [1 << 31, 1 << 31, GREATEST];
    let full = vec![u32::MAX; LONGEST];
    for tally in [&too_long[..], &wrapped, &wrapped_more, &full] {
        for lent in [0, 194, 195] {
            refused(tally, lent, 1)?;
            not += 1;
        }
    }
    // Averages of sums all over their range.
    for sum in (0..=GREATEST).step_by(257) {
        accepted(&[sum], 195)?;
        taken += 1;
    }
    Ok(format!("edges: {taken} tallies accepted, {not} calls refused"))
}

fn random(seed: u64, count: u64) -> Result<String, String> {
    let mut state = seed.wrapping_mul(2) + 1;
    let mut next = move |below: u64| {
        state = state.wrapping_mul(6_364_136_223_846_793_005).wrapping_add(1_442_695_040_888_963_407);
        (state >> 33) % below
    };
    let mut counts = 0;
    for _ in 0..count {
        let longest = [8, 130, 2_100, LONGEST as u64][next(4) as usize];
        let mut tally = vec![0; 1 + next(longest) as usize];
        let mut left = next(u64::from(GREATEST) + 1);
        for _ in 0..1 + next(300) {
            let at = next(tally.len() as u64) as usize;
            let some = next(left + 1);
            tally[at] += some as u32;
            left -= some;
        }
        accepted(&tally, 195 + next(4) as usize)?;
        counts += tally.len();
    }
    Ok(format!("random: {count} tallies with {counts} counts"))
}
