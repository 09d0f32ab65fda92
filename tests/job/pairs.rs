//! Lanes never influence placement: pairs of jobs that differ in the numbers of their lanes alone, all at most 255, are
//! refused with one number on one line, or their listings are the same once ` lane=L` is struck from each order line. So is
//! that of an accepted job without its lane lines. Each answer is the model's, too.

use crate::generate::Numbers;
use crate::{compare, fail, made, model, sys, Done};
use std::process::exit;

/// How many pairs were compared, and how.
#[derive(Default)]
struct Met {
    listed: u64,
    /// Listed, and the lanes do differ.
    otherwise: u64,
    refused: u64,
}

pub fn check(seed: u64, count: u64) -> String {
    let mut met = Met::default();
    let mut numbers = Numbers(seed);
    for (job, _) in made::random_jobs(seed, count) {
        let pair = [relabelled(&job, &mut numbers), relabelled(&job, &mut numbers)];
        if pair[0] != pair[1] {
            check_pair(&pair, &mut met);
        }
    }
    let Met { listed, otherwise, refused } = met;
    if [listed, otherwise, refused].contains(&0) {
        fail("the pairs are too few");
    }
    format!(
        "lanes: {} pairs of jobs that differ in lanes alone: {refused} refused alike, {listed} listed alike, {otherwise} of \
         them in other lanes; the same without lane lines: no difference",
        listed + refused
    )
}

fn check_pair(pair: &[Vec<u8>; 2], met: &mut Met) {
    let [first, second] = pair.each_ref().map(|job| answer(job));
    let other = match (&first, &second) {
        (Err(first), Err(second)) if first == second => {
            met.refused += 1;
            None
        }
        (Ok(first), Ok(second)) if struck(first) == struck(second) => {
            met.listed += 1;
            met.otherwise += u64::from(first != second);
            let plain = answer(&without_lanes(&pair[0]));
            (plain.as_deref().map(struck) != Ok(struck(first))).then_some(plain)
        }
        _ => Some(second.clone()),
    };
    if let Some(other) = other {
        println!("job: a difference between jobs whose lanes alone differ:");
        pair.iter().for_each(|job| println!("{}", String::from_utf8_lossy(job)));
        println!("{}", shown(&first));
        println!("and\n{}", shown(&other));
        exit(1);
    }
}

/// The listing, or what is returned for a refused job.
fn answer(job: &[u8]) -> Result<Vec<u8>, u64> {
    compare(job, model::LISTING_BYTES, &mut Done::default());
    let mut listing = vec![0; model::LISTING_BYTES];
    let returned = sys::job(job, &mut listing);
    if returned % 64 != 0 {
        return Err(returned);
    }
    listing.truncate((returned / 64) as usize);
    Ok(listing)
}

fn shown(answer: &Result<Vec<u8>, u64>) -> String {
    match answer {
        Ok(listing) => String::from_utf8_lossy(listing).into_owned(),
        Err(returned) => format!("returned {returned}"),
    }
}

fn lines(text: &[u8]) -> impl Iterator<Item = &[u8]> {
    text.split_inclusive(|&byte| byte == 10)
}

/// Whether a line is a lane line: its number is well formed.
fn is_lane(line: &[u8]) -> bool {
    let number = std::str::from_utf8(line).ok().and_then(|line| line.strip_prefix("lane="));
    let number = number.and_then(|number| number.strip_suffix('\n'));
    number.is_some_and(|number| number.parse::<u64>().is_ok_and(|lane| lane.to_string() == number))
}

/// The job with other numbers, of 0 to 255, on its lane lines.
fn relabelled(job: &[u8], numbers: &mut Numbers) -> Vec<u8> {
    let line = |line: &[u8]| match is_lane(line) {
        true => format!("lane={}\n", numbers.lane()).into_bytes(),
        false => line.to_vec(),
    };
    lines(job).flat_map(line).collect()
}

fn without_lanes(job: &[u8]) -> Vec<u8> {
    lines(job).filter(|line| !is_lane(line)).flatten().copied().collect()
}

/// A listing without ` lane=L` at the end of its order lines.
fn struck(listing: &[u8]) -> Vec<u8> {
    let field = b" lane=";
    let line = |line: &[u8]| {
        let at = line.windows(field.len()).rposition(|bytes| bytes == field);
        match at.filter(|_| line.starts_with(b"order=")) {
            Some(at) => [&line[..at], b"\n"].concat(),
            None => line.to_vec(),
        }
    };
    lines(listing).flat_map(line).collect()
}
