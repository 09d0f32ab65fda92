//! The reference model behind the interface of `order_job`, as a library to link the tests with instead of the proved one:
//! so the tests can be tested. With the name of a fault in the environment variable STAND_IN_FAULT it does one thing wrong
//! with lanes, which the tests must notice.

#[path = "../reference/model.rs"]
#[allow(dead_code)]
mod model;

use std::sync::OnceLock;

/// The fault that is asked for.
fn asked() -> &'static str {
    static FAULT: OnceLock<String> = OnceLock::new();
    FAULT.get_or_init(|| std::env::var("STAND_IN_FAULT").unwrap_or_default())
}

/// # Safety
/// Each pointer and count is a slice, and they do not overlap.
#[no_mangle]
pub unsafe extern "C" fn order_job(job: *const u8, job_count: usize, listing: *mut u8, listing_count: usize) -> u64 {
    let job = std::slice::from_raw_parts(job, job_count);
    let lent = std::slice::from_raw_parts_mut(listing, listing_count);
    let (returned, text) = answer(job, lent.len());
    lent[..text.len()].copy_from_slice(&text);
    returned
}

fn answer(job: &[u8], lent: usize) -> (u64, Vec<u8>) {
    match model::run_job(&read_as(job), lent) {
        Ok(listing) => {
            let listing = listed_as(&listing);
            (64 * listing.len() as u64, listing)
        }
        Err(refusal) => (told(job, refusal).returned(), Vec::new()),
    }
}

fn lines(text: &[u8]) -> Vec<&[u8]> {
    text.split_inclusive(|&byte| byte == 10).collect()
}

fn is_lane(line: &[u8]) -> bool {
    line.starts_with(b"lane=")
}

/// The job as it is read: with a fault, another one.
fn read_as(job: &[u8]) -> Vec<u8> {
    let lines = lines(job);
    let next = |i: usize| lines.get(i + 1).copied().unwrap_or_default();
    let line = |(i, line): (usize, &&[u8])| -> Vec<u8> {
        match asked() {
            "lane-line-dropped" if is_lane(line) => vec![],
            "set-after-lane" if is_lane(line) && next(i).starts_with(b"set=") => vec![],
            "lane-between-in-and-out" if is_lane(line) && next(i).starts_with(b"out=") => vec![],
            "lane-in-the-head" if is_lane(line) && i < 2 => vec![],
            "lane-twice" if is_lane(line) && is_lane(next(i)) => vec![],
            "lane-before-final" if is_lane(line) && next(i) == b"final=1\n" => vec![],
            "255-refused" if *line == b"lane=255\n" => b"lane=256\n".to_vec(),
            "256-accepted" if *line == b"lane=256\n" => b"lane=0\n".to_vec(),
            "8-bits-of-a-lane" => low_bits(line).unwrap_or(line.to_vec()),
            "lane-with-a-leading-zero" => match line.strip_prefix(b"lane=0") {
                Some(rest) if rest.first().is_some_and(u8::is_ascii_digit) => [b"lane=", rest].concat(),
                _ => line.to_vec(),
            },
            _ => line.to_vec(),
        }
    };
    lines.iter().enumerate().flat_map(line).collect()
}

/// A lane line of the lower 8 bits of its number.
fn low_bits(line: &[u8]) -> Option<Vec<u8>> {
    let number = std::str::from_utf8(line).ok()?.strip_prefix("lane=")?.strip_suffix('\n')?;
    let lane: u64 = number.parse().ok()?;
    Some(format!("lane={}\n", lane % 256).into_bytes())
}

/// The listing as it is told: with a fault, another one.
fn listed_as(listing: &[u8]) -> Vec<u8> {
    let text = String::from_utf8_lossy(listing);
    let mut lines: Vec<String> = text.lines().map(listed_line).collect();
    // the lanes give the order of two entries
    let lane = |line: &String| line.rsplit('=').next().and_then(|lane| lane.trim_end().parse::<u64>().ok());
    if asked() == "lanes-order" && lines.len() > 6 && lane(&lines[5]) > lane(&lines[6]) {
        lines.swap(5, 6);
    }
    lines.concat().into_bytes()
}

fn listed_line(line: &str) -> String {
    let Some((rest, lane)) = line.rsplit_once(" lane=") else {
        return format!("{line}\n");
    };
    let number = |key: &str| {
        let word = line.split(' ').find_map(|word| word.strip_prefix(key));
        word.and_then(|word| word.parse::<u64>().ok()).unwrap_or_default()
    };
    match asked() {
        "lane-not-listed" => format!("{rest}\n"),
        "lane-0-not-listed" if lane == "0" => format!("{rest}\n"),
        "lane-lost" => format!("{rest} lane=0\n"),
        // one that waited is placed when more adds have ended than its number says
        "lane-lost-in-waiting" if number("accepted=") != number("added=") => format!("{rest} lane=0\n"),
        _ => format!("{line}\n"),
    }
}

/// A refusal, with another number or on another line if such a fault is asked for.
fn told(job: &[u8], refusal: model::Refusal) -> model::Refusal {
    let model::Refusal { code, line } = refusal;
    let lines = lines(job);
    let before = (line as usize).checked_sub(2).and_then(|i| lines.get(i));
    let after_lane = before.is_some_and(|line| is_lane(line));
    let wide = (line as usize).checked_sub(3).and_then(|i| lines.get(i)) == Some(&&b"lane=256\n"[..]);
    match (asked(), code) {
        ("18-on-the-lane-line", 18) => model::Refusal { code, line: line - 2 },
        ("18-on-the-in-line", 18) => model::Refusal { code, line: line - 1 },
        ("15-on-the-lane-line", 15) if after_lane => model::Refusal { code, line: line - 1 },
        ("18-before-a-malformed-out", 15) if wide => model::Refusal { code: 18, line },
        _ => model::Refusal { code, line },
    }
}
