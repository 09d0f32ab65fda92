//! Jobs for comparing, with the model's answers: well-formed ones of several shapes, and damaged
//! copies of them. Each case is printed on three lines, in one line of text each:
//!
//!   job TEXT             the job's bytes
//!   out TEXT             what the program prints
//!   host LENT NUMBER     what the host's call returns with LENT listing bytes
//!
//! In TEXT `\n` is byte 10, `\\` a backslash, `\xHH` any other byte outside 32 to 126.

use crate::generate::Numbers;
use crate::model::{host, program, LISTING_BYTES};

pub fn cases(seed: u64, count: u64, sink: &mut dyn FnMut(&[u8])) {
    for i in 0..count {
        let mut numbers = Numbers(seed.wrapping_mul(1 << 32).wrapping_add(i));
        let mut job = random_job(&mut numbers);
        if numbers.chance(50) {
            for _ in 0..1 + numbers.below(2) {
                damage(&mut numbers, &mut job);
            }
        }
        let out = program(&job);
        let lent = match numbers.chance(80) {
            true => LISTING_BYTES,
            false => out.len().saturating_sub(numbers.below(3) as usize) + 1,
        };
        sink(case(&job, &out, lent).as_bytes());
    }
}

/// The three lines of a case.
pub fn case(job: &[u8], out: &[u8], lent: usize) -> String {
    let (returned, _) = host(job, lent);
    format!(
        "job {}\nout {}\nhost {lent} {returned}\n",
        escaped(job),
        escaped(out)
    )
}

fn escaped(bytes: &[u8]) -> String {
    let mut text = String::with_capacity(bytes.len());
    for &byte in bytes {
        match byte {
            10 => text += "\\n",
            b'\\' => text += "\\\\",
            32..=126 => text.push(byte as char),
            _ => text += &format!("\\x{byte:02x}"),
        }
    }
    text
}

/// A well-formed job. Most of its calls are accepted: outputs are places not yet used, inputs mostly
/// lie below them, lanes are seldom over 255.
fn random_job(numbers: &mut Numbers) -> Vec<u8> {
    let v = match numbers.below(10) {
        0 => 512,
        1 => 1 + numbers.below(3),
        _ => 4 + numbers.below(60),
    };
    let p = if numbers.chance(80) {
        1 + numbers.below(8)
    } else {
        1 + numbers.below(64)
    };
    let mut text = format!("parallelism={p}\nplaces={v}\n");
    let ascending = numbers.chance(60);
    let mut free: Vec<u64> = (0..v).rev().collect();
    if !ascending {
        for i in (1..free.len()).rev() {
            free.swap(i, numbers.below(i as u64 + 1) as usize);
        }
    }
    let calls = numbers.below(if v == 512 { 600 } else { 2 * v });
    let (sets, flushes) = (numbers.below(50), numbers.choice(&[0, 3, 20]));
    let (lanes, wide) = (numbers.choice(&[0, 50, 100]), numbers.choice(&[0, 0, 0, 5]));
    for _ in 0..calls {
        if numbers.chance(flushes) {
            text += "flush=1\n";
        }
        if free.is_empty() {
            break;
        }
        if numbers.chance(sets) {
            text += &format!("set={}\n", free.pop().unwrap());
            continue;
        }
        let outputs: Vec<u64> = (0..numbers.below(3)).filter_map(|_| free.pop()).collect();
        let bound = outputs.iter().min().copied().unwrap_or(v);
        let bound = if numbers.chance(98) { bound } else { v };
        let inputs: Vec<u64> = match bound {
            0 => vec![],
            _ => (0..numbers.below(4))
                .map(|_| numbers.below(bound))
                .collect(),
        };
        if numbers.chance(lanes) {
            text += &lane_line(numbers, wide);
        }
        text += &format!("in={}\nout={}\n", list(&inputs), list(&outputs));
    }
    // Fill the gaps, mostly, so that nothing waits at the end.
    if numbers.chance(85) {
        while let Some(place) = free.pop() {
            text += &format!("set={place}\n");
        }
    }
    text += "final=1\n";
    text.into_bytes()
}

/// A lane line, with so many percent of lanes over 255.
fn lane_line(numbers: &mut Numbers, wide: u64) -> String {
    let lane = match numbers.chance(wide) {
        true => numbers.wide_lane(),
        false => numbers.lane(),
    };
    format!("lane={lane}\n")
}

fn list(places: &[u64]) -> String {
    places
        .iter()
        .map(|place| place.to_string())
        .collect::<Vec<_>>()
        .join(",")
}

/// Spoils a job in one place: a byte or a line lost, doubled or changed, or the end cut off.
fn damage(numbers: &mut Numbers, job: &mut Vec<u8>) {
    if job.is_empty() {
        return;
    }
    let at = numbers.below(job.len() as u64) as usize;
    let line_start = job[..at]
        .iter()
        .rposition(|&byte| byte == 10)
        .map_or(0, |i| i + 1);
    let line_end = job[at..]
        .iter()
        .position(|&byte| byte == 10)
        .map_or(job.len(), |i| at + i + 1);
    let bytes = [
        b'0', b'1', b'9', b',', b'=', b'\n', b' ', b'\r', b'-', 0, 255,
    ];
    match numbers.below(9) {
        0 => drop(job.remove(at)),
        1 => job.insert(at, numbers.choice(&bytes)),
        2 => job[at] = numbers.choice(&bytes),
        3 => drop(job.drain(line_start..line_end)),
        4 => {
            let line = job[line_start..line_end].to_vec();
            job.splice(line_end..line_end, line);
        }
        5 => job.truncate(at),
        6 => {
            let lines: [&[u8]; 15] = [
                b"set=0\n",
                b"set=18446744073709551615\n",
                b"set=18446744073709551616\n",
                b"set=4611686018427387904\n",
                b"in=0\nout=1,1\n",
                b"in=\nout=600\n",
                b"flush=1\n",
                b"final=1\n",
                b"in=1\n",
                b"\n",
                b"lane=0\n",
                b"lane=255\n",
                b"lane=256\n",
                b"lane=\n",
                b"lane=7\nin=0\nout=\n",
            ];
            let line = numbers.choice(&lines);
            job.splice(line_start..line_start, line.iter().copied());
        }
        7 => {
            let heads: [&[u8]; 8] = [
                b"parallelism=0\n",
                b"parallelism=65\n",
                b"parallelism=64\n",
                b"parallelism=64999\n",
                b"parallelism=65000\n",
                b"parallelism=01\n",
                b"parallelism=99999999999999999999\n",
                b"places=1\n",
            ];
            let end = job
                .iter()
                .position(|&byte| byte == 10)
                .map_or(job.len(), |i| i + 1);
            job.splice(..end, numbers.choice(&heads).iter().copied());
        }
        _ => {
            let digits = (line_start..line_end).find(|&i| job[i].is_ascii_digit());
            if let Some(i) = digits {
                job[i] = b'0' + numbers.below(10) as u8;
            }
        }
    }
}
