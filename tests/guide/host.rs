//! Answers runs of the guide alone (oracle/FORMAT.md) through the exported `guide_replay`, on storage
//! that is full of other numbers before the opening. After every run it looks that the order's entries
//! not yet appended and all that lies beyond the needed lengths are as they were, and that every lane is 0:
//! an entry's fourth number is its parallelism alone, and that of an entry held is 0.
//!
//!   guide runs       runs on standard input, printed again with the answers beside them
//!   guide refusals   calls that must be refused with 15, 1 or 2 and change nothing, each beside one that is not

use std::fmt::{Display, Write as _};
use std::io::{BufWriter, Read, Write};
use std::process::exit;

#[path = "../../hosts/rust/src/layout.rs"]
#[allow(dead_code)]
mod layout;

use layout::{Needed, ANSWER, ENTRY, LANE_RADIX, REQUEST, SPANS};

extern "C" {
    #[allow(clippy::too_many_arguments)]
    fn guide_replay(
        p: u64,
        v: u64,
        requests: *const u32,
        requests_length: usize,
        spans: *mut u32,
        spans_length: usize,
        order: *mut u32,
        order_length: usize,
        tally: *mut u32,
        tally_length: usize,
        answers: *mut u32,
        answers_length: usize,
    ) -> u32;
}

/// What storage holds before the opening, and how many numbers are lent beyond the needed ones.
const OTHER: u32 = 0xA5A5_5A5A;
const BEYOND: usize = 3;

struct Storage {
    spans: Vec<u32>,
    order: Vec<u32>,
    tally: Vec<u32>,
    answers: Vec<u32>,
}

impl Storage {
    fn new(spans: usize, order: usize, tally: usize, answers: usize) -> Self {
        Self {
            spans: vec![OTHER; spans],
            order: vec![OTHER; order],
            tally: vec![OTHER; tally],
            answers: vec![OTHER; answers],
        }
    }

    fn replay(&mut self, p: u64, v: u64, requests: &[u32]) -> u32 {
        let Self { spans, order, tally, answers } = self;
        unsafe {
            guide_replay(
                p,
                v,
                requests.as_ptr(),
                requests.len(),
                spans.as_mut_ptr(),
                spans.len(),
                order.as_mut_ptr(),
                order.len(),
                tally.as_mut_ptr(),
                tally.len(),
                answers.as_mut_ptr(),
                answers.len(),
            )
        }
    }

    fn untouched(&self) -> bool {
        [&self.spans, &self.order, &self.tally, &self.answers]
            .iter()
            .all(|slice| slice.iter().all(|number| *number == OTHER))
    }
}

fn main() {
    let words: Vec<String> = std::env::args().skip(1).collect();
    match words.iter().map(String::as_str).collect::<Vec<_>>()[..] {
        ["runs"] => runs(),
        ["refusals"] => refusals(),
        _ => fail("use: runs | refusals"),
    }
}

fn fail(message: &str) -> ! {
    eprintln!("guide: {message}");
    exit(2)
}

// ---- Refused calls

/// A push with no `after`, and a flush.
const PUSH: [u32; REQUEST] = [1, 0, 0, 1, 2, 3];
const FLUSH: [u32; REQUEST] = [0; REQUEST];

struct Case {
    p: u64,
    v: u64,
    spans: usize,
    order: usize,
    tally: usize,
    answers: usize,
    requests: Vec<u32>,
}

impl Case {
    /// Storage of exactly the needed lengths for one push.
    fn exact(p: u64, v: u64) -> Self {
        let Needed { spans, order, tally, .. } = Needed::new(p as usize, v as usize);
        Self { p, v, spans, order, tally, answers: ANSWER, requests: PUSH.to_vec() }
    }

    fn must_give(&self, want: u32) {
        let mut storage = Storage::new(self.spans, self.order, self.tally, self.answers);
        let got = storage.replay(self.p, self.v, &self.requests);
        if got != want || (want != 0) != storage.untouched() {
            let Self { p, v, spans, order, tally, answers, .. } = self;
            fail(&format!(
                "P {p}, V {v}, lengths {spans} {order} {tally} {answers}, requests {:?}: {got}, not {want}, or the storage is not as it should be",
                self.requests
            ));
        }
    }
}

fn refusals() {
    let small = || Case::exact(7, 9);
    let with = |requests: &[&[u32]], answers| Case { requests: requests.concat(), answers, ..small() };
    let beside = |p, v| Case { p, v, ..small() };
    let wide = 1u64 << 32;
    let kind = |kind: u32| [kind, 0, 0, 1, 2, 3];
    let cases = [
        // 15: no multiple of six; a kind above 2, also in the last request
        (with(&[&PUSH[..5]], ANSWER), 15),
        (with(&[&PUSH, &[0]], 2 * ANSWER), 15),
        (with(&[&kind(3)], ANSWER), 15),
        (with(&[&PUSH, &FLUSH, &kind(u32::MAX)], 3 * ANSWER), 15),
        (with(&[&kind(2)], ANSWER), 0),
        // 1: P, then V, out of range, 64 bits wide
        (beside(0, 9), 1),
        (beside(65_000, 9), 1),
        (beside(wide + 1, 9), 1),
        (beside(u64::MAX, 9), 1),
        (beside(7, 0), 1),
        (beside(7, wide + 1), 1),
        (beside(7, u64::MAX), 1),
        (Case::exact(65_000, 9), 1),
        (Case::exact(7, 16_777_217), 1),
        (Case::exact(0, 0), 1),
        // 2: a slice one number short
        (Case { spans: small().spans - 1, ..small() }, 2),
        (Case { order: small().order - 1, ..small() }, 2),
        (Case { tally: small().tally - 1, ..small() }, 2),
        (Case { spans: 0, order: 0, tally: 0, ..small() }, 2),
        (Case { spans: Case::exact(64_999, 9).spans - 1, ..Case::exact(64_999, 9) }, 2),
        (Case { order: Case::exact(7, 16_777_216).order - 1, ..Case::exact(7, 16_777_216) }, 2),
        (with(&[&PUSH], ANSWER - 1), 2),
        (with(&[&PUSH, &FLUSH, &PUSH], 3 * ANSWER - 1), 2),
        (with(&[&PUSH], 0), 2),
        // the order: 15 before 1, 1 before 2
        (Case { p: 0, requests: kind(3).to_vec(), ..small() }, 15),
        (Case { p: 0, answers: 0, ..small() }, 1),
        // accepted
        (small(), 0),
        (with(&[&PUSH, &FLUSH, &PUSH], 3 * ANSWER), 0),
        (Case::exact(64_999, 9), 0),
        (Case::exact(7, 16_777_216), 0),
        (Case::exact(1, 1), 0),
    ];
    for (case, want) in &cases {
        case.must_give(*want);
    }
    println!("guide: {} calls, refused or not, no difference", cases.len());
}

// ---- Runs

struct Run {
    p: u64,
    v: u64,
    traced: bool,
    lines: Vec<String>,
    requests: Vec<u32>,
}

fn runs() {
    let mut input = String::new();
    if std::io::stdin().read_to_string(&mut input).is_err() {
        fail("the input can't be read");
    }
    let mut out = BufWriter::with_capacity(1 << 16, std::io::stdout());
    let mut run: Option<Run> = None;
    for (i, line) in input.lines().enumerate() {
        let wrong = || -> ! { fail(&format!("line {}: `{line}`", i + 1)) };
        if line.starts_with('=') {
            continue;
        }
        let words: Vec<&str> = line.split(' ').collect();
        match (&mut run, &words[..]) {
            (Some(open), ["end"]) => {
                put(&mut out, &answer(open));
                run = None;
            }
            (Some(open), _) if line.is_empty() || line.starts_with('#') => open.lines.push(line.to_owned()),
            (None, _) if line.is_empty() || line.starts_with('#') => put(&mut out, &format!("{line}\n")),
            (None, ["guide", p, v]) => {
                let (Ok(p), Ok(v)) = (p.parse(), v.parse()) else { wrong() };
                run = Some(Run { p, v, traced: false, lines: Vec::new(), requests: Vec::new() });
                put(&mut out, &format!("{line}\n"));
            }
            (Some(open), ["trace"]) if open.requests.is_empty() => {
                open.traced = true;
                put(&mut out, "trace\n");
            }
            (Some(open), _) => {
                let Some(request) = request(&words) else { wrong() };
                open.lines.push(line.to_owned());
                open.requests.extend(request);
            }
            (None, _) => wrong(),
        }
    }
    if run.is_some() {
        fail("the last run has no `end`");
    }
    if out.flush().is_err() {
        exit(1);
    }
}

fn put(out: &mut impl Write, text: &str) {
    if out.write_all(text.as_bytes()).is_err() {
        exit(1);
    }
}

fn number(word: &str) -> Option<u32> {
    word.parse().ok()
}

fn request(words: &[&str]) -> Option<[u32; REQUEST]> {
    match words {
        ["flush"] => Some([0; REQUEST]),
        ["push", value, added, accepted, after] => {
            let (kind, span, position) = match after.split_once(',') {
                None if *after == "-" => (1, 0, 0),
                Some((span, position)) => (2, number(span)?, number(position)?),
                None => return None,
            };
            Some([kind, span, position, number(value)?, number(added)?, number(accepted)?])
        }
        _ => None,
    }
}

/// The run's lines with the answers beside them, in the words of FORMAT.md.
fn answer(run: &Run) -> String {
    let (p, v) = (run.p as usize, run.v as usize);
    let calls = run.requests.len() / REQUEST;
    let Needed { spans, order, tally, .. } = Needed::new(p, v);
    let mut storage = Storage::new(spans + BEYOND, order + BEYOND, tally + BEYOND, calls * ANSWER + BEYOND);
    let code = storage.replay(run.p, run.v, &run.requests);
    let mut text = String::new();
    if code != 0 {
        if !storage.untouched() {
            fail("a refused opening changed the storage");
        }
        for line in &run.lines {
            let _ = writeln!(text, "{line}");
        }
        let _ = writeln!(text, "= refused open,{code}\nend");
        return text;
    }
    let answers: Vec<&[u32]> = storage.answers[..calls * ANSWER].chunks(ANSWER).collect();
    let mut made = answers.iter();
    let (mut refused, mut locations) = (Vec::new(), Vec::new());
    for line in &run.lines {
        let _ = writeln!(text, "{line}");
        if line.is_empty() || line.starts_with('#') {
            continue;
        }
        let Some(answer) = made.next() else { fail("fewer answers than calls") };
        let (code, location) = (answer[0], format!("{},{}", answer[1], answer[2]));
        let pushed = code == 0 && line != "flush";
        if run.traced {
            let location = if pushed { &location } else { "-" };
            let _ = writeln!(text, "= at {code} {location} {} {}", answer[3], window(answer));
        }
        if code != 0 {
            refused.push(format!("{},{code}", answers.len() - made.len() - 1));
        }
        if pushed {
            locations.push(location);
        }
    }
    let mut fresh = [0; ANSWER];
    fresh[4] = 0;
    let last: &[u32] = answers.last().copied().unwrap_or(&fresh);
    let written = last[3] as usize;
    if storage.spans[spans..].iter().any(|n| *n != OTHER)
        || storage.order[ENTRY * written..].iter().any(|n| *n != OTHER)
        || storage.tally[tally..].iter().any(|n| *n != OTHER)
        || storage.answers[calls * ANSWER..].iter().any(|n| *n != OTHER)
    {
        fail("storage beyond the needed lengths, or of entries not yet appended, was changed");
    }
    if storage.order[..ENTRY * written].chunks(ENTRY).any(|entry| entry[3] >= LANE_RADIX) {
        fail("the guide alone writes a lane");
    }
    say(&mut text, "refused", refused);
    say(&mut text, "locations", locations);
    say(&mut text, "order", storage.order[..ENTRY * written].chunks(ENTRY).map(tuple));
    let counts = storage.tally[..tally].iter().enumerate();
    say(&mut text, "tally", counts.filter(|(_, n)| **n != 0).map(|(i, n)| format!("{i},{n}")));
    let _ = writeln!(text, "= window {}", window(last));
    // A span's row is its number modulo the count of spans.
    let held = (0..SPANS).flat_map(|i| {
        let row = (last[4] as usize + i) % SPANS * (p + 1);
        storage.spans[ENTRY * row..].chunks(ENTRY).take(last[5 + i] as usize)
    });
    if held.clone().any(|entry| entry[3] != 0) {
        fail("the guide alone holds an entry with a parallelism or a lane");
    }
    say(&mut text, "held", held.map(|entry| tuple(&entry[..3])));
    text.push_str("end\n");
    text
}

fn tuple(numbers: &[u32]) -> String {
    numbers.iter().map(u32::to_string).collect::<Vec<_>>().join(",")
}

/// Span 0's number, and the lengths up to the last that is not 0.
fn window(answer: &[u32]) -> String {
    let lengths = &answer[5..];
    let shown = lengths.iter().rposition(|length| *length != 0).map_or(0, |i| i + 1);
    let mut text = answer[4].to_string();
    for length in &lengths[..shown] {
        let _ = write!(text, " {length}");
    }
    text
}

fn say(text: &mut String, word: &str, tuples: impl IntoIterator<Item = impl Display>) {
    let _ = write!(text, "= {word}");
    for tuple in tuples {
        let _ = write!(text, " {tuple}");
    }
    text.push('\n');
}
