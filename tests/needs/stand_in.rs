//! The reference model's reader behind the interface of `job_needs`, as a library to link the tests with
//! instead of the proved one: so the tests can be tested. With the name of a fault in the environment
//! variable STAND_IN_FAULT it does one thing wrong, which the tests must notice.

#[path = "../reference/model.rs"]
#[allow(dead_code)]
mod model;

use model::{Needs, Refusal};
use std::borrow::Cow;
use std::sync::OnceLock;

/// The fault that is asked for.
fn asked() -> &'static str {
    static FAULT: OnceLock<String> = OnceLock::new();
    FAULT.get_or_init(|| std::env::var("STAND_IN_FAULT").unwrap_or_default())
}

fn fault(name: &str) -> bool {
    asked() == name
}

/// # Safety
/// The pointer and the count are a slice, and `needs` is four numbers that do not overlap with it.
#[no_mangle]
pub unsafe extern "C" fn job_needs(job: *const u8, job_count: usize, needs: *mut u64) -> u64 {
    let answer = answer(std::slice::from_raw_parts(job, job_count));
    if fault("writes-past-the-four") {
        *needs.add(4) = 0;
    }
    if fault("writes-before-the-four") {
        *needs.sub(1) = 0;
    }
    match answer {
        Ok(numbers) => {
            std::slice::from_raw_parts_mut(needs, 4).copy_from_slice(&numbers);
            0
        }
        Err(returned) => {
            if fault("refused-and-written") {
                *needs.add(3) = 0;
            }
            returned
        }
    }
}

fn answer(job: &[u8]) -> Result<[u64; 4], u64> {
    if let Some(refusal) = judged(job) {
        return Err(refusal.returned());
    }
    let read = read_as(job);
    match model::job_needs(&read) {
        Ok(needs) => Ok(numbers(&read, needs)),
        Err(refusal) => Err(told(&read, refusal).returned()),
    }
}

/// A refusal that must not come, if such a fault is asked for.
fn judged(job: &[u8]) -> Option<Refusal> {
    let ran = |job: &[u8]| model::finish_job(job).err();
    if let Some(code) = asked().strip_prefix("judged-") {
        return ran(job).filter(|refusal| refusal.code.to_string() == code);
    }
    match asked() {
        // with another P only V can be refused
        "places-judged" => {
            let rest = job.iter().position(|&byte| byte == 10).map_or(job, |end| &job[end + 1..]);
            ran(&[b"parallelism=1\n", rest].concat()).filter(|refusal| refusal.code <= 2)
        }
        "16-at-65536" if job.len() == 65_536 => Some(Refusal { code: 16, line: 1 }),
        "16-at-line-2" if job.len() > 65_536 => Some(Refusal { code: 16, line: 2 }),
        "15-before-16" if job.len() > 65_536 => model::job_needs(&job[..65_536]).err(),
        _ => None,
    }
}

/// The job as it is read: with a fault, another one.
fn read_as(job: &[u8]) -> Cow<'_, [u8]> {
    let (whole, rest) = job.split_at(closed(job));
    let surplus = match rest {
        [] => false,
        [10, ..] => fault("surplus-empty-line"),
        _ if rest.contains(&10) => fault("surplus-line"),
        _ => fault("surplus-text"),
    };
    match asked() {
        _ if surplus => whole.into(),
        "last-line-without-byte-10" if job.ends_with(b"\nfinal=1") => [job, b"\n"].concat().into(),
        "no-final" if job.ends_with(b"\n") && model::job_needs(job).is_err() => [job, b"final=1\n"].concat().into(),
        "wide-numbers" => {
            let text = String::from_utf8_lossy(job);
            text.replace("18446744073709551616", "1").into_bytes().into()
        }
        "reads-up-to-a-refusal" => up_to_refusal(job).into(),
        _ => without_lanes(job).into(),
    }
}

/// The job without those of its lane lines that a fault passes over.
fn without_lanes(job: &[u8]) -> Vec<u8> {
    let lines: Vec<&[u8]> = job.split_inclusive(|&byte| byte == 10).collect();
    let next = |i: usize| lines.get(i + 1).copied().unwrap_or_default();
    let passed_over = |i: usize| match asked() {
        "lane-line-dropped" => true,
        "lane-before-set" => next(i).starts_with(b"set="),
        "lane-before-flush" => next(i) == b"flush=1\n",
        "lane-before-final" => next(i) == b"final=1\n",
        "lane-before-out" => next(i).starts_with(b"out="),
        "lane-twice" => next(i).starts_with(b"lane="),
        "lane-in-the-head" => i < 2,
        _ => false,
    };
    let kept = lines.iter().enumerate().filter(|(i, line)| !(line.starts_with(b"lane=") && passed_over(*i)));
    kept.flat_map(|(_, line)| line.to_vec()).collect()
}

/// How many bytes the lines up to the first final have, where they are well formed; else all of them.
fn closed(job: &[u8]) -> usize {
    let end = job.windows(9).position(|nine| nine == b"\nfinal=1\n").map(|at| at + 9);
    end.filter(|&end| model::job_needs(&job[..end]).is_ok()).unwrap_or(job.len())
}

/// The lines before the one at which running the job refuses it, and final.
fn up_to_refusal(job: &[u8]) -> Vec<u8> {
    match model::finish_job(job) {
        Err(Refusal { code: 1..=14, line }) => {
            let lines: Vec<&[u8]> = job.split_inclusive(|&byte| byte == 10).collect();
            let read = lines[..line as usize].concat();
            match read.ends_with(b"final=1\n") {
                true => read,
                false => [&read[..], b"final=1\n"].concat(),
            }
        }
        _ => job.to_vec(),
    }
}

/// The four numbers, one of them wrong if such a fault is asked for.
fn numbers(job: &[u8], needs: Needs) -> [u64; 4] {
    let lines = || job.split(|&byte| byte == 10);
    let lists = |key: &'static [u8]| lines().filter_map(move |line| line.strip_prefix(key));
    let both = || lists(b"in=").chain(lists(b"out="));
    let commas = |list: &[u8]| list.iter().filter(|&&byte| byte == b',').count() as u64;
    let count = |list: &[u8]| if list.is_empty() { 0 } else { commas(list) + 1 };
    let Needs { registrations: mut n, list_numbers: mut w, flushes: mut f } = needs;
    match asked() {
        "inputs-not-counted" => w -= lists(b"in=").map(count).sum::<u64>(),
        "outputs-not-counted" => w -= lists(b"out=").map(count).sum::<u64>(),
        "bytes-counted" => w = both().map(|list| list.len() as u64).sum(),
        "commas-counted" => w = both().map(commas).sum(),
        "empty-lists-counted" => w += both().filter(|list| list.is_empty()).count() as u64,
        "numbers-to-4096" => w = w.min(4_096),
        "numbers-to-one-list" => w = w.min(32_748),
        "set-counted" => n += lists(b"set=").count() as u64,
        "set-in-the-numbers" => w += lists(b"set=").count() as u64,
        "lane-in-the-numbers" => w += lists(b"lane=").count() as u64,
        "lane-counted" => n += lists(b"lane=").count() as u64,
        "registrations-to-512" => n = n.min(512),
        "flush-not-counted" => f = 0,
        "flushes-to-4095" => f %= 4_096,
        "final-counted" => f += 1,
        _ => {}
    }
    let mut ceiling = 2 * n + 32 * (f + 1);
    match asked() {
        "ceiling-without-final" => ceiling -= 32,
        "ceiling-without-flushes" => ceiling -= 32 * f,
        "ceiling-one-a-registration" => ceiling -= n,
        "ceiling-of-17-bits" => ceiling %= 1 << 17,
        "numbers-before-registrations" => (n, w) = (w, n),
        _ => {}
    }
    [n, w, f, ceiling]
}

/// A refusal, on a wrong line if such a fault is asked for.
fn told(job: &[u8], refusal: Refusal) -> Refusal {
    let Refusal { code, line } = refusal;
    let lines: Vec<&[u8]> = job.split_inclusive(|&byte| byte == 10).collect();
    let there = lines.get(line as usize - 1);
    let before = (line as usize).checked_sub(2).and_then(|i| lines.get(i));
    let after_in = before.is_some_and(|line| line.starts_with(b"in="));
    let after_lane = before.is_some_and(|line| line.starts_with(b"lane="));
    let earlier = match there.filter(|line| line.ends_with(b"\n")) {
        Some(line) if after_in && line.starts_with(b"out=") => fault("malformed-out-at-its-in"),
        Some(_) if after_in => fault("other-line-at-its-in"),
        None if after_in => fault("missing-out-at-its-in"),
        None if after_lane && fault("missing-in-at-its-lane") => true,
        Some(_) if after_lane => fault("other-line-at-its-lane"),
        None => fault("missing-line-at-the-last"),
        _ => false,
    };
    Refusal { code, line: if earlier && code == 15 { line - 1 } else { line } }
}
