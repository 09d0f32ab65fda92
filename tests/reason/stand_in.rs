//! The reference model behind the interface of `replay_reason` and `order_reason`, as a library to link the tests with
//! instead of the proved one: so the tests can be tested. Storage is filled by the proved `replay_calls`. With the name of a
//! fault in the environment variable STAND_IN_FAULT it does one thing wrong, which the tests must notice.

#[path = "../../hosts/rust/src/calls.rs"]
#[allow(dead_code)]
mod calls;
#[path = "../../hosts/rust/src/layout.rs"]
#[allow(dead_code)]
mod layout;
#[path = "../reference/model.rs"]
#[allow(dead_code)]
mod model;

use calls::{Call, Calls};
use model::{Lent, Reason, Refusal, Session};
use std::slice::{from_raw_parts, from_raw_parts_mut};
use std::sync::OnceLock;

/// The fault that is asked for.
fn asked() -> &'static str {
    static FAULT: OnceLock<String> = OnceLock::new();
    FAULT.get_or_init(|| std::env::var("STAND_IN_FAULT").unwrap_or_default())
}

fn fault(name: &str) -> bool {
    asked() == name
}

extern "C" {
    fn replay_calls(
        spans: *mut u32, spans_length: usize, order: *mut u32, order_length: usize, tally: *mut u32, tally_length: usize,
        rows: *mut u32, rows_length: usize, marks: *mut u16, marks_length: usize, locations: *mut u64, locations_length: usize,
        waiting: *mut u64, waiting_length: usize, pool: *mut u32, pool_length: usize, answers: *mut u64, answers_length: usize,
        calls: *const u64, calls_length: usize, p: u64, v: u64,
    ) -> u64;
}

/// # Safety
/// Each pointer and count are a slice, and no two overlap.
#[no_mangle]
pub unsafe extern "C" fn replay_reason(
    spans: *mut u32, spans_length: usize, order: *mut u32, order_length: usize, tally: *mut u32, tally_length: usize,
    rows: *mut u32, rows_length: usize, marks: *mut u16, marks_length: usize, locations: *mut u64, locations_length: usize,
    waiting: *mut u64, waiting_length: usize, pool: *mut u32, pool_length: usize, answers: *mut u64, answers_length: usize,
    calls: *const u64, calls_length: usize, p: u64, v: u64, r: u64,
) -> u64 {
    let returned = replay_calls(
        spans, spans_length, order, order_length, tally, tally_length, rows, rows_length, marks, marks_length, locations,
        locations_length, waiting, waiting_length, pool, pool_length, answers, answers_length, calls, calls_length, p, v,
    );
    if returned % 64 != 0 {
        if fault("refused-and-written") && answers_length > 0 {
            *answers = 0;
        }
        return returned;
    }
    let numbers = from_raw_parts(calls, calls_length).to_vec();
    let list = Calls { numbers, count: 0, list_numbers: 0 };
    let mut session = open(p, v, pool_length as u64);
    for call in list.iter() {
        match call {
            Call::Final if fault("final-not-made") => {}
            call if make(&mut session, call) != 0 && fault("ends-at-a-refused-call") => break,
            _ => {}
        }
    }
    let told = explained(&session, r, v);
    let (marks, pool) = (from_raw_parts_mut(marks, v as usize), from_raw_parts_mut(pool, pool_length));
    spoil(told, marks, from_raw_parts_mut(answers, answers_length), pool);
    told.map_or_else(|code| code, |reason| number(reason))
}

/// Writes what the calls do not, if such a fault is asked for.
fn spoil(told: Result<Reason, u64>, marks: &mut [u16], answers: &mut [u64], pool: &mut [u32]) {
    match (asked(), told) {
        ("marks-the-place", Ok(Reason { place, .. })) => marks[place as usize] = 1,
        ("clears-an-answer", Err(20)) => answers.iter_mut().for_each(|answer| *answer = 0),
        ("writes-the-pool", Ok(_)) => pool[0] ^= 1,
        _ => {}
    }
}

fn open(p: u64, v: u64, pool: u64) -> Session {
    let opened = Session::open(p, v, &Lent::for_session(p, v, pool));
    opened.unwrap_or_else(|code| panic!("the opening is refused with {code}"))
}

fn make(session: &mut Session, call: Call<&[u64]>) -> u64 {
    match call {
        Call::Set(place) => session.set(place),
        Call::Add(inputs, outputs) => session.add(0, inputs, outputs),
        Call::AddInLane(lane, inputs, outputs) => session.add(lane, inputs, outputs),
        Call::Flush => session.flush(),
        Call::Final => session.final_flush().err().unwrap_or(0),
    }
}

/// The reason of a session, a wrong one if such a fault is asked for.
fn explained(session: &Session, r: u64, v: u64) -> Result<Reason, u64> {
    let r = match asked() {
        "32-bits-of-r" => r % (1 << 32),
        "16-bits-of-r" => r % (1 << 16),
        "registrations-from-1" => r.wrapping_sub(1),
        _ => r,
    };
    let told = session.reason(r);
    let tracked = |place: u64| session.places[place as usize].mark != model::UNTRACKED;
    let count = session.used().registrations;
    let (inputs, outputs) = match r < count {
        true => session.lists(r),
        false => (&[][..], &[][..]),
    };
    let promised = |place: u64| (0..count).any(|r| session.lists(r).1.contains(&place));
    match (asked(), told) {
        ("19-from-v-on", Err(19)) if r < v => Err(20),
        ("19-from-v-on", _) if r >= v => Err(19),
        ("19-one-too-late", Err(19)) if r == count => Err(20),
        ("19-one-too-early", _) if r + 1 == count => Err(19),
        ("19-and-20-exchanged", Err(code)) => Err(39 - code),
        ("20-where-all-inputs-are-tracked", Ok(_)) if inputs.iter().all(|&place| tracked(place)) => Err(20),
        ("20-where-the-greatest-is-tracked", Ok(Reason { input, .. })) if tracked(input) => Err(20),
        ("20-at-the-watermark", Ok(Reason { input, place })) if input == place => Err(20),
        ("20-where-it-reads-its-output", Ok(_)) if inputs.iter().any(|place| outputs.contains(place)) => Err(20),
        ("a-reason-below-the-watermark", Err(20)) if !inputs.is_empty() => {
            let input = inputs.iter().copied().max().unwrap_or(0);
            Ok(Reason { input, place: session.leading })
        }
        ("20-without-inputs-is-19", Err(20)) if inputs.is_empty() => Err(19),
        (_, Ok(reason)) => Ok(wrong(reason, session.places.len() as u64, inputs, tracked, promised)),
        (_, told) => told,
    }
}

/// A reason that is wrong by a fault, of a registration with these inputs.
fn wrong(
    reason: Reason,
    places: u64,
    inputs: &[u64],
    tracked: impl Fn(u64) -> bool,
    promised: impl Fn(u64) -> bool,
) -> Reason {
    let Reason { mut input, mut place } = reason;
    let untracked = || inputs.iter().copied().filter(|&place| !tracked(place));
    match asked() {
        "lowest-untracked-input" => place = untracked().min().unwrap_or(place),
        "lowest-not-promised" => place = (0..places).find(|&place| !tracked(place) && !promised(place)).unwrap_or(place),
        "greatest-untracked-input" => input = untracked().max().unwrap_or(input),
        "first-input" => input = inputs[0],
        "last-input" => input = inputs[inputs.len() - 1],
        "least-input" => input = inputs.iter().copied().min().unwrap_or(input),
        "the-high-mark" => place = place.saturating_sub(1),
        "greatest-untracked-place" => place = (0..places).rev().find(|&place| !tracked(place)).unwrap_or(place),
        "after-the-greatest-tracked" => place = (0..places).rev().find(|&place| tracked(place)).map_or(0, |place| place + 1),
        "exchanged" => (input, place) = (place, input),
        _ => {}
    }
    Reason { input, place }
}

/// A reason as it is returned.
fn number(reason: Reason) -> u64 {
    let Reason { input, place } = reason;
    match asked() {
        "radix-of-23-bits" => 64 * ((1 << 23) * input + place),
        "radix-of-25-bits" => 64 * ((1 << 25) * input + place),
        "without-64" => (1 << 24) * input + place,
        "with-12" => reason.returned() + 12,
        "input-of-8-bits" => 64 * ((1 << 24) * (input % 256) + place),
        _ => reason.returned(),
    }
}

/// # Safety
/// The pointer and the count are a slice.
#[no_mangle]
pub unsafe extern "C" fn order_reason(job: *const u8, job_count: usize, r: u64) -> u64 {
    job_answer(from_raw_parts(job, job_count), r)
}

fn job_answer(job: &[u8], r: u64) -> u64 {
    let lines = job.iter().filter(|&&byte| byte == 10).count() as u64;
    let session = match model::stopped_job(read_as(job)) {
        Ok(session) => session,
        Err(refusal) => return refused(&refusal),
    };
    let waits = model::finish_job(job).err().filter(|refusal| refusal.code == 12);
    let closing = waits.as_ref().map_or(lines, |refusal| refusal.line);
    let surplus = closing < lines || !job.ends_with(b"\n");
    match explained(&session, r, session.places.len() as u64) {
        _ if waits.is_some() && surplus && fault("surplus-after-12") => 64 * (closing + 1) + 15,
        _ if waits.is_some() && fault("12-is-refused") => 64 * closing + 12,
        Ok(reason) => number(reason),
        Err(_) if waits.is_none() && fault("accepted-is-0") => 0,
        Err(code) if fault("19-and-20-with-a-line") => 64 * closing + code,
        Err(code) => code,
    }
}

/// The job as it is read: with a fault, without what follows an accepted final.
fn read_as(job: &[u8]) -> &[u8] {
    let end = job.windows(9).position(|nine| nine == b"\nfinal=1\n").map(|at| at + 9);
    let cut = end.map_or(job, |end| &job[..end]);
    match fault("surplus-after-an-accepted-final") && model::finish_job(cut).is_ok() {
        true => cut,
        false => job,
    }
}

fn refused(refusal: &Refusal) -> u64 {
    let Refusal { code, line } = *refusal;
    match asked() {
        "refused-without-a-line" => code,
        "refused-is-19" => 19,
        "16-at-line-2" if code == 16 => 64 * 2 + 16,
        "line-too-early" if code != 16 => 64 * (line - 1) + code,
        _ => refusal.returned(),
    }
}
