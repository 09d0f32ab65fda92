//! The reference model behind the interface of `replay_ascending`, as a library to link the tests with instead of the proved
//! one: so the tests can be tested. Storage is filled by the proved `replay_calls`, which makes the calls that the model
//! accepts. With the name of a fault in the environment variable STAND_IN_FAULT it does one thing wrong, which the tests must
//! notice.

#[path = "../../hosts/rust/src/calls.rs"]
#[allow(dead_code)]
mod calls;
#[path = "../../hosts/rust/src/layout.rs"]
#[allow(dead_code)]
mod layout;
#[path = "../reference/model.rs"]
#[allow(dead_code)]
mod model;

use calls::{Call, Calls};
use layout::{Needed, ENTRY, ROW, SPANS};
use model::{Ascending, Lent};
use std::slice::{from_raw_parts, from_raw_parts_mut};
use std::sync::OnceLock;

/// The fault that is asked for.
fn asked() -> &'static str {
    static FAULT: OnceLock<String> = OnceLock::new();
    FAULT.get_or_init(|| std::env::var("STAND_IN_FAULT").unwrap_or_default())
}

fn fault(name: &str) -> bool {
    asked() == name
}

extern "C" {
    fn replay_calls(
        spans: *mut u32, spans_length: usize, order: *mut u32, order_length: usize, tally: *mut u32, tally_length: usize,
        rows: *mut u32, rows_length: usize, marks: *mut u16, marks_length: usize, locations: *mut u64, locations_length: usize,
        waiting: *mut u64, waiting_length: usize, pool: *mut u32, pool_length: usize, answers: *mut u64, answers_length: usize,
        calls: *const u64, calls_length: usize, p: u64, v: u64,
    ) -> u64;
}

struct Slices<'a> {
    spans: &'a mut [u32],
    order: &'a mut [u32],
    tally: &'a mut [u32],
    rows: &'a mut [u32],
    marks: &'a mut [u16],
    locations: &'a mut [u64],
}

/// # Safety
/// Each pointer and count are a slice, and no two overlap.
#[no_mangle]
pub unsafe extern "C" fn replay_ascending(
    spans: *mut u32, spans_length: usize, order: *mut u32, order_length: usize, tally: *mut u32, tally_length: usize,
    rows: *mut u32, rows_length: usize, marks: *mut u16, marks_length: usize, locations: *mut u64, locations_length: usize,
    answers: *mut u64, answers_length: usize, calls: *const u64, calls_length: usize, p: u64, v: u64, w: u64,
) -> u64 {
    let mut slices = Slices {
        spans: from_raw_parts_mut(spans, spans_length),
        order: from_raw_parts_mut(order, order_length),
        tally: from_raw_parts_mut(tally, tally_length),
        rows: from_raw_parts_mut(rows, rows_length),
        marks: from_raw_parts_mut(marks, marks_length),
        locations: from_raw_parts_mut(locations, locations_length),
    };
    let answers = from_raw_parts_mut(answers, answers_length);
    replay(&mut slices, answers, from_raw_parts(calls, calls_length), [p, v, w])
}

fn replay(slices: &mut Slices, answers: &mut [u64], numbers: &[u64], [p, v, w]: [u64; 3]) -> u64 {
    if let Some(code) = refused(slices, answers, numbers, [p, v, w]) {
        let written = match code {
            15 => fault("malformed-writes"),
            1 => fault("1-writes"),
            _ => fault("2-writes"),
        };
        if written {
            answers.iter_mut().take(1).for_each(|answer| *answer = 0);
            slices.marks.iter_mut().take(1).for_each(|mark| *mark = 0);
        }
        return code;
    }
    let list = Calls { numbers: numbers.to_vec(), count: 0, list_numbers: 0 };
    let Ok(mut ascending) = Ascending::open(p, v, &Lent::for_session(p, v, w)) else {
        panic!("the opening is refused")
    };
    let (mut counted, mut accepted, mut last) = (Counted { w, amiss: 0 }, Calls::new(), 0);
    for (i, call) in list.iter().enumerate() {
        last = make(&mut ascending, &call, &mut counted);
        answers[i] = last;
        if last == 0 {
            accepted.push(&labelled(call));
        }
    }
    let needed = Needed::new(p as usize, v as usize);
    let returned = by_calls(slices, &accepted, &needed, p, v);
    spoil(slices, answers, &needed, list.iter().last(), last);
    match asked() {
        "returned-without-64" => returned / 64,
        "returned-one-more" => returned + 64,
        "returned-accepted" => 64 * ascending.session.used().registrations,
        _ => returned,
    }
}

/// Makes calls on the slices by `replay_calls`, on waiting storage, pool and answers of its own.
fn by_calls(slices: &mut Slices, calls: &Calls, needed: &Needed, p: u64, v: u64) -> u64 {
    let (mut waiting, mut pool) = (vec![0; needed.waiting], vec![0; calls.list_numbers()]);
    let mut answers = vec![0; calls.len()];
    whole(slices, &mut waiting, &mut pool, &mut answers, calls.numbers(), p, v)
}

fn whole(
    slices: &mut Slices, waiting: &mut [u64], pool: &mut [u32], answers: &mut [u64], calls: &[u64], p: u64, v: u64,
) -> u64 {
    // Each pointer and length is a slice that is borrowed for the call, exclusively where it is written.
    unsafe {
        replay_calls(
            slices.spans.as_mut_ptr(), slices.spans.len(), slices.order.as_mut_ptr(), slices.order.len(),
            slices.tally.as_mut_ptr(), slices.tally.len(), slices.rows.as_mut_ptr(), slices.rows.len(),
            slices.marks.as_mut_ptr(), slices.marks.len(), slices.locations.as_mut_ptr(), slices.locations.len(),
            waiting.as_mut_ptr(), waiting.len(), pool.as_mut_ptr(), pool.len(), answers.as_mut_ptr(), answers.len(),
            calls.as_ptr(), calls.len(), p, v,
        )
    }
}

/// The refusal of a whole list, if any. `replay_calls` on no waiting storage gives 15 and 1, or else 2, and writes nothing.
fn refused(slices: &mut Slices, answers: &[u64], numbers: &[u64], [p, v, w]: [u64; 3]) -> Option<u64> {
    let code = whole(slices, &mut [], &mut [], &mut [], numbers, p, v);
    match (code, asked()) {
        (15, "malformed-accepted") => return Some(0),
        (15, "1-before-15") if p == 0 => return Some(1),
        (1 | 15, _) => return Some(code),
        _ => {}
    }
    let list = Calls { numbers: numbers.to_vec(), count: 0, list_numbers: 0 };
    if fault("tag-5-is-malformed") && list.iter().any(|call| matches!(call, Call::AddInLane(..))) {
        return Some(15);
    }
    let count = list.iter().count();
    let fewer = |name: &str| usize::from(fault(name));
    let lent = Lent {
        spans: ((slices.spans.len() + fewer("spans-one-short")) / ENTRY) as u64,
        order: ((slices.order.len() + fewer("order-one-short")) / ENTRY) as u64,
        rows: ((slices.rows.len() + fewer("rows-one-short")) / ROW) as u64,
        places: (slices.marks.len() + fewer("marks-one-short")).min(slices.locations.len() + fewer("locations-one-short")) as u64,
        waiting: 0,
        tally: (slices.tally.len() + fewer("tally-one-short")) as u64,
        pool: w,
    };
    let short = answers.len() + fewer("answers-one-short") < count;
    match Ascending::open(p, v, &lent) {
        Err(code) => Some(code),
        Ok(_) if short => Some(2),
        // one that only the fault accepts: nothing can be made there
        Ok(_) if asked().ends_with("-one-short") && is_short(slices, answers, count, p, v) => Some(0),
        Ok(_) if fault("2-asks-for-more") && slices.spans.len() == ENTRY * SPANS * (p as usize + 1) => Some(2),
        Ok(_) if fault("2-asks-for-w") && w > 1 << 40 => Some(2),
        Ok(_) => None,
    }
}

/// Whether a slice is too short.
fn is_short(slices: &Slices, answers: &[u64], count: usize, p: u64, v: u64) -> bool {
    let needed = Needed::new(p as usize, v as usize);
    slices.spans.len() < needed.spans
        || slices.order.len() < needed.order
        || slices.tally.len() < needed.tally
        || slices.rows.len() < needed.rows
        || slices.marks.len() < needed.marks
        || slices.locations.len() < needed.locations
        || answers.len() < count
}

/// For faults in check 10: W, and the list numbers that a wrong count has taken for used, or left out.
struct Counted {
    w: u64,
    amiss: u64,
}

/// An accepted call as it is made.
fn labelled(call: Call<&[u64]>) -> Call<&[u64]> {
    match call {
        Call::AddInLane(_, inputs, outputs) if fault("lane-lost") => Call::Add(inputs, outputs),
        call => call,
    }
}

/// A call's number, a wrong one if such a fault is asked for. What is wrongly accepted is made as in an ordinary session,
/// what is wrongly refused is not made.
fn make(ascending: &mut Ascending, call: &Call<&[u64]>, counted: &mut Counted) -> u64 {
    let lowest = ascending.lowest();
    let places = ascending.session.places.len() as u64;
    let taken = |place: u64| place < places && ascending.session.places[place as usize].mark != model::UNTRACKED;
    let used = ascending.session.used();
    let ascend = |from: u64, outputs: &[u64]| (from..).zip(outputs).all(|(place, output)| *output == place);
    let twice = |outputs: &[u64]| {
        let mut sorted = outputs.to_vec();
        sorted.sort_unstable();
        sorted.windows(2).any(|pair| pair[0] == pair[1])
    };
    let judged = match *call {
        Call::Set(place) => match asked() {
            "8-before-21" if taken(place) && !ascending.session.closed => Some(8),
            "set-above-accepted" if lowest < place && place < places && !ascending.session.closed => Some(0),
            "set-is-not-judged" if place < places && !taken(place) && !ascending.session.closed => Some(0),
            "21-before-5" if place != lowest && place >> 62 == 0 && !ascending.session.closed => Some(21),
            "21-before-7" if place != lowest && place < places && ascending.session.closed => Some(21),
            "last-place-refused" if place + 1 == places && place == lowest => Some(21),
            _ => None,
        },
        Call::Add(inputs, outputs) | Call::AddInLane(_, inputs, outputs) => {
            let lane = if let Call::AddInLane(lane, ..) = call { *lane } else { 0 };
            let plain = !ascending.session.closed
                && lane < 256
                && inputs.len().max(outputs.len()) < 65_536
                && inputs.iter().chain(outputs).all(|place| *place < places);
            let listed = (inputs.len() + outputs.len()) as u64;
            let first = outputs.first().copied();
            let below = |bound: u64| inputs.iter().all(|input| *input < bound);
            let distinct = plain && !twice(outputs);
            let room = used.registrations < places && used.list_numbers + listed <= counted.w;
            let free = distinct && room && !outputs.iter().any(|place| taken(*place));
            match asked() {
                "8-before-21" if distinct && outputs.iter().any(|place| taken(*place)) => Some(8),
                "inputs-not-looked-at-without-outputs" if free && first.is_none() => Some(0),
                "inputs-not-looked-at" if free && ascend(lowest, outputs) => Some(0),
                "inputs-to-the-first-output" if free && first.is_some() && ascend(lowest, outputs) && below(lowest + 1) => Some(0),
                "inputs-to-the-lowest-place" if free && first.is_none() && below(lowest + 1) => Some(0),
                "only-the-last-input" if free && ascend(lowest, outputs) && inputs.last().is_some_and(|input| *input < lowest) => Some(0),
                "only-the-first-input" if free && ascend(lowest, outputs) && inputs.first().is_some_and(|input| *input < lowest) => Some(0),
                "inputs-below-the-last-output"
                    if free && ascend(lowest, outputs) && outputs.last().is_some_and(|last| below(*last)) => Some(0),
                "outputs-ascend-from-any-place"
                    if free && first.is_some_and(|first| ascend(first, outputs) && below(first)) => Some(0),
                "only-the-first-output" if free && first == Some(lowest) && below(lowest) => Some(0),
                "outputs-ascend-with-gaps"
                    if free && first == Some(lowest) && below(lowest) && outputs.windows(2).all(|pair| pair[0] < pair[1]) => Some(0),
                "outputs-in-any-order" if free && below(lowest) && {
                    let mut sorted = outputs.to_vec();
                    sorted.sort_unstable();
                    ascend(lowest, &sorted)
                } => Some(0),
                "21-before-6" if plain && !(ascend(lowest, outputs) && below(first.unwrap_or(lowest))) => Some(21),
                "21-before-5" if !ascending.session.closed && lane < 256 && inputs.iter().chain(outputs).all(|place| place >> 62 == 0)
                    && inputs.iter().chain(outputs).any(|place| *place >= places) => Some(21),
                "6-not-by-the-last" if plain && outputs.len() > 1 && twice(outputs) && !twice(&outputs[..outputs.len() - 1]) => Some(21),
                "9-before-21" if distinct && used.registrations == places => Some(9),
                "10-before-21" if distinct && used.list_numbers + listed > counted.w => Some(10),
                "8-for-21" if distinct && !ascend(lowest, outputs) => Some(8),
                "18-after-21" if lane > 255 && !ascending.session.closed && !ascend(lowest, outputs)
                    && inputs.iter().chain(outputs).all(|place| *place < places) && !twice(outputs) => Some(21),
                "255-refused" if lane == 255 && !ascending.session.closed => Some(18),
                "256-accepted" if lane == 256 && !ascending.session.closed => Some(3),
                "w-without-outputs" if distinct && used.registrations < places && ascend(lowest, outputs) && below(first.unwrap_or(lowest)) => {
                    let over = used.list_numbers - counted.amiss + inputs.len() as u64 > counted.w;
                    counted.amiss += if over { 0 } else { outputs.len() as u64 };
                    Some(if over { 10 } else { 0 })
                }
                "w-with-refused-adds" if !ascending.session.closed => {
                    let over = used.list_numbers + counted.amiss + listed > counted.w;
                    let fits = free && ascend(lowest, outputs) && below(first.unwrap_or(lowest));
                    counted.amiss += if fits && !over { 0 } else { listed.min(1 << 20) };
                    (fits && over).then_some(10)
                }
                "10-one-early" if free && ascend(lowest, outputs) && below(first.unwrap_or(lowest))
                    && used.list_numbers + listed == counted.w && listed > 0 => Some(10),
                "65535-outputs-refused" if plain && outputs.len() == 65_535 => Some(3),
                "65536-outputs-taken" if outputs.len() == 65_536 => Some(6),
                "last-place-refused" if free && first.is_some() && lowest + outputs.len() as u64 == places && ascend(lowest, outputs) => Some(21),
                _ => None,
            }
        }
        Call::Flush | Call::Final => match asked() {
            "final-refused" if *call == Call::Final && used.registrations > 3 => Some(12),
            _ => None,
        },
    };
    match judged {
        // what an ordinary session takes, or not; a wrong number is what counts
        Some(0) => {
            match *call {
                Call::Set(place) => drop(ascending.session.set(place)),
                Call::Add(inputs, outputs) => drop(ascending.session.add(0, inputs, outputs)),
                Call::AddInLane(lane, inputs, outputs) => drop(ascending.session.add(lane, inputs, outputs)),
                Call::Flush | Call::Final => {}
            }
            0
        }
        Some(code) => code,
        None => match *call {
            Call::Set(place) => ascending.set(place),
            Call::Add(inputs, outputs) => ascending.add(0, inputs, outputs),
            Call::AddInLane(lane, inputs, outputs) => ascending.add(lane, inputs, outputs),
            Call::Flush => ascending.flush(),
            Call::Final => ascending.final_flush().err().unwrap_or(0),
        },
    }
}

/// Writes what the calls do not, if such a fault is asked for; the last call had this number.
fn spoil(slices: &mut Slices, answers: &mut [u64], needed: &Needed, last: Option<Call<&[u64]>>, code: u64) {
    let outputs = last.as_ref().and_then(|call| call.lists()).map_or(&[][..], |(_, outputs)| *outputs);
    let places = slices.marks.len() as u64;
    match asked() {
        // the marks of its outputs, raised to find one that comes twice, and of one of them alone
        "marks-left-after-6" if code == 6 => outputs.iter().for_each(|place| slices.marks[*place as usize] = layout::WRITTEN),
        "a-mark-left-after-6" if code == 6 => slices.marks[outputs[0] as usize] |= 1,
        "marks-left-after-21" if code == 21 => {
            outputs.iter().filter(|place| **place < places).for_each(|place| slices.marks[*place as usize] |= 1)
        }
        "marks-cleared-after-6" if code == 6 => outputs.iter().for_each(|place| slices.marks[*place as usize] = 0),
        "refused-writes-a-slot" if code != 0 => slices.spans[needed.spans - 1] ^= 1,
        "refused-writes-a-location" if code == 10 => slices.locations[0] ^= 1,
        "refused-writes-the-order" if code == 21 => slices.order[needed.order - 1] ^= 1,
        "wrong-spans" => slices.spans.iter_mut().take(needed.spans).for_each(|number| *number ^= 1),
        "wrong-order" => slices.order[0] ^= 1,
        "wrong-tally" => slices.tally[needed.tally - 1] += 1,
        "wrong-rows" => slices.rows[needed.rows - 1] ^= 1,
        "wrong-marks" => slices.marks[needed.marks - 1] ^= 1,
        "wrong-locations" => slices.locations[needed.locations - 1] ^= 1,
        "wrong-answers" => answers.iter_mut().take(1).for_each(|answer| *answer ^= 1),
        "beyond-spans" => beyond(slices.spans, needed.spans),
        "beyond-order" => beyond(slices.order, needed.order),
        "beyond-tally" => beyond(slices.tally, needed.tally),
        "beyond-rows" => beyond(slices.rows, needed.rows),
        "beyond-marks" => beyond(slices.marks, needed.marks),
        "beyond-locations" => beyond(slices.locations, needed.locations),
        // the guard before the slice: what is lent there ends before it
        "before-answers" => unsafe { *answers.as_mut_ptr().sub(1) = 0 },
        "before-marks" => unsafe { *slices.marks.as_mut_ptr().sub(1) = 0 },
        "behind-rows" => unsafe { *slices.rows.as_mut_ptr().add(slices.rows.len()) = 0 },
        _ => {}
    }
}

/// Writes a number beyond the needed ones, if it is there.
fn beyond<T: Default>(numbers: &mut [T], needed: usize) {
    numbers.iter_mut().skip(needed).take(1).for_each(|number| *number = T::default());
}
