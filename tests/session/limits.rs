//! The greatest lists: K1 and K2 of docs/DIFFERENCES.md, the last plain flush, and lists whose work
//! must stay linear. Each is compared with the model, and its replay has a bound of processor time
//! that linear work stays far below and quadratic work cannot meet.

use crate::buffers::{encode, Buffers, Lent, Short};
use crate::lists::call_model;
use crate::model;
use crate::state::State;
use crate::{list_numbers, Call};

/// The bound, in seconds of processor time. Linear work takes hundredths.
const BOUND: f64 = 3.0;

/// Places, and registrations that wait, of the lists whose work must stay linear.
const PLACES: u64 = 1 << 20;
const MANY: u64 = 100_000;

struct Case {
    name: &'static str,
    p: u64,
    v: u64,
    calls: Vec<Call>,
    /// How many calls are refused with each number.
    refused: Vec<(u64, usize)>,
    /// The last number of the first entry, where that was worked out by hand.
    first: Option<u32>,
}

pub fn check() -> Result<String, String> {
    let cases: [fn() -> Case; 14] = [
        sum_of_lengths,
        widest_in_last_lane,
        many_inputs,
        many_outputs,
        last_flush,
        under_one_place_by_set,
        under_one_place_by_add,
        under_many_places_by_set,
        under_many_places_by_add,
        chain_backwards,
        growing_stack,
        refused_while_many_wait,
        places_ascending,
        places_descending,
    ];
    let mut buffers = Buffers::new();
    let (mut calls, mut longest) = (0, 0.0);
    for case in cases {
        let case = case();
        let seconds = check_case(&case, &mut buffers)
            .map_err(|message| format!("{}: {message}", case.name))?;
        calls += case.calls.len();
        longest = f64::max(longest, seconds);
    }
    Ok(format!(
        "  {} great lists, {calls} calls: as the model says, K1 and K2 among them; the longest replay took \
         {longest:.2} s of processor time (bound {BOUND} s)",
        cases.len()
    ))
}

fn check_case(case: &Case, buffers: &mut Buffers) -> Result<f64, String> {
    let Case { p, v, calls, .. } = case;
    let w = calls.iter().map(list_numbers).sum();
    let (numbers, _) = encode(calls);
    buffers.prepare(&Lent {
        p: *p,
        v: *v,
        w,
        calls: calls.len(),
        slack: 1,
        short: Short::Nothing,
        whole: true,
    });
    let started = processor_seconds();
    buffers.call(&numbers, *p, *v);
    let seconds = processor_seconds() - started;

    let mut session = model::Session::open(*p, *v, &model::Lent::for_session(*p, *v, w as u64))
        .map_err(|code| format!("the model refuses the opening with {code}"))?;
    let codes: Vec<u64> = calls
        .iter()
        .map(|call| call_model(&mut session, call))
        .collect();
    State::of_model(&session).compare(buffers, *p, calls, &codes)?;
    check_refused(case, &codes)?;
    if let Some(first) = case.first {
        check_first(buffers, first)?;
    }
    match seconds <= BOUND {
        true => Ok(seconds),
        false => Err(format!(
            "{seconds:.1} s of processor time, the bound is {BOUND} s"
        )),
    }
}

fn check_refused(case: &Case, codes: &[u64]) -> Result<(), String> {
    let wanted: usize = case.refused.iter().map(|(_, count)| count).sum();
    let found = codes.iter().filter(|code| **code != 0).count();
    let each = |(number, count): &(u64, usize)| {
        codes.iter().filter(|code| *code == number).count() == *count
    };
    match found == wanted && case.refused.iter().all(each) {
        true => Ok(()),
        false => Err(format!("{found} calls are refused, not {:?}", case.refused)),
    }
}

fn check_first(buffers: &Buffers, first: u32) -> Result<(), String> {
    match &buffers.order.needed()[..4] {
        entry if *entry == [0, 0, 0, first] => Ok(()),
        entry => Err(format!("the first entry is {entry:?}")),
    }
}

extern "C" {
    /// Of the C library: the process's processor time in millionths of a second.
    fn clock() -> i64;
}

fn processor_seconds() -> f64 {
    // No arguments, no memory.
    unsafe { clock() as f64 / 1e6 }
}

// ---- The lists

fn add(inputs: &[u64], outputs: &[u64]) -> Call {
    Call::Add(inputs.to_vec(), outputs.to_vec())
}

fn in_lane(lane: u64, inputs: &[u64], outputs: &[u64]) -> Call {
    Call::AddInLane(lane, inputs.to_vec(), outputs.to_vec())
}

/// K1: two spans of 32,768 entries, both below P, whose lengths add up to 2^16.
fn sum_of_lengths() -> Case {
    let mut calls = vec![add(&[], &[0])];
    calls.extend((1..32_768).map(|_| add(&[], &[])));
    calls.extend((0..32_768).map(|_| add(&[0], &[])));
    calls.push(Call::Final);
    Case {
        name: "K1",
        p: 32_769,
        v: 65_536,
        calls,
        refused: vec![],
        // the figure of document 01's rule, not of a sum in 16 bits
        first: Some(32_768),
    }
}

/// The greatest parallelism, 64,999, in lane 255: 64,999 + 65,536 · 255.
fn widest_in_last_lane() -> Case {
    let mut calls: Vec<Call> = (0..64_999).map(|_| in_lane(255, &[], &[])).collect();
    calls.push(Call::Final);
    Case {
        name: "the widest entry, in the last lane",
        p: 64_999,
        v: 64_999,
        calls,
        refused: vec![],
        first: Some(16_776_679),
    }
}

/// K2: 65,535 inputs are accepted, 65,536 are not; a lane over 255 is judged before.
fn many_inputs() -> Case {
    let calls = vec![
        Call::Set(0),
        add(&vec![0; 65_535], &[1]),
        add(&vec![0; 65_536], &[2]),
        in_lane(256, &vec![0; 65_536], &[2]),
        in_lane(255, &vec![0; 65_536], &[2]),
        in_lane(255, &vec![1; 65_535], &[2]),
        in_lane(254, &vec![3; 65_535], &[]),
        Call::Set(3),
        Call::Final,
    ];
    Case {
        name: "K2, inputs",
        p: 2,
        v: 5,
        calls,
        refused: vec![(3, 2), (18, 1)],
        first: None,
    }
}

/// K2: 65,535 outputs are accepted, 65,536 are not; a repeated output, or one already taken, is found
/// behind 65,534 others, many times over.
fn many_outputs() -> Case {
    let last = 65_535;
    let mut calls = vec![Call::Set(last)];
    let all: Vec<u64> = (0..last).collect();
    let twice: Vec<u64> = (0..last - 1).chain([last - 2]).collect();
    let taken: Vec<u64> = (1..=last).collect();
    for _ in 0..20 {
        calls.push(add(&[], &twice));
        calls.push(add(&[], &taken));
    }
    let one_more: Vec<u64> = (0..=last).collect();
    calls.push(add(&[], &one_more));
    calls.push(in_lane(256, &[], &one_more));
    calls.push(in_lane(255, &[], &one_more));
    calls.push(in_lane(255, &[], &all));
    calls.push(add(&all, &[]));
    calls.push(Call::Final);
    Case {
        name: "K2, outputs",
        p: 3,
        v: last + 1,
        calls,
        refused: vec![(6, 20), (8, 20), (3, 2), (18, 1)],
        first: None,
    }
}

/// 65,535 plain flushes, then only final; with the longest spans.
fn last_flush() -> Case {
    let mut calls = vec![add(&[], &[]), Call::Set(0)];
    calls.extend((0..65_535).map(|_| Call::Flush));
    calls.extend([
        add(&[0], &[]),
        Call::Flush,
        Call::Flush,
        Call::Final,
        Call::Flush,
    ]);
    Case {
        name: "the last plain flush",
        p: 64_999,
        v: 3,
        calls,
        refused: vec![(11, 2), (7, 1)],
        first: None,
    }
}

/// The calls leave many waiting for one gap; `fill` makes its place, and all come off.
fn until_filled(name: &'static str, mut calls: Vec<Call>, fill: Call) -> Case {
    calls.extend([fill, Call::Final]);
    Case {
        name,
        p: 8,
        v: PLACES,
        calls,
        refused: vec![],
        first: None,
    }
}

/// Many wait under one place.
fn under_one_place(name: &'static str, fill: Call) -> Case {
    let mut calls: Vec<Call> = (1..=10).map(Call::Set).collect();
    calls.extend((0..MANY).map(|i| in_lane(i % 256, &[i % 10, 10], &[])));
    until_filled(name, calls, fill)
}

fn under_one_place_by_set() -> Case {
    under_one_place("many under one place, by set", Call::Set(0))
}

fn under_one_place_by_add() -> Case {
    under_one_place("many under one place, by add", add(&[], &[0]))
}

/// Many wait under different places, registered from the highest down and then from the lowest up.
fn under_many_places(name: &'static str, fill: Call) -> Case {
    let mut calls: Vec<Call> = (1..=MANY).map(Call::Set).collect();
    calls.extend((1..=MANY / 2).rev().map(|place| add(&[2 * place], &[])));
    calls.extend((1..=MANY / 2).map(|place| add(&[2 * place - 1], &[])));
    until_filled(name, calls, fill)
}

fn under_many_places_by_set() -> Case {
    under_many_places("many under different places, by set", Call::Set(0))
}

fn under_many_places_by_add() -> Case {
    under_many_places("many under different places, by add", add(&[], &[0]))
}

/// Each that is placed sets off the next.
fn chain_backwards() -> Case {
    let mut calls: Vec<Call> = (0..MANY)
        .rev()
        .map(|place| add(&[place], &[place + 1]))
        .collect();
    calls.extend([Call::Set(0), Call::Final]);
    Case {
        name: "a chain registered backwards",
        p: 4,
        v: PLACES,
        calls,
        refused: vec![],
        first: None,
    }
}

/// Each that is placed sets off a reader and then the next of the chain, which goes first: the stack
/// holds all readers before the first of them is placed.
fn growing_stack() -> Case {
    let links = MANY / 2;
    let mut calls: Vec<Call> = (0..links)
        .map(|place| in_lane(place % 256, &[place], &[]))
        .collect();
    calls.extend((0..links).map(|place| in_lane(place % 255, &[place], &[place + 1])));
    calls.extend([add(&[], &[0]), Call::Final]);
    Case {
        name: "a stack that grows",
        p: 4,
        v: PLACES,
        calls,
        refused: vec![],
        first: None,
    }
}

/// Refused calls and flushes, none of which may walk over those who wait, or over the accepted adds.
fn refused_while_many_wait() -> Case {
    let mut calls: Vec<Call> = (0..MANY)
        .map(|i| add(&[PLACES - 1 - i], &[i + 1]))
        .collect();
    for i in 0..MANY {
        calls.push(Call::Final);
        calls.push(Call::Set(i + 1));
        calls.push(add(&[0], &[PLACES - 1, i + 1]));
        calls.push(add(&[0], &[PLACES, i]));
        if i < 65_535 {
            calls.push(Call::Flush);
        }
    }
    Case {
        name: "refused calls while many wait",
        p: 4,
        v: PLACES,
        calls,
        refused: vec![
            (12, MANY as usize),
            (8, 2 * MANY as usize),
            (5, MANY as usize),
        ],
        first: None,
    }
}

/// The mark moves with every call.
fn places_ascending() -> Case {
    let mut calls: Vec<Call> = (0..PLACES).map(Call::Set).collect();
    calls.extend([add(&[PLACES - 1], &[]), Call::Final]);
    Case {
        name: "places ascending",
        p: 1,
        v: PLACES,
        calls,
        refused: vec![],
        first: None,
    }
}

/// The mark moves once, over all places.
fn places_descending() -> Case {
    let mut calls: Vec<Call> = (1..PLACES).rev().map(Call::Set).collect();
    calls.extend([add(&[PLACES - 1], &[]), Call::Set(0), Call::Final]);
    Case {
        name: "places descending",
        p: 1,
        v: PLACES,
        calls,
        refused: vec![],
        first: None,
    }
}
