//! Lists of calls in which registrations wait, lists that follow them, and jobs of lists. Deterministic: the numbers come
//! from a seed.

use crate::generate::Numbers;
use crate::lists::{call_model, List};
use crate::{shapes, Call};

/// So many calls of a shape are taken.
const MOST_CALLS: usize = 60;

/// The numbers of list i of a seed.
pub fn seeded(seed: u64, i: u64) -> Numbers {
    shapes::seeded(seed, i)
}

/// List i: small and dense, or one of the shapes of session tests, most of them with refused calls.
pub fn list(seed: u64, i: u64) -> List {
    let mut numbers = seeded(seed, i);
    if i % 16 != 15 {
        return dense(&mut numbers);
    }
    let mut list = shapes::made(i / 16, &mut numbers);
    list.calls.truncate(MOST_CALLS);
    let wrong = numbers.choice(&[0, 10, 30]);
    let mut calls = Vec::new();
    for call in list.calls.drain(..) {
        if numbers.chance(wrong) {
            calls.push(random_call(list.v, &mut numbers));
        }
        calls.push(call);
    }
    List { calls, ..list }
}

/// Few places, over which any call may come, to be refused or not.
fn dense(numbers: &mut Numbers) -> List {
    let (p, v) = (1 + numbers.below(5), 1 + numbers.below(14));
    let count = numbers.below(3 * v + 2);
    let calls = (0..count).map(|_| random_call(v, numbers)).collect();
    let w = numbers.chance(20).then(|| numbers.below(4 * v));
    List { p, v, w, calls }
}

/// Places seldom are V, which is refused.
fn places(most: u64, v: u64, numbers: &mut Numbers) -> Vec<u64> {
    let bound = v + u64::from(numbers.chance(3));
    (0..numbers.below(most + 1)).map(|_| numbers.below(bound)).collect()
}

fn random_call(v: u64, numbers: &mut Numbers) -> Call {
    match numbers.below(20) {
        0 => Call::Flush,
        1 => Call::Final,
        2..=7 => Call::Set(numbers.below(v)),
        8..=9 => {
            let lane = if numbers.chance(90) { numbers.lane() } else { numbers.wide_lane() };
            Call::AddInLane(lane, places(3, v, numbers), places(2, v, numbers))
        }
        _ => Call::Add(places(4, v, numbers), places(2, v, numbers)),
    }
}

/// The list with calls after it: any, all places but this one set and then final, or all of them from this one on.
pub fn longer(list: &List, place: u64, numbers: &mut Numbers) -> List {
    let v = list.v;
    let later: Vec<Call> = match numbers.below(4) {
        0 => (0..v).filter(|other| *other != place).map(Call::Set).chain([Call::Flush, Call::Final]).collect(),
        1 => (place..v).map(Call::Set).chain([Call::Final, Call::Set(place)]).collect(),
        _ => (0..numbers.below(2 * v + 4)).map(|_| random_call(v, numbers)).collect(),
    };
    List { calls: list.calls.iter().cloned().chain(later).collect(), ..*list }
}

/// A job of the accepted calls of a list, or now and then of all, and of some calls only; ended by final, with something
/// after it now and then.
pub fn job(list: &List, numbers: &mut Numbers) -> Vec<u8> {
    let mut text = format!("parallelism={}\nplaces={}\n", list.p, list.v);
    let Ok(mut session) = list.open_model() else {
        crate::fail("the opening of a list is refused")
    };
    let (all, taken) = (numbers.chance(15), numbers.below(list.calls.len() as u64 + 1));
    for call in &list.calls[..taken as usize] {
        if *call != Call::Final && (call_model(&mut session, call) == 0 || all) {
            text += &lines(call);
        }
    }
    text += match numbers.below(8) {
        0 => "final=1",
        1 => "",
        2 => "final=1\nset=0\n",
        3 => "final=1\nx",
        4 => "final=1\n\n",
        _ => "final=1\n",
    };
    text.into_bytes()
}

/// A call as lines of a job.
fn lines(call: &Call) -> String {
    let list = |places: &[u64]| places.iter().map(u64::to_string).collect::<Vec<_>>().join(",");
    match call {
        Call::Set(place) => format!("set={place}\n"),
        Call::Flush => "flush=1\n".to_owned(),
        Call::Final => "final=1\n".to_owned(),
        Call::Add(inputs, outputs) => format!("in={}\nout={}\n", list(inputs), list(outputs)),
        Call::AddInLane(lane, inputs, outputs) => format!("lane={lane}\nin={}\nout={}\n", list(inputs), list(outputs)),
    }
}
