//! Lists of calls, in the profile but for calls that are wrong on purpose. Deterministic: the numbers come from a seed.

use crate::compared::{call_model, open_model};
use crate::generate::Numbers;
use crate::lists::List;
use crate::text::run_text;
use crate::Call;

/// Lists of accepted calls, in lane 0, as runs of an ordinary session: the Rust takes no others.
pub fn write_accepted(seed: u64, count: u64) {
    for i in 0..count {
        let mut list = list(seed, i);
        let Ok(mut model) = open_model(&list) else {
            crate::fail("the opening of a list is refused")
        };
        list.calls.retain(|call| call_model(&mut model, call) == 0);
        for call in &mut list.calls {
            if let Call::AddInLane(_, inputs, outputs) = call {
                *call = Call::Add(std::mem::take(inputs), std::mem::take(outputs));
            }
        }
        print!("{}", run_text(&List { w: None, ..list }, false));
    }
}

/// List i of a seed.
pub fn list(seed: u64, i: u64) -> List {
    let mut numbers = Numbers(seed.wrapping_mul(1 << 40).wrapping_add(i));
    let numbers = &mut numbers;
    let v = if numbers.chance(10) { 40 + numbers.below(60) } else { 1 + numbers.below(24) };
    let p = if numbers.chance(95) { 1 + numbers.below(6) } else { numbers.choice(&[31, 64, 130]) };
    let w = numbers.chance(20).then(|| numbers.below(4 * v));
    let mut list = List { p, v, w: None, calls: Vec::new() };
    let Ok(mut model) = open_model(&List { w: Some(u64::MAX), ..list.clone() }) else {
        crate::fail("the opening of a list is refused")
    };
    let (wrong, sets) = (numbers.choice(&[0, 10, 30, 60]), numbers.choice(&[5, 20, 50]));
    let (flushes, most) = (numbers.choice(&[0, 3, 15]), numbers.choice(&[1, 2, 5]));
    let steps = 1 + numbers.below(2 * v.min(30) + 4);
    for _ in 0..steps {
        let lowest = model.lowest();
        let call = match () {
            _ if numbers.chance(flushes) => Call::Flush,
            _ if numbers.chance(1) => Call::Final,
            _ if numbers.chance(wrong) => breach(lowest, v, numbers),
            _ if numbers.chance(sets) => Call::Set(lowest),
            _ => ascending(lowest, v, most, numbers),
        };
        call_model(&mut model, &call);
        list.calls.push(call);
    }
    if numbers.chance(60) {
        list.calls.push(Call::Final);
    }
    List { w, ..list }
}

/// An add in the profile: so many outputs at most, inputs below them, the last one among them often.
fn ascending(lowest: u64, v: u64, most: u64, numbers: &mut Numbers) -> Call {
    let outputs = (lowest..v).take(numbers.below(most + 1) as usize).collect();
    let count = if lowest == 0 { 0 } else { numbers.below(4) };
    let inputs = (0..count).map(|_| if numbers.chance(30) { lowest - 1 } else { numbers.below(lowest) });
    labelled(inputs.collect(), outputs, numbers)
}

fn labelled(inputs: Vec<u64>, outputs: Vec<u64>, numbers: &mut Numbers) -> Call {
    match numbers.below(50) {
        0 => Call::AddInLane(numbers.wide_lane(), inputs, outputs),
        1..=20 => Call::AddInLane(numbers.lane(), inputs, outputs),
        _ => Call::Add(inputs, outputs),
    }
}

/// A call that breaches the profile in one way, or is wrong otherwise; where there are few places it may be accepted.
fn breach(lowest: u64, v: u64, numbers: &mut Numbers) -> Call {
    let near = |numbers: &mut Numbers| match numbers.below(6) {
        0 => lowest.saturating_sub(1),
        1 => lowest + 1,
        2 => lowest + 2,
        3 => v,
        _ => numbers.below(v),
    };
    let mut outputs: Vec<u64> = (lowest..v).take(1 + numbers.below(4) as usize).collect();
    let mut inputs: Vec<u64> = (0..lowest).take(numbers.below(3) as usize).collect();
    match numbers.below(15) {
        0..=1 => return Call::Set(near(numbers)),
        2 => return Call::Set(numbers.choice(&[1 << 62, 1 << 63, u64::MAX, (1 << 62) - 1])),
        // outputs one higher, one lower, turned round, with a gap, with one twice, one of any kind
        3 => outputs.iter_mut().for_each(|place| *place = (*place + 1).min(v)),
        4 => outputs.iter_mut().for_each(|place| *place = place.saturating_sub(1)),
        5 => outputs.reverse(),
        6 if outputs.len() > 2 => drop(outputs.remove(1)),
        7 if !outputs.is_empty() => {
            let again = outputs[numbers.below(outputs.len() as u64) as usize];
            outputs.push(again);
        }
        8 => outputs.push(near(numbers)),
        // one that is taken, twice
        14 if lowest > 0 => {
            let again = numbers.below(lowest);
            outputs.insert(0, again);
            outputs.push(again);
        }
        // inputs: the first output, one of the others, one at or above the lowest place where there is no output, any
        9 => inputs.push(lowest),
        10 if !outputs.is_empty() => inputs.push(outputs[numbers.below(outputs.len() as u64) as usize]),
        11 => {
            outputs.clear();
            inputs.push(lowest + numbers.below(2));
        }
        12 => inputs.push(near(numbers)),
        _ => {
            let flagged = numbers.choice(&[1 << 62, 1 << 63]);
            let list = if numbers.chance(50) { &mut inputs } else { &mut outputs };
            list.push(flagged);
        }
    }
    labelled(inputs, outputs, numbers)
}
