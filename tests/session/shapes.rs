//! Runs of chosen shapes, each call accepted by the model, so that they can be compared with the Rust:
//! what random lists seldom have. Deterministic: the numbers come from a seed.

use crate::generate::Numbers;
use crate::lists::{call_model, List};
use crate::model::{Lent, Session};
use crate::Call;
use crate::text::run_text;

pub fn write(seed: u64, count: u64) {
    for i in 0..count {
        let list = made(i, &mut seeded(seed, i));
        print!("{}", run_text(&list, true));
    }
}

/// The numbers of list i of a seed.
pub fn seeded(seed: u64, i: u64) -> Numbers {
    Numbers(seed.wrapping_mul(1 << 40).wrapping_add(i))
}

/// A list of the shape that comes i-th, one shape after the other.
pub fn made(i: u64, numbers: &mut Numbers) -> List {
    match i % 5 {
        0 => deep_cascade(numbers),
        1 => comb(numbers),
        2 => overfull(numbers),
        3 => layers(numbers),
        _ => gaps(numbers),
    }
}

/// A list in the making, with the model beside it.
pub struct Making {
    session: Session,
    list: List,
}

impl Making {
    pub fn new(p: u64, v: u64) -> Self {
        let Ok(session) = Session::open(p, v, &Lent::for_session(p, v, u64::MAX)) else {
            crate::fail("the opening of a shape is refused")
        };
        let (calls, w) = (Vec::new(), None);
        Self {
            session,
            list: List { p, v, w, calls },
        }
    }

    /// Makes the call; it stands in the list if the model accepts it.
    pub fn call(&mut self, call: Call) {
        if call_model(&mut self.session, &call) == 0 {
            self.list.calls.push(call);
        }
    }

    pub fn add(&mut self, inputs: &[u64], outputs: &[u64]) {
        self.call(Call::Add(inputs.to_vec(), outputs.to_vec()));
    }

    pub fn flush_sometimes(&mut self, numbers: &mut Numbers, percent: u64) {
        if numbers.chance(percent) {
            self.call(Call::Flush);
        }
    }

    /// The place is set, or written by an add without inputs.
    pub fn provide(&mut self, numbers: &mut Numbers, place: u64) {
        if numbers.chance(50) {
            self.call(Call::Set(place));
        } else {
            self.add(&[], &[place]);
        }
    }

    /// Ends with final, or with a flush where something waits.
    pub fn end(mut self) -> List {
        self.call(Call::Final);
        if !self.session.closed {
            self.call(Call::Flush);
        }
        self.list
    }
}

/// A chain registered backwards, with readers beside it, before and after: one call places all.
fn deep_cascade(numbers: &mut Numbers) -> List {
    let depth = 5 + numbers.below(60);
    let (p, breadth) = (1 + numbers.below(6), numbers.below(4));
    let mut making = Making::new(p, (depth + 1) * (breadth + 2));
    let flushes = numbers.choice(&[0, 3, 15]);
    for place in (1..=depth).rev() {
        let before = numbers.below(breadth + 1);
        for reader in 0..breadth {
            if reader == before {
                making.add(&[place - 1], &[place]);
            }
            making.add(&[numbers.below(place), place - 1], &[]);
        }
        making.add(&[place - 1], &[place]);
        making.flush_sometimes(numbers, flushes);
    }
    making.provide(numbers, 0);
    making.end()
}

/// Many places tracked above a gap, readers under each, in some order: the gap's filling takes all
/// off at once, and some of them fill the next gap.
fn comb(numbers: &mut Numbers) -> List {
    let (teeth, width) = (2 + numbers.below(5), 2 + numbers.below(12));
    let v = 3 * teeth * width;
    let mut making = Making::new(1 + numbers.below(5), v);
    for tooth in (0..teeth).rev() {
        let gap = tooth * width;
        for place in gap + 1..gap + width {
            making.provide(numbers, place);
            for _ in 0..numbers.below(3) {
                making.add(&[gap + 1 + numbers.below(width - 1), place], &[]);
            }
        }
        if tooth > 0 {
            // The gap's own writer waits under a place of the tooth before.
            making.add(&[gap - 1 - numbers.below(width - 1)], &[gap]);
        }
        making.flush_sometimes(numbers, 10);
    }
    making.provide(numbers, 0);
    making.end()
}

/// Spans fill far ahead, move to the front, and take values without inputs though they are full.
fn overfull(numbers: &mut Numbers) -> List {
    let p = 1 + numbers.below(5);
    let v = 60 + numbers.below(200);
    let mut making = Making::new(p, v);
    let (absent, reach) = (numbers.choice(&[10, 30, 50]), 1 + numbers.below(12));
    making.call(Call::Set(0));
    for place in 1..v {
        if numbers.chance(absent) {
            making.add(&[], &[place]);
        } else {
            making.add(&[place - 1 - numbers.below(reach.min(place))], &[place]);
        }
        making.flush_sometimes(numbers, 1);
    }
    making.end()
}

/// Layers broader than P, each registration reading some of the layer before.
fn layers(numbers: &mut Numbers) -> List {
    let (p, steps) = (1 + numbers.below(8), 2 + numbers.below(40));
    let breadth = 1 + numbers.below(2 * p + 2);
    let mut making = Making::new(p, (steps + 1) * breadth);
    for place in 0..breadth {
        making.provide(numbers, place);
    }
    for step in 1..=steps {
        for place in step * breadth..(step + 1) * breadth {
            let inputs: Vec<u64> = (0..1 + numbers.below(3))
                .map(|_| (step - 1) * breadth + numbers.below(breadth))
                .collect();
            making.add(&inputs, &[place]);
        }
        making.flush_sometimes(numbers, 5);
    }
    making.end()
}

/// Places in a shuffled order, writers reading below what they write; at the end the holes are filled
/// from above, or some stay.
fn gaps(numbers: &mut Numbers) -> List {
    let places = 20 + numbers.below(150);
    let mut making = Making::new(numbers.choice(&[1, 2, 3, 7, 130]), 2 * places);
    let mut order: Vec<u64> = (0..places).collect();
    for i in (1..order.len()).rev() {
        order.swap(i, numbers.below(i as u64 + 1) as usize);
    }
    for place in order {
        match numbers.below(4) {
            0 => {}
            1 => making.call(Call::Set(place)),
            _ if place == 0 => making.add(&[], &[0]),
            _ => making.add(&[numbers.below(place), numbers.below(place)], &[place]),
        }
        if numbers.chance(20) {
            making.add(&[numbers.below(places)], &[]);
        }
        making.flush_sometimes(numbers, 2);
    }
    if numbers.chance(90) {
        for place in (0..places).rev() {
            making.provide(numbers, place);
        }
    }
    making.end()
}
