//! One list of calls under the profile, replayed by all its beginnings. After each, answers and slices must say what the
//! reference model says, a refused call must leave all slices equal, byte for byte, and `replay_calls` must leave the same
//! of the calls that were accepted. What another program said of the list is compared too.

use crate::buffers::{encode, Buffers, Lent};
use crate::lists::{List, Told};
use crate::state::State;
use crate::sys::{self, AscendingSlices, Slices};
use crate::text::run_text;
use crate::{lane_of, list_numbers, model, Call};
use std::cell::Cell;
use std::rc::Rc;

/// Storage for replays by `replay_ascending`, which is told W.
pub struct Under {
    pub storage: Buffers,
    w: Rc<Cell<u64>>,
}

impl Under {
    pub fn new() -> Self {
        let w = Rc::new(Cell::new(0));
        let told = w.clone();
        let storage = Buffers::by(move |slices, answers, calls, p, v| {
            let Slices { spans, order, tally, rows, marks, locations, .. } = slices;
            let slices = AscendingSlices { spans, order, tally, rows, marks, locations };
            sys::ascending(slices, answers, calls, p, v, told.get())
        });
        Self { storage, w }
    }

    /// From now on this W is told.
    pub fn set(&self, w: u64) {
        self.w.set(w);
    }
}

/// W of a list: where none is given, its own numbers just fit.
fn most_list_numbers(list: &List) -> u64 {
    list.w.unwrap_or_else(|| list.calls.iter().map(list_numbers).sum::<usize>() as u64)
}

/// A list as a run, to be shown.
pub fn text(list: &List) -> String {
    run_text(list, false).replacen("session", "ascending", 1)
}

pub fn open_model(list: &List) -> Result<model::Ascending, u64> {
    let lent = model::Lent { waiting: 0, ..model::Lent::for_session(list.p, list.v, most_list_numbers(list)) };
    model::Ascending::open(list.p, list.v, &lent)
}

/// Makes a call on the model and gives its number.
pub fn call_model(ascending: &mut model::Ascending, call: &Call) -> u64 {
    match call {
        Call::Set(place) => ascending.set(*place),
        Call::Add(inputs, outputs) | Call::AddInLane(_, inputs, outputs) => ascending.add(lane_of(call), inputs, outputs),
        Call::Flush => ascending.flush(),
        Call::Final => ascending.final_flush().err().unwrap_or(0),
    }
}

/// The storage of three replays: by `replay_ascending` now and before the last call, and of the accepted calls by
/// `replay_calls`.
pub struct Replays {
    now: Under,
    before: Under,
    ordinary: Buffers,
    pub met: Met,
}

impl Replays {
    pub fn new() -> Self {
        let (now, before) = (Under::new(), Under::new());
        Self { now, before, ordinary: Buffers::new(), met: Met::default() }
    }

    pub fn check(&mut self, list: &List, told: Option<&Told>) -> Result<(), String> {
        self.met.lists += 1;
        self.now.set(most_list_numbers(list));
        self.before.set(most_list_numbers(list));
        let mut model = match open_model(list) {
            Ok(model) => model,
            Err(code) => return self.check_not_opened(list, code, told),
        };
        let (numbers, ends) = encode(&list.calls);
        let mut codes = Vec::new();
        self.replay_beginning(list, &model, &codes, &[])?;
        self.compare_ordinary(list, &codes)?;
        for (i, call) in list.calls.iter().enumerate() {
            let lowest = model.lowest();
            let code = call_model(&mut model, call);
            codes.push(code);
            self.met.take(list, call, code, lowest);
            std::mem::swap(&mut self.now, &mut self.before);
            let after = |message| format!("after {} calls: {message}", i + 1);
            self.replay_beginning(list, &model, &codes, &numbers[..ends[i]]).map_err(after)?;
            if code != 0 {
                let at = |message| format!("call {i} is refused, but {message}");
                self.now.storage.check_same(&self.before.storage).map_err(at)?;
            }
            self.compare_ordinary(list, &codes).map_err(after)?;
            check_placed(&model).map_err(after)?;
        }
        self.met.entries += model.session.window.order.len() as u64;
        match told {
            Some(told) => self.compare_told(told, list.p, &codes),
            None => Ok(()),
        }
    }

    /// A list whose opening is refused for its P or V: the number is returned and nothing is written.
    fn check_not_opened(&mut self, list: &List, code: u64, told: Option<&Told>) -> Result<(), String> {
        let storage = &mut self.now.storage;
        storage.prepare(&Lent { p: list.p.clamp(1, 64), v: list.v.clamp(1, 64), w: 0, ..list.lent(list.calls.len(), true) });
        storage.call(&encode(&list.calls).0, list.p, list.v);
        if storage.returned != Err(code) || told.is_some_and(|told| told.opening != Some(code)) {
            return Err(format!("{:?} is returned, and {code} by the model", storage.returned));
        }
        storage.check_nothing_written()
    }

    /// Replays a beginning of a list, encoded, after which the model stands so and has given these numbers.
    fn replay_beginning(&mut self, list: &List, model: &model::Ascending, codes: &[u64], numbers: &[u64]) -> Result<(), String> {
        let storage = &mut self.now.storage;
        storage.replay(&Lent { w: 0, ..list.lent(codes.len(), true) }, numbers);
        let state = State::of_model(&model.session);
        state.compare_results(storage, list.p, codes)?;
        storage.check_frame(state.order.len(), 0)?;
        self.met.beginnings += 1;
        Ok(())
    }

    /// Compares that with what the calls of it that were accepted leave by `replay_calls`.
    fn compare_ordinary(&mut self, list: &List, codes: &[u64]) -> Result<(), String> {
        let calls = list.calls.iter().zip(codes);
        let accepted: Vec<Call> = calls.filter(|(_, code)| **code == 0).map(|(call, _)| call.clone()).collect();
        let w = accepted.iter().map(list_numbers).sum();
        self.ordinary.replay(&Lent { w, ..list.lent(accepted.len(), true) }, &encode(&accepted).0);
        let storage = &self.now.storage;
        let at = |message| format!("the accepted calls by replay_calls: {message}");
        if self.ordinary.answers.needed().iter().any(|code| *code != 0) {
            return Err(at("one of them is refused".to_owned()));
        }
        if storage.returned != self.ordinary.returned {
            return Err(at(format!("{:?} is returned, not {:?}", self.ordinary.returned, storage.returned)));
        }
        storage.check_same_results(&self.ordinary).map_err(at)
    }

    /// What another program said of the list, of which the last replay was.
    fn compare_told(&mut self, told: &Told, p: u64, codes: &[u64]) -> Result<(), String> {
        let at = |message| format!("told otherwise: {message}");
        let wanted = told.codes.as_ref().map_or(codes, |codes| codes);
        if told.opening.is_some() || wanted != codes {
            return Err(at("the numbers of the calls".to_owned()));
        }
        if let Some(end) = &told.end {
            end.compare_results(&self.now.storage, p, wanted).map_err(at)?;
            self.met.ends_told += 1;
        }
        self.met.told += 1;
        Ok(())
    }
}

/// In the model nobody waits, and each registration was placed within its own add.
fn check_placed(model: &model::Ascending) -> Result<(), String> {
    let session = &model.session;
    let mut placed = session.window.order.iter().chain(session.window.spans.iter().flatten());
    match session.waiting.is_empty() && placed.all(|entry| entry.accepted == entry.added) {
        true => Ok(()),
        false => Err("in the model a registration waits, or has waited".to_owned()),
    }
}

/// The greatest number of a refusal.
const GREATEST_CODE: usize = 21;

/// What the lists met.
#[derive(Default)]
pub struct Met {
    pub lists: u64,
    beginnings: u64,
    calls: u64,
    entries: u64,
    /// Lists of which another program told the calls' numbers, and of these where it told how things stood at the end.
    told: u64,
    ends_told: u64,
    refused: [u64; GREATEST_CODE + 1],
    /// Accepted calls by which wrong ones are told apart.
    in_lanes: u64,
    several_outputs: u64,
    no_outputs: u64,
    input_just_below: u64,
    all_places: u64,
    flushes: u64,
    /// Breaches of each kind, and what is refused with 6.
    set_above: u64,
    set_again: u64,
    outputs_above: u64,
    outputs_again: u64,
    outputs_descend: u64,
    outputs_with_a_gap: u64,
    taken_and_twice: u64,
    input_at_the_first_output: u64,
    input_is_a_later_output: u64,
    input_without_outputs: u64,
}

impl Met {
    fn take(&mut self, list: &List, call: &Call, code: u64, lowest: u64) {
        self.calls += 1;
        self.refused[code as usize] += u64::from(code != 0);
        let count = |counter: &mut u64, holds: bool| *counter += u64::from(holds);
        match (call, code) {
            (Call::Flush, 0) => self.flushes += 1,
            (Call::Set(_), 0) => count(&mut self.all_places, lowest + 1 == list.v),
            (Call::Set(place), 21) => {
                count(&mut self.set_above, *place > lowest);
                count(&mut self.set_again, *place < lowest);
            }
            _ => {}
        }
        let Some((inputs, outputs)) = call.lists() else {
            return;
        };
        let ascend = (lowest..).zip(outputs).all(|(place, output)| *output == place);
        match (code, outputs.first()) {
            (0, first) => {
                count(&mut self.in_lanes, lane_of(call) != 0);
                count(&mut self.several_outputs, outputs.len() > 1);
                count(&mut self.no_outputs, first.is_none());
                count(&mut self.input_just_below, lowest.checked_sub(1).is_some_and(|input| inputs.contains(&input)));
                count(&mut self.all_places, first.is_some() && lowest + outputs.len() as u64 == list.v);
            }
            (6, _) => count(&mut self.taken_and_twice, outputs.iter().any(|output| *output < lowest)),
            (21, None) => self.input_without_outputs += 1,
            (21, Some(first)) if ascend => {
                count(&mut self.input_at_the_first_output, inputs.contains(first));
                count(&mut self.input_is_a_later_output, outputs[1..].iter().any(|output| inputs.contains(output)));
            }
            (21, Some(first)) => {
                count(&mut self.outputs_above, *first > lowest);
                count(&mut self.outputs_again, *first < lowest);
                count(&mut self.outputs_descend, outputs.windows(2).any(|pair| pair[1] < pair[0]));
                count(&mut self.outputs_with_a_gap, *first == lowest && outputs.windows(2).any(|pair| pair[1] > pair[0] + 1));
            }
            _ => {}
        }
    }

    /// Refuses to have compared little: each of these must have been met.
    pub fn look_for_missing(&self) -> Result<(), String> {
        let refused = [4, 5, 6, 7, 9, 10, 18, 21].map(|code| (format!("a refusal with {code}"), self.refused[code]));
        let met = [
            ("an add in a lane", self.in_lanes),
            ("several outputs", self.several_outputs),
            ("no outputs", self.no_outputs),
            ("an input just below the lowest place", self.input_just_below),
            ("a list that takes all places", self.all_places),
            ("a flush", self.flushes),
            ("a set above the lowest place", self.set_above),
            ("a set of a place that is taken", self.set_again),
            ("outputs above the lowest place", self.outputs_above),
            ("outputs that are taken", self.outputs_again),
            ("outputs that descend", self.outputs_descend),
            ("outputs with a gap", self.outputs_with_a_gap),
            ("a taken output among some that repeat", self.taken_and_twice),
            ("an input that is the first output", self.input_at_the_first_output),
            ("an input that is a later output", self.input_is_a_later_output),
            ("an input at or above the lowest place, without outputs", self.input_without_outputs),
        ];
        let met = met.map(|(what, count)| (what.to_owned(), count));
        match refused.iter().chain(&met).find(|(_, count)| *count == 0) {
            None => Ok(()),
            Some((what, _)) => Err(format!("the lists are too few: {what} is not met")),
        }
    }

    pub fn text(&self) -> String {
        let refused = self.refused.iter().enumerate().filter(|(_, count)| **count > 0);
        let refused: Vec<String> = refused.map(|(code, count)| format!("{count} with {code}")).collect();
        let told = match (self.told, self.ends_told) {
            (0, _) => String::new(),
            (told, 0) => format!(", {told} with their numbers told"),
            (told, ends) => format!(", {told} with their numbers told, {ends} with what is left"),
        };
        let refused = if refused.is_empty() { "none".to_owned() } else { refused.join(", ") };
        format!(
            "{} lists{told}, {} calls, {} beginnings: answers and slices as the model's, and as replay_calls leaves them; \
             {} entries; refused, all slices equal: {refused}",
            self.lists, self.calls, self.beginnings, self.entries
        )
    }
}
