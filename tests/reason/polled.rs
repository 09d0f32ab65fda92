//! All registrations of lists of calls, and one past them, by `replay_reason` after every beginning: beside the model,
//! and with the storage and the answers of `replay_calls`. Then what a reason says of later calls, by the storage alone:
//! the registration waits while the place is untracked; it stays so where it is promised, and else a set of it is accepted.

use crate::buffers::{encode, Buffers};
use crate::generate::Numbers;
use crate::layout::{SET, UNTRACKED};
use crate::lists::{self, call_model, List};
use crate::model::{Reason, Session};
use crate::text::run_text;
use crate::{made, sys, Call};
use std::cell::Cell;
use std::rc::Rc;

pub fn check(seed: u64, count: u64) -> Result<String, String> {
    let (mut both, mut met) = (Both::new(), Met::default());
    for i in 0..count {
        let list = made::list(seed, i);
        let Err(message) = both.poll(&list, &mut made::seeded(seed, i), &mut met) else {
            continue;
        };
        let differs = |list: &List| both.poll(list, &mut made::seeded(seed, i), &mut Met::default()).err();
        let (list, message) = lists::shrink(&list, differs).unwrap_or((list, message));
        return Err(format!("{message}\nthe smallest list found:\n{}", run_text(&list, false)));
    }
    met.look_for_missing()?;
    Ok(met.text())
}

/// Storage for lists that are refused as a whole. That no reason is given is no refusal of the list.
pub fn opening() -> Buffers {
    Buffers::by(|slices, answers, calls, p, v| match sys::reason(slices, answers, calls, p, v, 0) {
        19 | 20 => 0,
        returned => returned,
    })
}

/// The storage of lists after which a registration is asked for.
pub struct Asking {
    pub storage: Buffers,
    registration: Rc<Cell<u64>>,
}

impl Asking {
    pub fn new() -> Self {
        let registration = Rc::new(Cell::new(0));
        let asked = registration.clone();
        let storage = Buffers::by(move |slices, answers, calls, p, v| sys::reason(slices, answers, calls, p, v, asked.get()));
        Self { storage, registration }
    }

    /// From now on this registration is asked for.
    pub fn set(&self, registration: u64) {
        self.registration.set(registration);
    }

    /// Makes the calls of a list, encoded, and gives what is returned of a registration.
    pub fn ask(&mut self, list: &List, numbers: &[u64], registration: u64) -> u64 {
        self.set(registration);
        self.storage.replay(&list.lent(list.calls.len(), true), numbers);
        match self.storage.returned {
            Ok(told) => 64 * told as u64,
            Err(code) => code,
        }
    }

    fn mark(&self, place: u64) -> u16 {
        self.storage.marks.needed()[place as usize]
    }
}

struct Both {
    by_calls: Buffers,
    asking: Asking,
}

impl Both {
    fn new() -> Self {
        Self { by_calls: Buffers::new(), asking: Asking::new() }
    }

    fn poll(&mut self, list: &List, numbers: &mut Numbers, met: &mut Met) -> Result<(), String> {
        let opened = list.open_model();
        let mut session = opened.map_err(|code| format!("the model refuses the opening with {code}"))?;
        for made in 0..=list.calls.len() {
            if let Some(last) = made.checked_sub(1) {
                call_model(&mut session, &list.calls[last]);
            }
            let beginning = List { calls: list.calls[..made].to_vec(), w: Some(list.pool() as u64), ..*list };
            let at = |message| format!("after {made} calls: {message}");
            let waiting = self.beginning(&beginning, &session, met).map_err(at)?;
            self.later(&beginning, &waiting, numbers, met).map_err(at)?;
        }
        met.lists += 1;
        Ok(())
    }

    /// Asks for every registration and for some past them. Gives those that wait, by their reasons.
    fn beginning(&mut self, list: &List, session: &Session, met: &mut Met) -> Result<Vec<(u64, Reason)>, String> {
        let (numbers, _) = encode(&list.calls);
        self.by_calls.replay(&list.lent(list.calls.len(), true), &numbers);
        let count = session.used().registrations;
        let mut waiting = Vec::new();
        for r in (0..=count).chain([list.v.max(count), 1 << 32, u64::MAX]) {
            let wanted = session.reason(r);
            let found = self.asking.ask(list, &numbers, r);
            if found != wanted.map_or_else(|code| code, |reason| reason.returned()) {
                return Err(format!("registration {r} of {count}: {found} is returned, not {wanted:?}"));
            }
            let same = self.asking.storage.check_same_written(&self.by_calls);
            same.map_err(|message| format!("registration {r}: not as replay_calls leaves it: {message}"))?;
            met.asked += 1;
            match wanted {
                Ok(reason) => waiting.push((r, reason)),
                Err(19) => met.never += 1,
                Err(_) => met.not_waiting += 1,
            }
        }
        met.beginnings += 1;
        Ok(waiting)
    }

    /// What the reasons say of later calls; their place is the same.
    fn later(&mut self, list: &List, waiting: &[(u64, Reason)], numbers: &mut Numbers, met: &mut Met) -> Result<(), String> {
        let Some(&(_, Reason { place, .. })) = waiting.first() else {
            return Ok(());
        };
        let answers = self.by_calls.answers.needed();
        let accepted: Vec<&Call> = list.calls.iter().zip(answers).filter(|(_, code)| **code == 0).map(|(call, _)| call).collect();
        let writes = |call: &&Call| call.lists().is_some_and(|(_, outputs)| outputs.contains(&place));
        let promised = accepted.iter().any(writes);
        met.take(&accepted, waiting, &self.by_calls, promised);
        if !promised {
            self.set(list, place)?;
        }
        let longer = made::longer(list, place, numbers);
        let (encoded, _) = encode(&longer.calls);
        for &(r, reason) in waiting {
            let found = self.asking.ask(&longer, &encoded, r);
            let after = |message| Err(format!("{message} after\n{}", run_text(&longer, false)));
            match (self.asking.mark(place) == UNTRACKED, found % 64) {
                (true, 0) if found == reason.returned() => met.untracked += 1,
                (true, _) => return after(format!("{r}: {reason:?}, and {found}, {place} being untracked,")),
                (false, _) if promised => return after(format!("{place} was promised, and is tracked")),
                (false, 0) => met.waits_on += 1,
                (false, _) => met.came_off += 1,
            }
        }
        Ok(())
    }

    /// A place that nobody has promised can be set.
    fn set(&mut self, list: &List, place: u64) -> Result<(), String> {
        let mut calls = list.calls.clone();
        calls.push(Call::Set(place));
        let longer = List { calls, ..*list };
        self.asking.ask(&longer, &encode(&longer.calls).0, 0);
        let answer = self.asking.storage.answers.needed().last();
        match answer == Some(&0) && self.asking.mark(place) == SET {
            true => Ok(()),
            false => Err(format!("{place} is not promised, and a set of it is answered with {answer:?}")),
        }
    }
}

/// What the lists met.
#[derive(Default)]
struct Met {
    lists: u64,
    beginnings: u64,
    asked: u64,
    never: u64,
    not_waiting: u64,
    reasons: u64,
    /// Reasons after a later list: the place is untracked and the registration waits; the place is tracked, and the
    /// registration waits for another, or has come off.
    untracked: u64,
    waits_on: u64,
    came_off: u64,
    /// Reasons by which wrong ones are told apart.
    promised: u64,
    not_promised: u64,
    all_tracked: u64,
    input_tracked: u64,
    not_the_first: u64,
    not_an_input: u64,
    at_the_mark: u64,
    own_output: u64,
}

impl Met {
    fn take(&mut self, accepted: &[&Call], waiting: &[(u64, Reason)], storage: &Buffers, promised: bool) {
        let adds: Vec<_> = accepted.iter().filter_map(|call| call.lists()).collect();
        let tracked = |place: &u64| storage.marks.needed()[*place as usize] != UNTRACKED;
        for &(r, Reason { input, place }) in waiting {
            let (inputs, outputs) = adds[r as usize];
            self.reasons += 1;
            self.promised += u64::from(promised);
            self.not_promised += u64::from(!promised);
            self.all_tracked += u64::from(inputs.iter().all(tracked));
            self.input_tracked += u64::from(tracked(&input));
            self.not_the_first += u64::from(inputs[0] != input);
            self.not_an_input += u64::from(!inputs.contains(&place));
            self.at_the_mark += u64::from(input == place);
            self.own_output += u64::from(outputs.contains(&place));
        }
    }

    /// Refuses to have compared little: each of these must have been met.
    fn look_for_missing(&self) -> Result<(), String> {
        let met = [
            ("a number that was never accepted", self.never),
            ("a registration that does not wait", self.not_waiting),
            ("a place that stays untracked", self.untracked),
            ("a place that is tracked while the registration waits on", self.waits_on),
            ("a registration that comes off", self.came_off),
            ("a promised place", self.promised),
            ("a place that is not promised", self.not_promised),
            ("all inputs tracked", self.all_tracked),
            ("the greatest input tracked", self.input_tracked),
            ("the greatest input not the first", self.not_the_first),
            ("the place no input", self.not_an_input),
            ("the greatest input at the mark", self.at_the_mark),
            ("the registration's own output", self.own_output),
        ];
        match met.iter().find(|(_, count)| *count == 0) {
            None => Ok(()),
            Some((what, _)) => Err(format!("the lists are too few: {what} is not met")),
        }
    }

    fn text(&self) -> String {
        format!(
            "{} lists, {} beginnings: {} answers as the model's, {} with a reason, {} with 20, {} with 19; \
             storage and answers as by replay_calls\nreason: the place promised in {}, not in {}; all inputs \
             tracked in {}, the greatest in {}; after later calls the place is untracked and the registration \
             waits {} times; else it waits on {} times and comes off {} times",
            self.lists,
            self.beginnings,
            self.asked,
            self.reasons,
            self.not_waiting,
            self.never,
            self.promised,
            self.not_promised,
            self.all_tracked,
            self.input_tracked,
            self.untracked,
            self.waits_on,
            self.came_off
        )
    }
}
