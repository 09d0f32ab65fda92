//! How many entries the window's 32 spans hold, by `replay_held`, after every beginning of lists of
//! calls: the sum of the lengths of the reference model's spans. Storage and answers must be those that
//! `replay_calls` leaves, and a refused call, of which there are many in the lists, must leave the count.

use crate::buffers::{encode, Buffers};
use crate::generate::Numbers;
use crate::layout::SPANS;
use crate::lists::{self, call_model, List};
use crate::model::Session;
use crate::shapes::{self, Making};
use crate::state::count_waiting;
use crate::sys::Count;
use crate::text::run_text;
use crate::Call;
use crate::{openings, refused_text};

/// So many calls of a shape are taken: each beginning is replayed from the start, twice.
const MOST_CALLS: usize = 120;
/// The places, and the most registrations, of the lists that are made here.
const PLACES: u64 = 150;
/// Their parallelisms.
const PARALLELISMS: [u64; 3] = [1, 2, 5];

pub fn check(seed: u64, count: u64) -> Result<String, String> {
    let refused = openings::check(&mut Buffers::counting(Count::Held), &openings::SHORT)?;
    let (mut both, mut met) = (Both::new(), Met::default());
    for i in 0..count {
        let list = made(seed, i);
        let Err(message) = both.poll(&list, &mut met) else {
            continue;
        };
        let differs = |list: &List| both.poll(list, &mut Met::default()).err();
        let (list, message) = lists::shrink(&list, differs).unwrap_or((list, message));
        let text = run_text(&list, false);
        return Err(format!("{message}\nthe smallest list found:\n{text}"));
    }
    met.look_for_missing()?;
    Ok(format!("{refused}\n{}", met.text()))
}

/// The storage of one list by each of the two calls.
struct Both {
    by_calls: Buffers,
    by_held: Buffers,
}

impl Both {
    fn new() -> Self {
        Self {
            by_calls: Buffers::new(),
            by_held: Buffers::counting(Count::Held),
        }
    }

    /// Polls a list after every beginning.
    fn poll(&mut self, list: &List, met: &mut Met) -> Result<(), String> {
        let mut session = list
            .open_model()
            .map_err(|code| format!("the model refuses the opening with {code}"))?;
        let (numbers, ends) = encode(&list.calls);
        let mut before = self.beginning(list, 0, &[], &session)?;
        for (i, call) in list.calls.iter().enumerate() {
            let seen = Seen::of(&session);
            let code = call_model(&mut session, call);
            let at = |message| format!("after {} calls: {message}", i + 1);
            let held = self.beginning(list, i + 1, &numbers[..ends[i]], &session);
            let held = held.map_err(at)?;
            let answer = self.by_held.answers.needed()[i];
            if answer != code {
                return Err(at(format!(
                    "the last call's number is {answer}, not {code}"
                )));
            }
            if code != 0 && held != before {
                return Err(at(format!("a refused call made {held} of {before} held")));
            }
            if code == 0 && matches!(call, Call::Flush | Call::Final) && held != 0 {
                return Err(at(format!("{held} are held though all was released")));
            }
            met.take(list.p, call, code, &seen, &session);
            before = held;
        }
        met.lists += 1;
        Ok(())
    }

    /// One beginning by both calls: what `replay_held` answers, if it is what the model says.
    fn beginning(
        &mut self,
        list: &List,
        calls: usize,
        numbers: &[u64],
        session: &Session,
    ) -> Result<usize, String> {
        let storage = list.lent(calls, true);
        self.by_calls.replay(&storage, numbers);
        self.by_held.replay(&storage, numbers);
        let written = accepted(&self.by_calls)?;
        let held = accepted(&self.by_held)?;
        let wanted = lists::held(session);
        if held != wanted {
            return Err(format!("{held} are held, not {wanted}"));
        }
        if held > SPANS * (list.p as usize + 1) {
            return Err(format!("{held} are held by {SPANS} spans"));
        }
        self.by_held
            .check_same_written(&self.by_calls)
            .map_err(|message| format!("not as replay_calls leaves it: {message}"))?;
        self.check_sum(&list.calls[..calls], written, held)?;
        Ok(held)
    }

    /// Each accepted add is in the order, in the window, or waits: by what `replay_calls` stores.
    fn check_sum(&self, calls: &[Call], written: usize, held: usize) -> Result<(), String> {
        let answers = calls.iter().zip(self.by_calls.answers.needed());
        let adds = answers.filter(|(call, code)| call.lists().is_some() && **code == 0);
        let (adds, waiting) = (adds.count(), count_waiting(&self.by_calls)?);
        match adds == written + held + waiting {
            true => Ok(()),
            false => Err(format!(
                "{adds} adds are accepted, but {written} written, {held} held and {waiting} waiting"
            )),
        }
    }
}

/// What is returned, unless that is a refusal.
fn accepted(buffers: &Buffers) -> Result<usize, String> {
    buffers
        .returned
        .map_err(|code| format!("the replay is refused with {code}"))
}

// ---- What the lists met

/// What the model shows before a call.
struct Seen {
    first: u64,
    placed: u64,
    held: usize,
}

impl Seen {
    fn of(session: &Session) -> Self {
        Self {
            first: session.window.first,
            placed: lists::placed(session),
            held: lists::held(session),
        }
    }
}

#[derive(Default)]
struct Met {
    lists: u64,
    calls: u64,
    most_held: usize,
    /// Entries that came into the order when a span was full, for each of the parallelisms.
    released: [usize; PARALLELISMS.len()],
    /// Calls that opened one span, or two, and those of them that released entries.
    opened: [u64; 2],
    opened_released: u64,
    /// The most that one call placed.
    most_placed: u64,
    /// Calls of flush and of final that released entries.
    flushed: u64,
    finals: u64,
    /// Refused calls by number, and those while some were held.
    refused: [u64; 19],
    refused_held: u64,
}

impl Met {
    fn take(&mut self, p: u64, call: &Call, code: u64, seen: &Seen, session: &Session) {
        let held = lists::held(session);
        self.calls += 1;
        self.most_held = self.most_held.max(held);
        if code != 0 {
            self.refused[code as usize] += 1;
            self.refused_held += u64::from(held > 0);
            return;
        }
        match call {
            Call::Flush => self.flushed += u64::from(seen.held > 0),
            Call::Final => self.finals += u64::from(seen.held > 0),
            _ => self.take_placing(p, seen, session),
        }
    }

    fn take_placing(&mut self, p: u64, seen: &Seen, session: &Session) {
        let placed = lists::placed(session) - seen.placed;
        let released = seen.held + placed as usize - lists::held(session);
        self.most_placed = self.most_placed.max(placed);
        // After a release for a full span the last one is empty.
        let opened = !session.window.spans[SPANS - 1].is_empty();
        match session.window.first - seen.first {
            moved @ 1..=2 if opened && placed == 1 => {
                self.opened[moved as usize - 1] += 1;
                self.opened_released += u64::from(released > 0);
            }
            _ => {
                if let Some(at) = PARALLELISMS.iter().position(|chosen| *chosen == p) {
                    self.released[at] += released;
                }
            }
        }
    }

    /// Refuses to have compared little: each of these must have been met.
    fn look_for_missing(&self) -> Result<(), String> {
        let numbers = [4, 5, 6, 7, 8, 9, 10, 12, 18].map(|code| self.refused[code] > 0);
        let met = [
            ("releases with P = 1, 2 and 5", !self.released.contains(&0)),
            ("one span opened, and two", !self.opened.contains(&0)),
            ("entries released by opening", self.opened_released > 0),
            ("fifty placed by one call", self.most_placed >= 50),
            ("a flush of entries", self.flushed > 0),
            ("a final with entries", self.finals > 0),
            ("a call of each refusal", !numbers.contains(&false)),
            ("a refused call while some are held", self.refused_held > 0),
        ];
        match met.iter().find(|(_, met)| !met) {
            None => Ok(()),
            Some((what, _)) => Err(format!("the lists are too few: {what} not met")),
        }
    }

    fn text(&self) -> String {
        let [one, two] = self.opened;
        format!(
            "  {} lists, {} beginnings: the model's sum is held after each, up to {}; storage and answers as by replay_calls\n  \
             released with P = 1, 2, 5: {:?}; opened: one span {one} times, two {two} times; one call placed up to {}; \
             {} flushes and {} finals of entries\n  refused calls: {}; {} of them while some were held",
            self.lists,
            self.lists + self.calls,
            self.most_held,
            self.released,
            self.most_placed,
            self.flushed,
            self.finals,
            refused_text(&self.refused),
            self.refused_held
        )
    }
}

// ---- The lists

/// List i of a seed, with refused calls in it and calls after its end.
fn made(seed: u64, i: u64) -> List {
    let mut numbers = shapes::seeded(seed, i);
    let mut list = match i % 4 {
        0 => chain(&mut numbers),
        1 => refilled(&mut numbers),
        2 => come_off(&mut numbers),
        _ => shapes::made(i / 4, &mut numbers),
    };
    list.calls.truncate(MOST_CALLS);
    if numbers.chance(20) {
        list.w = Some(numbers.below(1 + list.pool() as u64));
    }
    with_refused(list, &mut numbers)
}

fn opened(numbers: &mut Numbers) -> Making {
    Making::new(numbers.choice(&PARALLELISMS), PLACES)
}

/// Each reads what the one before has written, or now and then one of the few before that, over more
/// spans than the window has.
fn chain(numbers: &mut Numbers) -> List {
    let mut making = opened(numbers);
    let (near, percent) = (2 + numbers.below(3), numbers.choice(&[0, 10, 50]));
    making.call(Call::Set(0));
    for place in 1..PLACES {
        let back = if numbers.chance(percent) {
            numbers.below(near.min(place))
        } else {
            0
        };
        making.add(&[place - 1 - back], &[place]);
        making.flush_sometimes(numbers, 1);
    }
    making.end()
}

/// Spans fill again and again: some that read nothing, and some that read what was written just before.
/// Those after V adds are refused.
fn refilled(numbers: &mut Numbers) -> List {
    let (p, v) = (numbers.choice(&PARALLELISMS), 20 + numbers.below(PLACES));
    let near = 1 + numbers.below(4);
    let mut calls = Vec::new();
    for i in 0..PLACES {
        let read = i.min(v).checked_sub(1 + numbers.below(near));
        let written = (i < v).then_some(i);
        calls.push(Call::Add(Vec::from_iter(read), Vec::from_iter(written)));
        if numbers.chance(2) {
            calls.push(Call::Flush);
        }
    }
    let w = None;
    List { p, v, w, calls }
}

/// Many wait under one place, or under few, until one call gives it and all come off.
fn come_off(numbers: &mut Numbers) -> List {
    let mut making = opened(numbers);
    let (gaps, many) = (1 + numbers.below(3), 60 + numbers.below(40));
    for place in 1..gaps {
        making.provide(numbers, place);
    }
    for i in 0..many {
        making.add(&[numbers.below(gaps)], &[gaps + i]);
    }
    making.provide(numbers, 0);
    making.end()
}

/// Puts calls in that are refused, and after the end some that a closed session refuses and an open one
/// may take.
fn with_refused(list: List, numbers: &mut Numbers) -> List {
    let Ok(mut session) = list.open_model() else {
        crate::fail("the opening of a list is refused")
    };
    let often = numbers.choice(&[0, 10, 30]);
    let mut calls = Vec::new();
    for call in list.calls {
        if numbers.chance(often) {
            calls.push(refused(&session, list.v, numbers));
        }
        let call = labelled(call, numbers);
        call_model(&mut session, &call);
        calls.push(call);
    }
    let add = Call::Add(vec![], vec![]);
    calls.extend([Call::Final, Call::Flush, add, Call::Set(0), Call::Final]);
    List { calls, ..list }
}

/// Half of the adds get a lane.
fn labelled(call: Call, numbers: &mut Numbers) -> Call {
    match call {
        Call::Add(inputs, outputs) if numbers.chance(50) => {
            Call::AddInLane(numbers.lane(), inputs, outputs)
        }
        call => call,
    }
}

/// A call that is refused now: for a flagged place, one past the last, one that is taken, one twice, a lane over 255,
/// or because some wait.
fn refused(session: &Session, v: u64, numbers: &mut Numbers) -> Call {
    match numbers.below(6) {
        0 => Call::Set(1 << 62),
        1 => Call::Add(vec![], vec![v]),
        2 if session.leading > 0 => Call::Set(numbers.below(session.leading)),
        3 if !session.waiting.is_empty() => Call::Final,
        4 => Call::AddInLane(numbers.wide_lane(), vec![], vec![]),
        _ => Call::Add(vec![], vec![0, 0]),
    }
}
