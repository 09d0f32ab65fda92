//! One list of calls, replayed whole and by its beginnings: after each beginning the storage must say
//! what the reference model says, and a refused call must leave all storage equal, byte for byte. What
//! another program (the oracle) said of the list is compared too.

use crate::buffers::{encode, Buffers, Lent, Short};
use crate::model;
use crate::state::State;
use crate::sys::Count;
use crate::{lane_of, list_numbers, Call};

/// Lists up to this length are replayed by all their beginnings.
const ALL_BEGINNINGS: usize = 100;
/// Of a longer list, so many refused calls are looked at.
const REFUSED_LOOKED_AT: usize = 8;
/// Above this parallelism the spans are so long that only one refused call is looked at.
const LARGE: u64 = 5_000;

#[derive(Clone)]
pub struct List {
    pub p: u64,
    pub v: u64,
    /// The pool's length; where there is none, the list's own numbers just fit.
    pub w: Option<u64>,
    pub calls: Vec<Call>,
}

impl List {
    pub fn pool(&self) -> usize {
        match self.w {
            Some(w) => w as usize,
            None => self.calls.iter().map(list_numbers).sum(),
        }
    }

    /// The same list with every lane 0; nothing, where a lane is over 255 or all are 0 already.
    fn unlabelled(&self) -> Option<Self> {
        let greatest = self.calls.iter().map(lane_of).max()?;
        let plain = |call: &Call| match call {
            Call::AddInLane(_, inputs, outputs) => Call::Add(inputs.clone(), outputs.clone()),
            call => call.clone(),
        };
        let accepted = (1..=model::MOST_LANE).contains(&greatest);
        accepted.then(|| Self {
            calls: self.calls.iter().map(plain).collect(),
            ..*self
        })
    }

    pub fn open_model(&self) -> Result<model::Session, u64> {
        let lent = model::Lent::for_session(self.p, self.v, self.pool() as u64);
        model::Session::open(self.p, self.v, &lent)
    }

    pub fn lent(&self, calls: usize, whole: bool) -> Lent {
        Lent {
            p: self.p,
            v: self.v,
            w: self.pool(),
            calls,
            slack: self.calls.len() % 4,
            short: Short::Nothing,
            whole,
        }
    }
}

/// What another program said of a list.
#[derive(Default)]
pub struct Told {
    /// The number with which the opening was refused.
    pub opening: Option<u64>,
    /// The number of each call.
    pub codes: Option<Vec<u64>>,
    /// How things stood after some calls.
    pub steps: Vec<Step>,
    /// How things stood at the end.
    pub end: Option<State>,
}

/// How things stood after the call with this index.
pub struct Step {
    pub call: usize,
    pub code: u64,
    pub order_length: u64,
    pub leading: u64,
    pub lengths: Vec<u64>,
}

/// What was compared.
#[derive(Default)]
pub struct Counts {
    pub lists: u64,
    /// The lists whose answers another program gave.
    pub told: u64,
    /// Beginnings of which another program told what is held, and `replay_held` said the same; those of
    /// them with entries held.
    pub polled: u64,
    pub polled_held: u64,
    pub calls: u64,
    pub replays: u64,
    /// Entries of the orders at the end.
    pub entries: u64,
    /// Registrations that waited.
    pub waited: u64,
    /// The most that one call placed.
    pub most_placed: u64,
    /// Lists in which a span had more than P entries.
    pub overfull: u64,
    pub flushes: u64,
    /// Entries of the orders at the end with a lane that is not 0.
    pub in_lanes: u64,
    /// Lists whose storage is that of the list with every lane 0, but for the lanes.
    pub lanes_struck: u64,
    /// Refused calls by number, and how many of all were compared byte for byte.
    pub refused: [u64; 19],
    pub refused_compared: u64,
    /// Lists whose opening is refused.
    pub not_opened: u64,
}

/// Makes a call on the model and gives its number.
pub fn call_model(session: &mut model::Session, call: &Call) -> u64 {
    match call {
        Call::Set(place) => session.set(*place),
        Call::Add(inputs, outputs) => session.add(0, inputs, outputs),
        Call::AddInLane(lane, inputs, outputs) => session.add(*lane, inputs, outputs),
        Call::Flush => session.flush(),
        Call::Final => session.final_flush().err().unwrap_or(0),
    }
}

/// How many entries the model's window holds: the sum of its spans' lengths.
pub fn held(session: &model::Session) -> usize {
    session.window.spans.iter().map(Vec::len).sum()
}

/// How many registrations the model has placed.
pub fn placed(session: &model::Session) -> u64 {
    (session.window.order.len() + held(session)) as u64
}

/// The storage of two replays, one after the other, and of a poll.
pub struct Pair {
    now: Buffers,
    before: Buffers,
    polled: Buffers,
}

impl Pair {
    pub fn new() -> Self {
        Self {
            now: Buffers::new(),
            before: Buffers::new(),
            polled: Buffers::counting(Count::Held),
        }
    }
}

/// Replays a list and compares it with the model and with what was told.
pub fn check(
    list: &List,
    told: Option<&Told>,
    pair: &mut Pair,
    counts: &mut Counts,
) -> Result<(), String> {
    counts.lists += 1;
    counts.told += u64::from(told.is_some());
    if let Err(code) = list.open_model() {
        counts.not_opened += 1;
        return check_not_opened(list, code, told, pair);
    }
    counts.calls += list.calls.len() as u64;
    let codes = count_model(list, counts);
    let (numbers, ends) = encode(&list.calls);
    let chosen = beginnings(list, &codes);
    let mut session = list.open_model().map_err(|_| "the opening is refused")?;
    let mut made = 0;
    let mut whole_before = None;
    for (i, &(length, whole)) in chosen.iter().enumerate() {
        for call in &list.calls[made..length] {
            call_model(&mut session, call);
        }
        made = length;
        std::mem::swap(&mut pair.now, &mut pair.before);
        let end = length.checked_sub(1).map_or(0, |last| ends[last]);
        pair.now.replay(&list.lent(length, whole), &numbers[..end]);
        counts.replays += 1;
        let at = |message| format!("after {length} calls: {message}");
        let (calls, codes) = (&list.calls[..length], &codes[..length]);
        let state = State::of_model(&session);
        state.compare(&pair.now, list.p, calls, codes).map_err(at)?;
        if length > 0 && codes[length - 1] != 0 && whole && whole_before == Some(length - 1) {
            let at = |message| format!("call {} is refused, but {message}", length - 1);
            pair.now.check_same(&pair.before).map_err(at)?;
            counts.refused_compared += 1;
        }
        whole_before = whole.then_some(length);
        if let Some(told) = told {
            let at = |message| format!("after {length} calls, told otherwise: {message}");
            compare_step(told, length, &state, codes).map_err(at)?;
            if i + 1 == chosen.len() {
                compare_told(told, list, &pair.now).map_err(at)?;
            }
            if let Some(held) = told_held(told, length, list) {
                let lent = list.lent(length, false);
                pair.polled.replay(&lent, &numbers[..end]);
                compare_held(&pair.polled, held).map_err(at)?;
                counts.polled += 1;
                counts.polled_held += u64::from(held > 0);
            }
        }
    }
    // The last replay was of the whole list, and its storage is there still.
    if whole_before == Some(list.calls.len()) {
        check_unlabelled(list, pair, counts)?;
    }
    Ok(())
}

/// Lanes influence nothing: the list with every lane 0 leaves what this one has left, but for the lanes.
fn check_unlabelled(list: &List, pair: &mut Pair, counts: &mut Counts) -> Result<(), String> {
    let Some(plain) = list.unlabelled() else {
        return Ok(());
    };
    let lent = plain.lent(plain.calls.len(), true);
    pair.before.replay(&lent, &encode(&plain.calls).0);
    let at =
        |message| format!("with every lane 0 it is otherwise, and not in the lanes: {message}");
    pair.now
        .check_same_but_lanes(&mut pair.before)
        .map_err(at)?;
    counts.lanes_struck += 1;
    Ok(())
}

/// The numbers of all calls by the model, and what it shows of the list.
fn count_model(list: &List, counts: &mut Counts) -> Vec<u64> {
    let Ok(mut session) = list.open_model() else {
        return Vec::new();
    };
    let mut codes = Vec::new();
    let (mut overfull, mut before, mut flushes) = (false, 0, 0);
    for call in &list.calls {
        let code = call_model(&mut session, call);
        codes.push(code);
        if code != 0 {
            counts.refused[code as usize] += 1;
            continue;
        }
        flushes += u64::from(*call == Call::Flush);
        let after = placed(&session);
        counts.most_placed = counts.most_placed.max(after - before);
        before = after;
        let longest = session.window.spans.iter().map(Vec::len).max();
        overfull |= longest.unwrap_or(0) as u64 > list.p;
    }
    counts.flushes += flushes;
    counts.overfull += u64::from(overfull);
    counts.entries += session.window.order.len() as u64;
    let order = session.window.order.iter();
    counts.in_lanes += order.filter(|entry| entry.lane != 0).count() as u64;
    let held = session.window.spans.iter().flatten();
    let all = session.window.order.iter().chain(held);
    // One that is placed within its own add has as many ended adds before it as its number.
    counts.waited += all.filter(|entry| entry.accepted != entry.added).count() as u64;
    counts.waited += session
        .waiting
        .values()
        .map(|under| under.len() as u64)
        .sum::<u64>();
    codes
}

/// The beginnings that are replayed, by their lengths, and whether the spans are prepared whole.
fn beginnings(list: &List, codes: &[u64]) -> Vec<(usize, bool)> {
    let calls = list.calls.len();
    let large = list.p > LARGE;
    if calls <= ALL_BEGINNINGS && !large {
        return (0..=calls).map(|length| (length, true)).collect();
    }
    let looked_at = if large { 1 } else { REFUSED_LOOKED_AT };
    let refused = (0..calls).filter(|call| codes[*call] != 0);
    let mut chosen: Vec<(usize, bool)> = refused
        .take(looked_at)
        .flat_map(|call| [(call, true), (call + 1, true)])
        .collect();
    if chosen.last() != Some(&(calls, true)) {
        chosen.push((calls, !large));
    }
    chosen.dedup();
    chosen
}

/// A list whose opening is refused for its P or V: the number is returned and nothing is written.
fn check_not_opened(
    list: &List,
    code: u64,
    told: Option<&Told>,
    pair: &mut Pair,
) -> Result<(), String> {
    let (numbers, _) = encode(&list.calls);
    let lent = Lent {
        p: list.p.clamp(1, 64),
        v: list.v.clamp(1, 64),
        ..list.lent(list.calls.len(), true)
    };
    pair.now.prepare(&lent);
    pair.now.call(&numbers, list.p, list.v);
    if pair.now.returned != Err(code) {
        return Err(format!("{:?} is returned, not {code}", pair.now.returned));
    }
    if told.is_some_and(|told| told.opening != Some(code)) {
        return Err("told otherwise".to_owned());
    }
    pair.now.check_nothing_written()
}

fn compare_step(told: &Told, length: usize, state: &State, codes: &[u64]) -> Result<(), String> {
    let Some(step) = told.steps.iter().find(|step| step.call + 1 == length) else {
        return Ok(());
    };
    let mut lengths = step.lengths.clone();
    lengths.resize(state.lengths.len(), 0);
    let same = step.code == codes[step.call]
        && step.order_length == state.order.len() as u64
        && step.leading == state.leading
        && lengths == state.lengths;
    match same {
        true => Ok(()),
        false => Err("number, order's length, mark or window".to_owned()),
    }
}

fn compare_told(told: &Told, list: &List, buffers: &Buffers) -> Result<(), String> {
    let accepted = vec![0; list.calls.len()];
    let codes = told.codes.as_ref().unwrap_or(&accepted);
    if told.opening.is_some() || !buffers.answers.needed().eq(&codes[..]) {
        return Err("the numbers of the calls".to_owned());
    }
    match &told.end {
        Some(end) => end.compare(buffers, list.p, &list.calls, codes),
        None => Ok(()),
    }
}

/// How many entries were told to be held after so many calls: by the window then, or at the end one by one.
fn told_held(told: &Told, length: usize, list: &List) -> Option<u64> {
    let step = told.steps.iter().find(|step| step.call + 1 == length);
    let end = told.end.as_ref().filter(|_| length == list.calls.len());
    let by_window = step.map(|step| step.lengths.iter().sum());
    by_window.or(end.map(|end| end.held.len() as u64))
}

fn compare_held(polled: &Buffers, wanted: u64) -> Result<(), String> {
    match polled.returned {
        Ok(held) if held as u64 == wanted => Ok(()),
        other => Err(format!("{other:?} are held, not {wanted}")),
    }
}

/// A list that still differs from the model, with as few calls as leaving out single ones gives.
pub fn shrink(
    list: &List,
    mut differs: impl FnMut(&List) -> Option<String>,
) -> Option<(List, String)> {
    let mut message = differs(list)?;
    let mut smallest = list.clone();
    let mut i = 0;
    while i < smallest.calls.len() {
        let mut fewer = smallest.clone();
        fewer.calls.remove(i);
        match differs(&fewer) {
            Some(other) => (smallest, message, i) = (fewer, other, 0),
            None => i += 1,
        }
    }
    Some((smallest, message))
}
