//! The reference model behind the interface of `replay_calls` and `replay_held`, as a library to link the
//! tests with instead of the proved one: so the tests can be tested. With the name of a fault in the
//! environment variable STAND_IN_FAULT it does one thing wrong, which the tests must notice; with `poll-`
//! before the name, `replay_held` alone does it.

#[path = "../../hosts/rust/src/layout.rs"]
#[allow(dead_code)]
mod layout;
#[path = "../reference/model.rs"]
#[allow(dead_code)]
mod model;

use layout::{Needed, ENTRY, ROW, SPANS};
use model::{Lent, Session};
use std::sync::atomic::{AtomicBool, Ordering::Relaxed};
use std::sync::OnceLock;

enum Call<'a> {
    Set(u64),
    Add(Registration<'a>),
    Flush,
    Final,
}

#[derive(Clone, Copy)]
struct Registration<'a> {
    lane: u64,
    inputs: &'a [u64],
    outputs: &'a [u64],
}

struct Slices<'a> {
    spans: &'a mut [u32],
    order: &'a mut [u32],
    tally: &'a mut [u32],
    rows: &'a mut [u32],
    marks: &'a mut [u16],
    locations: &'a mut [u64],
    waiting: &'a mut [u64],
    pool: &'a mut [u32],
    answers: &'a mut [u64],
}

/// Whether it is `replay_held` that runs. The tests make one call at a time.
static POLLED: AtomicBool = AtomicBool::new(false);

/// Whether this fault is asked for.
fn fault(name: &str) -> bool {
    static FAULT: OnceLock<String> = OnceLock::new();
    let asked = FAULT.get_or_init(|| std::env::var("STAND_IN_FAULT").unwrap_or_default());
    asked == name || POLLED.load(Relaxed) && asked.strip_prefix("poll-") == Some(name)
}

/// Exports a call: with `polled`, the one that returns what is held.
macro_rules! exported {
    ($name:ident, $polled:literal) => {
        /// # Safety
        /// Each pointer and length is a slice, and those written do not overlap with others.
        #[no_mangle]
        pub unsafe extern "C" fn $name(
            spans: *mut u32,
            spans_count: usize,
            order: *mut u32,
            order_count: usize,
            tally: *mut u32,
            tally_count: usize,
            rows: *mut u32,
            rows_count: usize,
            marks: *mut u16,
            marks_count: usize,
            locations: *mut u64,
            locations_count: usize,
            waiting: *mut u64,
            waiting_count: usize,
            pool: *mut u32,
            pool_count: usize,
            answers: *mut u64,
            answers_count: usize,
            calls: *const u64,
            calls_count: usize,
            p: u64,
            v: u64,
        ) -> u64 {
            use std::slice::{from_raw_parts, from_raw_parts_mut};
            let slices = Slices {
                spans: from_raw_parts_mut(spans, spans_count),
                order: from_raw_parts_mut(order, order_count),
                tally: from_raw_parts_mut(tally, tally_count),
                rows: from_raw_parts_mut(rows, rows_count),
                marks: from_raw_parts_mut(marks, marks_count),
                locations: from_raw_parts_mut(locations, locations_count),
                waiting: from_raw_parts_mut(waiting, waiting_count),
                pool: from_raw_parts_mut(pool, pool_count),
                answers: from_raw_parts_mut(answers, answers_count),
            };
            POLLED.store($polled, Relaxed);
            replay(slices, from_raw_parts(calls, calls_count), p, v)
        }
    };
}

exported!(replay_calls, false);
exported!(replay_held, true);

/// What a replay came to.
struct Outcome<'a> {
    session: Session,
    /// The accepted adds.
    accepted: Vec<Registration<'a>>,
    /// Places that are set, written or promised.
    taken: Vec<bool>,
    p: usize,
    v: usize,
    calls: usize,
    /// The place of the last set that was refused with 8.
    refused_place: Option<usize>,
    /// Whether the last call was refused.
    refused_last: bool,
    /// How many entries the window holds, kept step by step.
    total: u64,
}

fn replay(mut slices: Slices, calls: &[u64], p: u64, v: u64) -> u64 {
    let Some(calls) = decode(calls) else {
        if fault("malformed-writes") {
            slices.rows[0] = 0;
        }
        return 15;
    };
    let lent = Lent {
        spans: (slices.spans.len() / ENTRY) as u64,
        order: (slices.order.len() / ENTRY) as u64,
        rows: (slices.rows.len() / ROW) as u64,
        places: slices.marks.len().min(slices.locations.len()) as u64,
        waiting: slices.waiting.len() as u64,
        tally: slices.tally.len() as u64,
        pool: slices.pool.len() as u64 - u64::from(fault("10-early") && !slices.pool.is_empty()),
    };
    let session = match Session::open(p, v, &lent) {
        Ok(_) if slices.answers.len() < calls.len() => return 2,
        Ok(session) => session,
        Err(code) => {
            if fault("refused-opening-writes") && !slices.marks.is_empty() {
                slices.marks[0] = 0;
            }
            return code;
        }
    };
    let mut outcome = Outcome {
        session,
        accepted: Vec::new(),
        taken: vec![false; v as usize],
        p: p as usize,
        v: v as usize,
        calls: calls.len(),
        refused_place: None,
        refused_last: false,
        total: 0,
    };
    for (call, answer) in calls.iter().zip(slices.answers.iter_mut()) {
        *answer = outcome.call(call);
    }
    put(&mut slices, &outcome);
    put_fault(&mut slices, &outcome);
    64 * outcome.count()
}

/// How the window stands, for keeping a total over a call.
struct Standing {
    first: u64,
    held: u64,
    written: u64,
}

impl Standing {
    fn of(session: &Session) -> Self {
        let window = &session.window;
        Self {
            first: window.first,
            held: window.spans.iter().map(|span| span.len() as u64).sum(),
            written: window.order.len() as u64,
        }
    }
}

impl<'a> Outcome<'a> {
    /// What the call returns 64 times: the order's length, or the total that is kept, or another number if
    /// that fault is asked for.
    fn count(&self) -> u64 {
        if !POLLED.load(Relaxed) || fault("total-is-written") {
            return self.session.window.order.len() as u64;
        }
        if fault("total-is-accepted") {
            return self.accepted.len() as u64;
        }
        let waiting: usize = self.session.waiting.values().map(Vec::len).sum();
        self.total + u64::from(fault("total-with-waiting")) * waiting as u64
    }

    /// Keeps the total over a call with this number. The faults at a release are made only where the
    /// call placed one registration, so that what stood before and after tells where it went.
    fn keep_total(&mut self, call: &Call, code: u64, before: &Standing) {
        if code != 0 {
            self.total += u64::from(fault("total-refused"));
            return;
        }
        let now = Standing::of(&self.session);
        let mut lowered = now.written - before.written;
        let mut raised = now.held + lowered - before.held;
        let spans = &self.session.window.spans;
        // One in a new span stands in the last; where a span was full, the last is empty.
        let opened = !spans[SPANS - 1].is_empty();
        match (call, raised, now.first - before.first) {
            (Call::Final, ..) if fault("total-after-final") => lowered = 0,
            (Call::Flush, ..) if fault("total-after-flush") => lowered = 0,
            (_, 1, 1) if fault("total-next-span") && !opened => lowered = spans[0].len() as u64,
            (_, 1, 1 | 2) if fault("total-before-opening") && opened => lowered = 0,
            _ if fault("total-not-raised") => raised = raised.saturating_sub(1),
            _ if fault("total-once-a-call") => raised = raised.min(1),
            _ => {}
        }
        self.total = (self.total + raised).saturating_sub(lowered);
    }

    fn call(&mut self, call: &Call<'a>) -> u64 {
        let before = Standing::of(&self.session);
        let code = match call {
            Call::Set(place) => self.session.set(*place),
            Call::Add(registration) => self.add(registration),
            Call::Flush => self.session.flush(),
            Call::Final => self.session.final_flush().err().unwrap_or(0),
        };
        match (call, code) {
            (Call::Set(place), 0) => self.taken[*place as usize] = true,
            (Call::Set(place), 8) => self.refused_place = Some(*place as usize),
            (Call::Add(registration), 0) => {
                let outputs = registration.outputs.iter();
                outputs.for_each(|place| self.taken[*place as usize] = true);
                self.accepted.push(*registration);
            }
            (Call::Add(registration), _) if fault("quadratic") => {
                look_at_pairs(registration.outputs)
            }
            _ => {}
        }
        self.refused_last = code != 0;
        self.keep_total(call, code, &before);
        code
    }

    /// An add, whose lane is judged wrongly if such a fault is asked for.
    fn add(&mut self, registration: &Registration) -> u64 {
        let Registration {
            lane,
            inputs,
            outputs,
        } = *registration;
        let long = inputs.len() > 65_535 || outputs.len() > 65_535;
        let read_as = match lane {
            255 if fault("255-refused") => 256,
            256 if fault("256-accepted") => 0,
            256.. if fault("18-after-3") && long => 0,
            _ if fault("8-bits-of-a-lane") => lane % 256,
            _ => lane,
        };
        match self.session.add(read_as, inputs, outputs) {
            7 if fault("18-before-7") && lane > model::MOST_LANE => 18,
            code => code,
        }
    }

    /// The list numbers of the accepted adds.
    fn list_numbers(&self) -> usize {
        self.accepted
            .iter()
            .map(|lists| lists.inputs.len() + lists.outputs.len())
            .sum()
    }
}

/// Compares all pairs, which is of no use but to take its time.
fn look_at_pairs(outputs: &[u64]) {
    for (i, output) in outputs.iter().enumerate() {
        std::hint::black_box(outputs[..i].contains(output));
    }
}

/// Writes what the replay came to into the storage.
fn put(slices: &mut Slices, outcome: &Outcome) {
    let Outcome { session, p, v, .. } = outcome;
    let (window, v) = (&session.window, *v);
    for (i, span) in window.spans.iter().enumerate() {
        // A row for each span number, so that rows rotate.
        let row = (window.first as usize + i) % SPANS;
        for (q, e) in span.iter().enumerate() {
            let mut e = stored(e);
            e.accepted += u64::from(fault("held-entry") && i == 2);
            e.lane *= u64::from(!fault("held-without-lane"));
            put_tuple(slices.spans, row * (p + 1) + q, e.numbers());
        }
    }
    // the lanes give the order of the first two
    let swapped = fault("lanes-order") && matches!(window.order[..], [a, b, ..] if a.lane > b.lane);
    for (i, e) in window.order.iter().enumerate() {
        let i = if swapped && i < 2 { 1 - i } else { i };
        let mut e = stored(e);
        e.lane *= u64::from(!fault("order-without-lane"));
        put_tuple(slices.order, i, e.numbers());
    }
    for (number, count) in slices.tally.iter_mut().zip(&window.tally) {
        *number = *count as u32;
    }
    slices.rows[..ROW * v].fill(0);
    for (i, r) in session.rows.iter().enumerate() {
        let lane = match r.lane {
            _ if fault("row-lane-by-add") => outcome.accepted[i].lane,
            _ if fault("row-without-lane") => 0,
            lane => lane,
        };
        put_tuple(slices.rows, i, model::Row { lane, ..*r }.numbers());
    }
    for (i, place) in session.places.iter().enumerate() {
        slices.marks[i] = place.mark;
        slices.locations[i] = (place.location.span << 32) + place.location.position;
    }
    put_chains(slices.waiting, session, v);
    let mut start = 0;
    for (i, registration) in outcome.accepted.iter().enumerate() {
        let Registration {
            lane,
            inputs,
            outputs,
        } = registration;
        let lane = if fault("cell-without-lane") { 0 } else { *lane };
        slices.waiting[2 * v + i] = ((start as u64) << 24) + ((inputs.len() as u64) << 8) + lane;
        for number in inputs.iter().chain(*outputs) {
            slices.pool[start] = *number as u32;
            start += 1;
        }
    }
    for (flag, taken) in slices.waiting[3 * v..4 * v].iter_mut().zip(&outcome.taken) {
        *flag = (*taken).into();
    }
}

/// An entry as it is put into storage, wrong if such a fault is asked for.
fn stored(entry: &model::Entry) -> model::Entry {
    let mut entry = *entry;
    // one that waited is placed when more adds have ended than its number says
    if fault("lane-lost-in-waiting") && entry.accepted != entry.added {
        entry.lane = 0;
    }
    if fault("lane-in-accepted") {
        entry.accepted += entry.lane;
    }
    if fault("k1") {
        entry.parallelism %= 32_768;
    }
    entry
}

fn put_tuple<const N: usize>(slice: &mut [u32], i: usize, numbers: [u64; N]) {
    slice[N * i..N * (i + 1)].copy_from_slice(&numbers.map(|number| number as u32));
}

/// The chains of those who wait, the newest first.
fn put_chains(waiting: &mut [u64], session: &Session, v: usize) {
    waiting[..2 * v].fill(0);
    for (place, registrations) in &session.waiting {
        let mut registrations = registrations.clone();
        if fault("chain-reversed") {
            registrations.reverse();
        }
        let mut below = 0;
        for registration in registrations {
            waiting[v + registration as usize] = below;
            below = registration + 1;
        }
        waiting[*place as usize] = below;
    }
}

/// Writes one number too many, or a wrong one, if such a fault is asked for.
fn put_fault(slices: &mut Slices, outcome: &Outcome) {
    let Outcome { session, p, v, .. } = outcome;
    let needed = Needed::new(*p, *v);
    spoil("spans", slices.spans, needed.spans);
    spoil("order", slices.order, ENTRY * session.window.order.len());
    spoil("tally", slices.tally, needed.tally);
    spoil("rows", slices.rows, needed.rows);
    spoil("marks", slices.marks, needed.marks);
    spoil("locations", slices.locations, needed.locations);
    spoil("waiting", slices.waiting, needed.waiting);
    spoil("pool", slices.pool, outcome.list_numbers());
    spoil("answers", slices.answers, outcome.calls);
    if let (true, Some(place)) = (fault("refused-writes-mark"), outcome.refused_place) {
        slices.marks[place] = layout::SET;
    }
    // A slot past a span's length: only a comparison of all storage shows it.
    if fault("refused-writes-slot") && outcome.refused_last {
        slices.spans[needed.spans - 1] = 0;
    }
}

fn spoil<T: From<bool> + Copy + PartialEq>(name: &str, slice: &mut [T], used: usize) {
    if fault(&format!("beyond-{name}")) && used < slice.len() {
        slice[used] = false.into();
    }
    if fault(&format!("wrong-{name}")) && used > 0 {
        slice[used - 1] = (slice[used - 1] == false.into()).into();
    }
}

fn decode(mut numbers: &[u64]) -> Option<Vec<Call<'_>>> {
    let mut calls = Vec::new();
    while let Some((tag, rest)) = numbers.split_first() {
        numbers = rest;
        calls.push(match tag {
            1 => {
                let (place, rest) = numbers.split_first()?;
                numbers = rest;
                Call::Set(*place)
            }
            2 => Call::Add(take_add(0, &mut numbers)?),
            3 => Call::Flush,
            4 => Call::Final,
            5 => {
                let (lane, rest) = numbers.split_first()?;
                numbers = rest;
                let lane = if fault("tag-5-lane-ignored") {
                    0
                } else {
                    *lane
                };
                Call::Add(take_add(lane, &mut numbers)?)
            }
            _ if fault("malformed-accepted") => Call::Flush,
            _ => return None,
        });
    }
    Some(calls)
}

fn take_add<'a>(lane: u64, numbers: &mut &'a [u64]) -> Option<Registration<'a>> {
    let (inputs, rest) = counted(numbers)?;
    let (outputs, rest) = counted(rest)?;
    *numbers = rest;
    Some(Registration {
        lane,
        inputs,
        outputs,
    })
}

fn counted(numbers: &[u64]) -> Option<(&[u64], &[u64])> {
    let (&count, rest) = numbers.split_first()?;
    if count > rest.len() as u64 {
        return None;
    }
    Some(rest.split_at(count as usize))
}
