//! The reference model: document 01's clerk, with the floor, the lanes, the reasons and the ascending profile of
//! document 02 (M-103 to M-106), as a plain program, fed only P, V, W and the calls. It follows the papers and is meant to be read
//! beside them, paragraph by paragraph: the records, the guide, the registrar and sorter, the checks, the
//! summary, the job; everything is kept in growing lists. It shares no code with the Rust or with what is tested
//! by it. All arithmetic is in 64 bits, far from any limit.

use std::collections::BTreeMap;

// ---- The records

/// The spans of the window.
pub const SPANS: usize = 32;
/// The greatest P and V.
pub const MOST_PARALLELISM: u64 = 64_999;
pub const MOST_PLACES: u64 = 16_777_216;
/// The greatest lane (document 02, M-104).
pub const MOST_LANE: u64 = 255;

/// A place's marks.
pub const UNTRACKED: u16 = 0;
pub const WRITTEN: u16 = 32_768;
pub const SET: u16 = 49_152;

/// The number of a refusal, 1 to 21.
pub type Code = u64;

/// Ordered by span, then position.
#[derive(Clone, Copy, PartialEq, Eq, PartialOrd, Ord, Default)]
pub struct Location {
    pub span: u64,
    pub position: u64,
}

/// An entry of the order, or of the window before its parallelism is known.
#[derive(Clone, Copy)]
pub struct Entry {
    pub value: u64,
    pub added: u64,
    pub accepted: u64,
    pub parallelism: u64,
    /// Its registration's label, which nothing here looks at.
    pub lane: u64,
}

impl Entry {
    /// As storage has them, also of an entry that the window holds.
    pub fn numbers(&self) -> [u64; 4] {
        let last = packed(self.parallelism, self.lane);
        [self.value, self.added, self.accepted, last]
    }
}

/// A record row; written is filled at the end of the add, the rest when the entry is appended.
#[derive(Clone, Copy, Default)]
pub struct Row {
    pub added: u64,
    pub accepted: u64,
    pub written: u64,
    pub index: u64,
    pub parallelism: u64,
    pub lane: u64,
}

impl Row {
    /// As storage has them.
    pub fn numbers(&self) -> [u64; 5] {
        let last = packed(self.parallelism, self.lane);
        [self.added, self.accepted, self.written, self.index, last]
    }
}

/// "parallelism + 65,536 · lane" (document 02, M-104).
fn packed(parallelism: u64, lane: u64) -> u64 {
    parallelism + 65_536 * lane
}

// ---- Guide

/// Where a value goes: into span i of the window, or into the last of n spans that are opened.
enum Target {
    Span(usize),
    Open(usize),
}

/// The window with its entries, and what it has released: order and tally.
pub struct Window {
    parallelism: u64,
    /// Span 0's number; the others follow by ones.
    pub first: u64,
    pub spans: Vec<Vec<Entry>>,
    pub order: Vec<Entry>,
    pub tally: Vec<u64>,
}

impl Window {
    fn new(parallelism: u64) -> Self {
        Self {
            parallelism,
            first: 0,
            spans: vec![Vec::new(); SPANS],
            order: Vec::new(),
            tally: vec![0; parallelism as usize + 1],
        }
    }

    /// The last span's number.
    fn last(&self) -> u64 {
        self.first + SPANS as u64 - 1
    }

    fn length(&self, i: usize) -> u64 {
        self.spans[i].len() as u64
    }

    /// Whether an entry with this location is in the window.
    fn holds(&self, location: Location) -> bool {
        self.first <= location.span
            && location.span <= self.last()
            && location.position < self.length((location.span - self.first) as usize)
    }

    fn target(&self, after: Option<Location>) -> Target {
        let after = match after {
            Some(after) if after.span >= self.first => after,
            // Absent, or before the window: span 1, even where that is full.
            _ => return Target::Span(1),
        };
        let d = (after.span - self.first) as usize;
        if d == SPANS - 1 {
            return Target::Open(2);
        }
        let begin = if after.position > self.length(d + 1) {
            d + 2
        } else {
            d + 1
        };
        for i in begin..SPANS {
            if self.length(i) < self.parallelism {
                return Target::Span(i);
            }
        }
        Target::Open(1)
    }

    /// Places a value and says where it went. The entry's parallelism is worked out on release.
    fn place(&mut self, entry: Entry, after: Option<Location>) -> Location {
        match self.target(after) {
            Target::Span(i) => {
                let location = Location {
                    span: self.first + i as u64,
                    position: self.length(i),
                };
                self.spans[i].push(entry);
                // Whichever span filled, it is span 0 that is released.
                if self.length(i) >= self.parallelism {
                    self.release(1);
                }
                location
            }
            Target::Open(n) => {
                let location = Location {
                    span: self.last() + n as u64,
                    position: 0,
                };
                self.release(n);
                self.spans[SPANS - 1].push(entry);
                location
            }
        }
    }

    /// Releases spans 0 to n-1: parallelism from the lengths of the old window, then the entries
    /// are appended, then the window rotates.
    fn release(&mut self, n: usize) {
        for i in 0..n {
            let a = self.length(i);
            let next = if i + 1 < SPANS {
                Some(self.length(i + 1))
            } else {
                None
            };
            for q in 0..a {
                let mut entry = self.spans[i][q as usize];
                entry.parallelism = width(self.parallelism, a, next, q);
                self.tally[entry.parallelism as usize] += 1;
                self.order.push(entry);
            }
        }
        self.spans.drain(..n);
        self.spans.resize_with(SPANS, Vec::new);
        self.first += n as u64;
    }

    fn flush(&mut self) {
        self.release(SPANS);
    }
}

/// The parallelism of the entry at position q of a span with a entries, the next having b; there is
/// no next one for span 31.
fn width(p: u64, a: u64, next: Option<u64>, q: u64) -> u64 {
    let b = match next {
        Some(b) => b,
        None => return a - q,
    };
    match (a >= p, b >= p) {
        (true, true) => p,
        (true, false) if q < b => p,
        // P - q + b, but at least 1; q can pass P + b.
        (true, false) => std::cmp::max((p + b).saturating_sub(q), 1),
        (false, true) => a,
        (false, false) => std::cmp::min(a, b + a - q),
    }
}

// ---- Opening

/// The lengths of what is lent at an opening.
#[derive(Clone, Copy)]
pub struct Lent {
    pub spans: u64,
    pub order: u64,
    pub rows: u64,
    pub places: u64,
    pub waiting: u64,
    pub tally: u64,
    pub pool: u64,
}

impl Lent {
    /// Just enough for a session of P and V, with a pool of W numbers.
    pub fn for_session(p: u64, v: u64, w: u64) -> Self {
        let spans = (SPANS as u64).saturating_mul(p.saturating_add(1));
        Self {
            spans,
            order: v,
            rows: v,
            places: v,
            waiting: v.saturating_mul(4),
            tally: p.saturating_add(1),
            pool: w,
        }
    }
}

/// Checks 1 and 2 of a session.
fn check_opening(p: u64, v: u64, lent: &Lent) -> Code {
    if check_range(p, v) != 0 {
        return 1;
    }
    let needed = Lent::for_session(p, v, lent.pool);
    let enough = lent.spans >= needed.spans
        && lent.order >= needed.order
        && lent.rows >= needed.rows
        && lent.places >= needed.places
        && lent.waiting >= needed.waiting
        && lent.tally >= needed.tally;
    if enough {
        0
    } else {
        2
    }
}

fn check_range(p: u64, v: u64) -> Code {
    let within = (1..=MOST_PARALLELISM).contains(&p) && (1..=MOST_PLACES).contains(&v);
    if within {
        0
    } else {
        1
    }
}

// ---- Registrar and sorter

#[derive(Clone, Copy)]
pub struct Place {
    pub mark: u16,
    pub location: Location,
    /// An output of a registration that waits.
    promised: bool,
}

struct Registration {
    lane: u64,
    inputs: Vec<u64>,
    outputs: Vec<u64>,
}

pub struct Session {
    places_count: u64,
    pool: u64,
    pub window: Window,
    pub places: Vec<Place>,
    /// The high mark plus 1, or 0 where there is none: places below are all tracked.
    pub leading: u64,
    /// The accepted adds.
    registrations: Vec<Registration>,
    /// One for each accepted add; the rows past them are zeros.
    pub rows: Vec<Row>,
    /// Those who wait, under their greatest inputs, in the order in which they came.
    pub waiting: BTreeMap<u64, Vec<u64>>,
    /// How many adds have ended.
    ended: u64,
    /// The list numbers of all accepted adds.
    list_numbers: u64,
    plain_flushes: u64,
    pub closed: bool,
}

impl Session {
    pub fn open(p: u64, v: u64, lent: &Lent) -> Result<Self, Code> {
        match check_opening(p, v, lent) {
            0 => {}
            code => return Err(code),
        }
        Ok(Self::fresh(p, v, lent.pool))
    }

    fn fresh(p: u64, v: u64, pool: u64) -> Self {
        let place = Place {
            mark: UNTRACKED,
            location: Location::default(),
            promised: false,
        };
        Self {
            places_count: v,
            pool,
            window: Window::new(p),
            places: vec![place; v as usize],
            leading: 0,
            registrations: Vec::new(),
            rows: Vec::new(),
            waiting: BTreeMap::new(),
            ended: 0,
            list_numbers: 0,
            plain_flushes: 0,
            closed: false,
        }
    }

    // The calls. Each meets its checks first; a refused one changes nothing.

    pub fn set(&mut self, place: u64) -> Code {
        let code = self.check_set(place);
        if code == 0 {
            self.do_set(place);
        }
        code
    }

    pub fn add(&mut self, lane: u64, inputs: &[u64], outputs: &[u64]) -> Code {
        let code = self.check_add(lane, inputs, outputs);
        if code == 0 {
            self.do_add(lane, inputs, outputs);
        }
        code
    }

    fn do_set(&mut self, place: u64) {
        self.places[place as usize].mark = SET;
        // Each with all that it sets off before the next.
        for registration in self.advance() {
            self.place_all(registration);
        }
    }

    fn do_add(&mut self, lane: u64, inputs: &[u64], outputs: &[u64]) {
        let number = self.registrations.len() as u64;
        self.list_numbers += (inputs.len() + outputs.len()) as u64;
        self.registrations.push(Registration {
            lane,
            inputs: inputs.to_vec(),
            outputs: outputs.to_vec(),
        });
        self.rows.push(Row::default());
        match inputs.iter().max() {
            Some(&greatest) if greatest >= self.leading => {
                self.waiting.entry(greatest).or_default().push(number);
                for &output in outputs {
                    self.places[output as usize].promised = true;
                }
            }
            _ => self.place_all(number),
        }
        // At the end of the add, also for one that waits.
        self.rows[number as usize].written = self.window.order.len() as u64;
        self.ended += 1;
    }

    pub fn flush(&mut self) -> Code {
        if self.closed {
            return 7;
        }
        if self.plain_flushes == 65_535 {
            return 11;
        }
        self.plain_flushes += 1;
        self.release_all();
        0
    }

    pub fn final_flush(&mut self) -> Result<Summary, Code> {
        if self.closed {
            return Err(7);
        }
        if !self.waiting.is_empty() {
            return Err(12);
        }
        self.release_all();
        self.closed = true;
        Ok(Summary::of(&self.window.tally))
    }

    /// The inputs and outputs of an accepted add.
    pub fn lists(&self, number: u64) -> (&[u64], &[u64]) {
        let registration = &self.registrations[number as usize];
        (&registration.inputs, &registration.outputs)
    }

    /// What the accepted calls came to.
    pub fn used(&self) -> Needs {
        Needs {
            registrations: self.registrations.len() as u64,
            list_numbers: self.list_numbers,
            flushes: self.plain_flushes,
        }
    }

    // The checks, in the paper's order. Each goes over all places of the call before the next.

    fn check_set(&self, place: u64) -> Code {
        if self.closed {
            7
        } else if is_flagged(place) {
            4
        } else if place >= self.places_count {
            5
        } else if self.is_taken(place) {
            8
        } else {
            0
        }
    }

    fn check_add(&self, lane: u64, inputs: &[u64], outputs: &[u64]) -> Code {
        let places = || inputs.iter().chain(outputs);
        if self.closed {
            7
        } else if lane > MOST_LANE {
            18
        } else if inputs.len() > 65_535 || outputs.len() > 65_535 {
            3
        } else if places().any(|&place| is_flagged(place)) {
            4
        } else if places().any(|&place| place >= self.places_count) {
            5
        } else if has_twice(outputs) {
            6
        } else if outputs.iter().any(|&place| self.is_taken(place)) {
            8
        } else if self.registrations.len() as u64 == self.places_count {
            9
        } else if self.list_numbers + (inputs.len() + outputs.len()) as u64 > self.pool {
            10
        } else {
            0
        }
    }

    /// Already set, written, or promised by a waiting registration.
    fn is_taken(&self, place: u64) -> bool {
        let place = &self.places[place as usize];
        place.mark != UNTRACKED || place.promised
    }

    // Placing.

    /// Places a registration and all that it sets off: those who come off are pushed on a stack, and
    /// the last is taken first.
    fn place_all(&mut self, registration: u64) {
        let mut stack = vec![registration];
        while let Some(next) = stack.pop() {
            stack.extend(self.place_one(next));
        }
    }

    /// Places one registration, tracks its outputs and says who comes off.
    fn place_one(&mut self, number: u64) -> Vec<u64> {
        let Registration {
            lane,
            inputs,
            outputs,
        } = &self.registrations[number as usize];
        let after = inputs
            .iter()
            .map(|&input| self.places[input as usize].location)
            .max();
        let entry = Entry {
            value: number,
            added: number,
            accepted: self.ended,
            parallelism: 0,
            lane: *lane,
        };
        let appended_before = self.window.order.len();
        let location = self.window.place(entry, after);
        for &output in outputs {
            self.places[output as usize] = Place {
                mark: WRITTEN,
                location,
                promised: false,
            };
        }
        self.fill_rows(appended_before);
        self.advance()
    }

    /// Moves the mark, and takes off those who now are at or below it: by ascending place, then by
    /// registration.
    fn advance(&mut self) -> Vec<u64> {
        while self.leading < self.places_count
            && self.places[self.leading as usize].mark != UNTRACKED
        {
            self.leading += 1;
        }
        let above = self.waiting.split_off(&self.leading);
        let off = std::mem::replace(&mut self.waiting, above);
        off.into_values().flatten().collect()
    }

    /// Fills the rows of the entries appended since the order had this length.
    fn fill_rows(&mut self, from: usize) {
        for index in from..self.window.order.len() {
            let entry = self.window.order[index];
            let row = &mut self.rows[entry.added as usize];
            row.added = entry.added;
            row.accepted = entry.accepted;
            row.index = index as u64;
            row.parallelism = entry.parallelism;
            row.lane = entry.lane;
        }
    }

    /// What flush and final have in common: all 32 spans are released, and the row of the latest
    /// registration, if any, takes the order's length.
    fn release_all(&mut self) {
        let appended_before = self.window.order.len();
        self.window.flush();
        self.fill_rows(appended_before);
        if let Some(row) = self.rows.last_mut() {
            row.written = self.window.order.len() as u64;
        }
    }
}

// ---- The reason for a waiting registration (document 02, M-105)

/// Its greatest input, and the lowest untracked place of the session.
#[derive(Clone, Copy, PartialEq, Eq, Debug)]
pub struct Reason {
    pub input: u64,
    pub place: u64,
}

impl Reason {
    /// As the host's calls return it.
    pub fn returned(&self) -> u64 {
        64 * ((1 << 24) * self.input + self.place)
    }
}

impl Session {
    /// Why a registration waits.
    pub fn reason(&self, number: u64) -> Result<Reason, Code> {
        let registration = usize::try_from(number).ok();
        let registration = registration.and_then(|number| self.registrations.get(number));
        let Some(registration) = registration else {
            return Err(19);
        };
        if !self.waiting.values().flatten().any(|&waits| waits == number) {
            return Err(20);
        }
        let inputs = registration.inputs.iter().copied();
        let untracked = self.places.iter().position(|place| place.mark == UNTRACKED);
        Ok(Reason {
            input: inputs.max().expect("one without inputs does not wait"),
            place: untracked.expect("an input of one that waits is untracked, or one below it") as u64,
        })
    }
}

/// Whether a place has bit 62 (witness) or 63 (placeholder).
fn is_flagged(place: u64) -> bool {
    place >> 62 != 0
}

fn has_twice(places: &[u64]) -> bool {
    let mut sorted = places.to_vec();
    sorted.sort_unstable();
    sorted.windows(2).any(|pair| pair[0] == pair[1])
}

// ---- The ascending profile (document 02, M-106)

/// A session under the profile: its checks are its own, and an accepted call does what it does in every session.
pub struct Ascending {
    pub session: Session,
}

impl Ascending {
    /// No list is kept and nobody waits: of what is lent, the waiting storage is not looked at, and the pool's length is
    /// W alone.
    pub fn open(p: u64, v: u64, lent: &Lent) -> Result<Self, Code> {
        let without_waiting = Lent {
            waiting: u64::MAX,
            ..*lent
        };
        match check_opening(p, v, &without_waiting) {
            0 => Ok(Self {
                session: Session::fresh(p, v, lent.pool),
            }),
            code => Err(code),
        }
    }

    pub fn set(&mut self, place: u64) -> Code {
        let code = self.check_set(place);
        if code == 0 {
            self.session.do_set(place);
        }
        code
    }

    pub fn add(&mut self, lane: u64, inputs: &[u64], outputs: &[u64]) -> Code {
        let code = self.check_add(lane, inputs, outputs);
        if code == 0 {
            self.session.do_add(lane, inputs, outputs);
        }
        code
    }

    pub fn flush(&mut self) -> Code {
        self.session.flush()
    }

    pub fn final_flush(&mut self) -> Result<Summary, Code> {
        self.session.final_flush()
    }

    /// "The lowest one not yet set or written", V where there is none.
    pub fn lowest(&self) -> u64 {
        let places = &self.session.places;
        let untracked = places.iter().position(|place| place.mark == UNTRACKED);
        untracked.unwrap_or(places.len()) as u64
    }

    // The checks: 21 stands after 6 and before 8.

    fn check_set(&self, place: u64) -> Code {
        if self.session.closed {
            7
        } else if is_flagged(place) {
            4
        } else if place >= self.session.places_count {
            5
        } else if place != self.lowest() {
            21
        } else if self.session.is_taken(place) {
            8
        } else {
            0
        }
    }

    fn check_add(&self, lane: u64, inputs: &[u64], outputs: &[u64]) -> Code {
        let places = || inputs.iter().chain(outputs);
        let listed = (inputs.len() + outputs.len()) as u64;
        if self.session.closed {
            7
        } else if lane > MOST_LANE {
            18
        } else if inputs.len() > 65_535 || outputs.len() > 65_535 {
            3
        } else if places().any(|&place| is_flagged(place)) {
            4
        } else if places().any(|&place| place >= self.session.places_count) {
            5
        } else if has_twice(outputs) {
            6
        } else if self.breaches(inputs, outputs) {
            21
        } else if outputs.iter().any(|&place| self.session.is_taken(place)) {
            8
        } else if self.session.registrations.len() as u64 == self.session.places_count {
            9
        } else if self.session.list_numbers + listed > self.session.pool {
            10
        } else {
            0
        }
    }

    /// The outputs must be the lowest place and those that follow it, in this order; each input must lie below the first
    /// output or, with no outputs, below the lowest place.
    fn breaches(&self, inputs: &[u64], outputs: &[u64]) -> bool {
        let lowest = self.lowest();
        let ascend = (lowest..).zip(outputs).all(|(place, &output)| output == place);
        let bound = outputs.first().copied().unwrap_or(lowest);
        !ascend || inputs.iter().any(|&input| input >= bound)
    }
}

// ---- The guide alone

pub struct Guide {
    places_count: u64,
    pub window: Window,
    pushes: u64,
}

impl Guide {
    pub fn open(p: u64, v: u64, spans: u64, order: u64, tally: u64) -> Result<Self, Code> {
        if check_range(p, v) != 0 {
            return Err(1);
        }
        if spans < SPANS as u64 * (p + 1) || order < v || tally < p + 1 {
            return Err(2);
        }
        Ok(Self {
            places_count: v,
            window: Window::new(p),
            pushes: 0,
        })
    }

    pub fn push(
        &mut self,
        value: u64,
        added: u64,
        accepted: u64,
        after: Option<Location>,
    ) -> Result<Location, Code> {
        if self.pushes == self.places_count || self.is_worn() {
            return Err(14);
        }
        if let Some(after) = after {
            let unknown = after != Location::default()
                && after.span >= self.window.first
                && !self.window.holds(after);
            if unknown {
                return Err(13);
            }
        }
        self.pushes += 1;
        Ok(self.window.place(
            Entry {
                value,
                added,
                accepted,
                parallelism: 0,
                lane: 0,
            },
            after,
        ))
    }

    pub fn flush(&mut self) -> Code {
        if self.is_worn() {
            return 14;
        }
        self.window.flush();
        0
    }

    /// Whether the span numbers are used up: 14's second half.
    fn is_worn(&self) -> bool {
        self.window.last() >= 4_294_967_264
    }
}

// ---- Summary

/// What final gives beside its number.
pub struct Summary {
    /// The bits of the average in binary32.
    pub average: u32,
    pub median: u64,
    pub low: [u64; 128],
    pub thousands: [u64; 65],
}

impl Summary {
    pub fn of(tally: &[u64]) -> Self {
        let sum: u64 = tally.iter().sum();
        let mut running = 0;
        let median = tally.iter().position(|count| {
            running += count;
            2 * running >= sum
        });
        let mut summary = Self {
            average: quotient_bits(sum, 65_000),
            median: median.unwrap_or(0) as u64,
            low: [0; 128],
            thousands: [0; 65],
        };
        for (parallelism, &count) in tally.iter().enumerate() {
            if parallelism < summary.low.len() {
                summary.low[parallelism] = count;
            }
            summary.thousands[parallelism / 1000] += count;
        }
        summary
    }
}

/// The bits of a / b in binary32, rounded once, to the nearest and at a tie to the even one. By whole
/// numbers only, for quotients in the range of normal numbers, and 0.
fn quotient_bits(a: u64, b: u64) -> u32 {
    if a == 0 {
        return 0;
    }
    // The scaled quotient has 24 bits: 2^23 <= floor(a * 2^scale / b) < 2^24.
    let (a, b) = (a as u128, b as u128);
    let scaled = |scale: i32| match scale >= 0 {
        true => (a << scale, b),
        false => (a, b << -scale),
    };
    let quotient = |scale: i32| scaled(scale).0 / scaled(scale).1;
    let mut scale = 60;
    while quotient(scale) >= 1 << 24 {
        scale -= 1;
    }
    let (numerator, denominator) = scaled(scale);
    let (mut significand, rest) = (numerator / denominator, numerator % denominator);
    if 2 * rest > denominator || (2 * rest == denominator && significand % 2 == 1) {
        significand += 1;
    }
    // A carry out of the significand lands in the exponent, as it should.
    let exponent = (127 + 23 - scale) as u32;
    (exponent << 23) + (significand as u32 - (1 << 23))
}

// ---- Job and listing

/// What program and host lend: P to 64, V to 512, and a pool of 4,096 numbers.
const JOB_PARALLELISM: u64 = 64;
const JOB_PLACES: u64 = 512;
const JOB_POOL: u64 = 4_096;
const JOB_BYTES: usize = 65_536;
/// The listing bytes that the program lends.
pub const LISTING_BYTES: usize = 65_536;

/// What a job needs, or what one has used.
#[derive(Clone, Copy, Default, PartialEq, Eq, Debug)]
pub struct Needs {
    pub registrations: u64,
    /// The numbers in the lists of all registrations.
    pub list_numbers: u64,
    /// The plain flushes.
    pub flushes: u64,
}

impl Needs {
    /// No more spans are released: a registration opens two at most, a flush and final release all 32.
    pub fn ceiling(&self) -> u64 {
        2 * self.registrations + SPANS as u64 * (self.flushes + 1)
    }
}

/// A refused job: the number and the line.
pub struct Refusal {
    pub code: Code,
    pub line: u64,
}

impl Refusal {
    /// As the host's calls return it.
    pub fn returned(&self) -> u64 {
        64 * self.line + self.code
    }

    /// As the program prints it.
    pub fn text(&self) -> String {
        format!("status={}\nline={}\n", self.code, self.line)
    }
}

/// The lines of a job, each ended by byte 10; what comes after the last byte 10 is no line.
struct Lines<'a> {
    rest: &'a [u8],
    /// The number of the line that comes next.
    next: u64,
}

impl<'a> Lines<'a> {
    /// Those of a job, unless it has too many bytes.
    fn of(job: &'a [u8]) -> Result<Self, Refusal> {
        if job.len() > JOB_BYTES {
            return Err(Refusal { code: 16, line: 1 });
        }
        Ok(Self { rest: job, next: 1 })
    }

    /// The next line without its byte 10; where there is none, the refusal of a missing line.
    fn take(&mut self) -> Result<&'a [u8], Refusal> {
        let end = self.rest.iter().position(|&byte| byte == 10);
        let end = end.ok_or_else(|| self.refuse_next())?;
        let line = &self.rest[..end];
        self.rest = &self.rest[end + 1..];
        self.next += 1;
        Ok(line)
    }

    /// Nothing may follow, not even a part of a line.
    fn end(&self) -> Result<(), Refusal> {
        match self.rest {
            [] => Ok(()),
            _ => Err(self.refuse_next()),
        }
    }

    /// The refusal of a missing line, or of a surplus one: at the line that comes next.
    fn refuse_next(&self) -> Refusal {
        Refusal {
            code: 15,
            line: self.next,
        }
    }

    /// A refusal at the line that was taken last.
    fn refuse(&self, code: Code) -> Refusal {
        Refusal {
            code,
            line: self.next - 1,
        }
    }

    /// Nothing, or the refusal at the line that was taken last.
    fn demand(&self, code: Code) -> Result<(), Refusal> {
        if code == 0 {
            Ok(())
        } else {
            Err(self.refuse(code))
        }
    }

    /// What was read of the line that was taken last, unless that is malformed.
    fn formed<T>(&self, read: Option<T>) -> Result<T, Refusal> {
        read.ok_or_else(|| self.refuse(15))
    }

    /// The value of a line `key=value` that must come next.
    fn take_value(&mut self, key: &str) -> Result<&'a [u8], Refusal> {
        let line = self.take()?;
        self.formed(value_of(line, key))
    }

    /// P and V by the two head lines.
    fn take_head(&mut self) -> Result<(u64, u64), Refusal> {
        let mut head = |key| {
            let value = self.take_value(key)?;
            self.formed(number(value))
        };
        Ok((head("parallelism")?, head("places")?))
    }

    /// The call that the next line makes (with those that must follow it, for an add).
    fn take_call(&mut self) -> Result<JobCall, Refusal> {
        let line = self.take()?;
        if let Some(value) = value_of(line, "set") {
            return self.formed(number(value)).map(JobCall::Set);
        }
        if let Some(value) = value_of(line, "lane") {
            let lane = self.formed(number(value))?;
            let inputs = self.take_value("in")?;
            return self.take_add(lane, inputs);
        }
        if let Some(inputs) = value_of(line, "in") {
            return self.take_add(0, inputs);
        }
        match line {
            b"flush=1" => Ok(JobCall::Flush),
            b"final=1" => Ok(JobCall::Final),
            _ => Err(self.refuse(15)),
        }
    }

    /// The add whose inputs stand on the line that was taken last; its `out=` line must come next.
    fn take_add(&mut self, lane: u64, inputs: &[u8]) -> Result<JobCall, Refusal> {
        let inputs = self.formed(numbers(inputs))?;
        let value = self.take_value("out")?;
        let outputs = self.formed(numbers(value))?;
        Ok(JobCall::Add(Registration {
            lane,
            inputs,
            outputs,
        }))
    }
}

/// A call of a job as it is read.
enum JobCall {
    Set(u64),
    Add(Registration),
    Flush,
    Final,
}

/// Runs a job and gives its listing. `lent` is the count of lent listing bytes.
pub fn run_job(job: &[u8], lent: usize) -> Result<Vec<u8>, Refusal> {
    let (session, summary) = finish_job(job)?;
    let listing = list(&session, &summary);
    if listing.len() > lent {
        return Err(Refusal { code: 17, line: 1 });
    }
    Ok(listing)
}

/// Runs a job and gives the session at its end.
pub fn finish_job(job: &[u8]) -> Result<(Session, Summary), Refusal> {
    let mut lines = Lines::of(job)?;
    let (session, done) = reach_final(&mut lines)?;
    let summary = done.map_err(|code| lines.refuse(code))?;
    lines.end()?;
    Ok((session, summary))
}

/// Runs a job up to its final, and gives the session and what that said.
fn reach_final(lines: &mut Lines) -> Result<(Session, Result<Summary, Code>), Refusal> {
    let mut session = open_job(lines)?;
    loop {
        match lines.take_call()? {
            JobCall::Set(place) => lines.demand(session.set(place))?,
            JobCall::Add(Registration {
                lane,
                inputs,
                outputs,
            }) => lines.demand(session.add(lane, &inputs, &outputs))?,
            JobCall::Flush => lines.demand(session.flush())?,
            JobCall::Final => {
                let done = session.final_flush();
                return Ok((session, done));
            }
        }
    }
}

/// Runs a job and gives the session where it stopped: at its final, accepted or refused with 12. A final that is refused
/// ends the job, whatever follows; after an accepted one nothing may.
pub fn stopped_job(job: &[u8]) -> Result<Session, Refusal> {
    let mut lines = Lines::of(job)?;
    let (session, done) = reach_final(&mut lines)?;
    match done {
        Ok(_) => lines.end()?,
        Err(12) => {}
        Err(code) => return Err(lines.refuse(code)),
    }
    Ok(session)
}

/// Opening is judged once both head lines are well formed.
fn open_job(lines: &mut Lines) -> Result<Session, Refusal> {
    let (p, v) = lines.take_head()?;
    let lent = Lent::for_session(JOB_PARALLELISM, JOB_PLACES, JOB_POOL);
    Session::open(p, v, &lent).map_err(|code| lines.refuse(code))
}

/// What a job needs, by its text alone: every line is read, and nothing that it says is judged.
pub fn job_needs(job: &[u8]) -> Result<Needs, Refusal> {
    let mut lines = Lines::of(job)?;
    lines.take_head()?;
    let mut needs = Needs::default();
    loop {
        match lines.take_call()? {
            JobCall::Set(_) => {}
            JobCall::Add(Registration {
                inputs, outputs, ..
            }) => {
                needs.registrations += 1;
                needs.list_numbers += (inputs.len() + outputs.len()) as u64;
            }
            JobCall::Flush => needs.flushes += 1,
            JobCall::Final => break,
        }
    }
    lines.end()?;
    Ok(needs)
}

fn value_of<'a>(line: &'a [u8], key: &str) -> Option<&'a [u8]> {
    line.strip_prefix(key.as_bytes())?.strip_prefix(b"=")
}

/// A number of at most 20 digits in 64 bits, with no leading zero but 0 itself.
fn number(text: &[u8]) -> Option<u64> {
    let digits = text.iter().all(|byte| byte.is_ascii_digit());
    if text.is_empty() || text.len() > 20 || !digits || (text[0] == b'0' && text.len() > 1) {
        return None;
    }
    let value = text
        .iter()
        .fold(0u128, |value, digit| 10 * value + (digit - b'0') as u128);
    u64::try_from(value).ok()
}

/// Numbers divided by single commas, or nothing.
fn numbers(text: &[u8]) -> Option<Vec<u64>> {
    if text.is_empty() {
        return Some(Vec::new());
    }
    text.split(|&byte| byte == b',').map(number).collect()
}

/// The smallest parallelism among the entries whose index plus P is at most the order's length, 0 with
/// no such entry (document 02, M-103).
fn floor(window: &Window) -> u64 {
    let length = window.order.len() as u64;
    let counted = (0..).zip(&window.order).filter(|(index, _)| index + window.parallelism <= length);
    counted.map(|(_, entry)| entry.parallelism).min().unwrap_or(0)
}

/// The listing of a session after its final.
pub fn list(session: &Session, summary: &Summary) -> Vec<u8> {
    let order = &session.window.order;
    let mut text = format!(
        "status=0\nentries={}\nplaces={}\nfloor={}\nmedian={}\n",
        order.len(),
        session.leading,
        floor(&session.window),
        summary.median
    );
    for (index, entry) in order.iter().enumerate() {
        let Entry {
            added,
            accepted,
            parallelism,
            lane,
            ..
        } = entry;
        let written = session.rows[*added as usize].written;
        text += &format!(
            "order={index} added={added} accepted={accepted} \
             parallelism={parallelism} written={written} lane={lane}\n"
        );
    }
    text.into_bytes()
}

/// What the program prints.
pub fn program(job: &[u8]) -> Vec<u8> {
    match run_job(job, LISTING_BYTES) {
        Ok(listing) => listing,
        Err(refusal) => refusal.text().into_bytes(),
    }
}

/// What the host's call returns, and the listing where the job is accepted.
pub fn host(job: &[u8], lent: usize) -> (u64, Vec<u8>) {
    match run_job(job, lent) {
        Ok(listing) => (64 * listing.len() as u64, listing),
        Err(refusal) => (refusal.returned(), Vec::new()),
    }
}

/// What the program that is asked for a reason prints.
pub fn reason_program(job: &[u8], number: u64) -> String {
    match stopped_job(job).map(|session| session.reason(number)) {
        Ok(Ok(Reason { input, place })) => format!("status=0\ninput={input}\nplace={place}\n"),
        Ok(Err(code)) => format!("status={code}\n"),
        Err(refusal) => refusal.text(),
    }
}

/// What the host's call that is asked for a reason returns.
pub fn reason_host(job: &[u8], number: u64) -> u64 {
    match stopped_job(job).map(|session| session.reason(number)) {
        Ok(Ok(reason)) => reason.returned(),
        Ok(Err(code)) => code,
        Err(refusal) => refusal.returned(),
    }
}
