//! Call lists for comparing: random ones of many shapes, and all short ones over a few calls. Of the
//! kinds `session` and `guide` a call goes into a list only if the model accepts it there, so every
//! list can be compared with the Rust. The kinds `session-refused` and `guide-refused` keep refused
//! calls in the list, add calls that are wrong on purpose, and narrow V and W; their adds have lanes, some
//! over 255. Deterministic: the numbers come from a seed.

use crate::model::{Guide, Lent, Location, Session};

/// Takes each finished run, as text.
type Sink<'a> = dyn FnMut(&[u8]) + 'a;

pub fn random(kind: &str, seed: u64, count: u64, sink: &mut Sink) {
    for i in 0..count {
        let mut numbers = Numbers(seed.wrapping_mul(1 << 32).wrapping_add(i));
        let run = match kind {
            "session" => random_session(&mut numbers, false),
            "session-refused" => random_session(&mut numbers, true),
            "guide" => random_guide(&mut numbers, false),
            "guide-refused" => random_guide(&mut numbers, true),
            _ => crate::fail(&format!("`{kind}` is no kind of run")),
        };
        sink(run.as_bytes());
    }
}

pub fn exhaustive(kind: &str, sink: &mut Sink) {
    match kind {
        "session" => {
            for p in 1..=2 {
                let opening = Opening {
                    p,
                    v: 3,
                    w: None,
                    traced: true,
                    refused: false,
                };
                all_sessions(&SessionLines::new(opening), 0, 4, sink);
            }
        }
        "guide" => {
            for p in 1..=3 {
                let opening = Opening {
                    p,
                    v: 64,
                    w: None,
                    traced: true,
                    refused: false,
                };
                all_guides(&GuideLines::new(opening), 0, 6, sink);
            }
        }
        _ => crate::fail(&format!("`{kind}` is neither session nor guide")),
    }
}

/// What a run is opened with.
#[derive(Clone, Copy)]
struct Opening {
    p: u64,
    v: u64,
    w: Option<u64>,
    traced: bool,
    /// Whether refused calls stay in the list.
    refused: bool,
}

/// Deterministic numbers (the generator known as splitmix64).
pub struct Numbers(pub u64);

impl Numbers {
    fn next(&mut self) -> u64 {
        self.0 = self.0.wrapping_add(0x9E37_79B9_7F4A_7C15);
        let mut mixed = self.0;
        mixed = (mixed ^ (mixed >> 30)).wrapping_mul(0xBF58_476D_1CE4_E5B9);
        mixed = (mixed ^ (mixed >> 27)).wrapping_mul(0x94D0_49BB_1331_11EB);
        mixed ^ (mixed >> 31)
    }

    pub fn below(&mut self, bound: u64) -> u64 {
        self.next() % bound
    }

    pub fn chance(&mut self, percent: u64) -> bool {
        self.below(100) < percent
    }

    pub fn choice<T: Copy>(&mut self, items: &[T]) -> T {
        items[self.below(items.len() as u64) as usize]
    }

    /// A lane that is accepted: any, or one at an end.
    pub fn lane(&mut self) -> u64 {
        match self.below(4) {
            0 => self.choice(&[0, 1, 254, 255]),
            _ => self.below(256),
        }
    }

    /// A lane that is refused: just over 255, or one whose lower bits are an accepted lane.
    pub fn wide_lane(&mut self) -> u64 {
        match self.below(3) {
            0 => self.choice(&[256, 257, u64::MAX - 1, u64::MAX]),
            _ => self.below(256) + self.choice(&[1 << 8, 1 << 16, 1 << 24, 1 << 32, 1 << 63]),
        }
    }

    /// Mostly small, now and then large.
    fn parallelism(&mut self) -> u64 {
        if self.chance(90) {
            1 + self.below(8)
        } else {
            self.choice(&[
                9, 12, 16, 31, 64, 127, 128, 129, 999, 1000, 5000, 32_768, 64_999,
            ])
        }
    }
}

// ---- Sessions

/// A call of a session.
#[derive(Clone)]
enum Call {
    Set(u64),
    /// Lane, inputs and outputs.
    Add(u64, Vec<u64>, Vec<u64>),
    Flush,
    Final,
}

/// A session with the calls that it accepted.
struct SessionLines {
    opening: Opening,
    session: Session,
    calls: Vec<Call>,
    text: String,
}

impl SessionLines {
    fn new(opening: Opening) -> Self {
        let Opening {
            p, v, w, traced, ..
        } = opening;
        let session = Session::open(p, v, &Lent::for_session(p, v, w.unwrap_or(u64::MAX)));
        let Ok(session) = session else {
            crate::fail("the opening was refused")
        };
        let w = w.map_or(String::new(), |w| format!(" {w}"));
        let text = format!(
            "session {p} {v}{w}\n{}",
            if traced { "trace\n" } else { "" }
        );
        Self {
            opening,
            session,
            calls: Vec::new(),
            text,
        }
    }

    /// The same session once more, by making its calls again.
    fn again(&self) -> Self {
        let mut again = Self::new(self.opening);
        for call in &self.calls {
            again.try_call(call.clone());
        }
        again
    }

    /// Makes the call, which stands in the list if the model accepts it, and says whether it did.
    fn try_call(&mut self, call: Call) -> bool {
        let (code, line) = match &call {
            Call::Set(place) => (self.session.set(*place), format!("set {place}\n")),
            Call::Add(lane, inputs, outputs) => (
                self.session.add(*lane, inputs, outputs),
                add_line(*lane, inputs, outputs),
            ),
            Call::Flush => (self.session.flush(), "flush\n".to_owned()),
            Call::Final => (
                self.session.final_flush().err().unwrap_or(0),
                "final\n".to_owned(),
            ),
        };
        if code == 0 || self.opening.refused {
            self.calls.push(call);
            self.text += &line;
        }
        code == 0
    }

    /// Ends the run: by final where that is accepted, else by a flush.
    fn end(mut self) -> String {
        if !self.try_call(Call::Final) {
            self.try_call(Call::Flush);
        }
        self.text + "end\n"
    }
}

/// An add as a line of a run; lane 0 goes without saying.
fn add_line(lane: u64, inputs: &[u64], outputs: &[u64]) -> String {
    let lane = match lane {
        0 => String::new(),
        _ => format!(" {lane}"),
    };
    format!("add {} {}{lane}\n", list_text(inputs), list_text(outputs))
}

fn list_text(list: &[u64]) -> String {
    match list {
        [] => "-".to_owned(),
        _ => list
            .iter()
            .map(|n| n.to_string())
            .collect::<Vec<_>>()
            .join(","),
    }
}

fn random_session(numbers: &mut Numbers, refused: bool) -> String {
    let v = match numbers.below(20) {
        0 => 1,
        1 => 100 + numbers.below(200),
        _ => 2 + numbers.below(40),
    };
    let w = refused.then(|| numbers.below(4 * v));
    let opening = Opening {
        p: numbers.parallelism(),
        v,
        w,
        traced: numbers.chance(50),
        refused,
    };
    let mut run = SessionLines::new(opening);
    // How this run looks: percentages of sets, flushes and absent inputs, and where places lie. With
    // inputs below outputs nothing waits for ever once the gaps are set.
    let below = numbers.chance(70);
    let (sets, flushes) = (numbers.below(60), numbers.choice(&[0, 2, 10, 40]));
    let absent = numbers.choice(&[2, 10, 30, 70]);
    let (outs, near) = (1 + numbers.below(3), numbers.choice(&[0, 50, 95]));
    let reach = numbers.choice(&[1, 1, 3, 8]);
    let direction = numbers.below(4);
    let steps = v + numbers.below(v);
    for step in 0..steps {
        let front = match direction {
            0 => run.session.leading.min(v - 1),
            1 => v - 1 - step * v / steps,
            2 => numbers.below(v),
            _ => step * v / steps,
        };
        if numbers.chance(flushes) {
            run.try_call(Call::Flush);
        }
        if numbers.chance(sets) {
            run.try_call(Call::Set(front));
            continue;
        }
        let mut inputs = Vec::new();
        while !numbers.chance(if inputs.is_empty() { absent } else { 50 }) {
            let close = front.saturating_sub(1 + numbers.below(reach));
            let bound = if below { front.max(1) } else { v };
            inputs.push(if numbers.chance(near) {
                close
            } else {
                numbers.below(bound)
            });
        }
        if below && front == 0 {
            inputs.clear();
        }
        let outputs = (front..v).take(numbers.below(outs + 1) as usize).collect();
        let lane = match refused {
            true if numbers.chance(5) => numbers.wide_lane(),
            true => numbers.lane(),
            false => 0,
        };
        run.try_call(Call::Add(lane, inputs, outputs));
        if refused && numbers.chance(20) {
            run.try_call(wrong_call(numbers, v));
        }
    }
    if numbers.chance(85) {
        for place in 0..v {
            run.try_call(Call::Set(if direction == 1 {
                v - 1 - place
            } else {
                place
            }));
        }
    }
    run.end()
}

/// A call that is likely to be refused: far places, flagged places, outputs twice, a lane over 255, an early final.
fn wrong_call(numbers: &mut Numbers, v: u64) -> Call {
    let list = |numbers: &mut Numbers| -> Vec<u64> {
        let far = [
            v,
            v + 1,
            v - 1,
            0,
            (1 << 48) - 1,
            1 << 48,
            1 << 62,
            1 << 63,
            u64::MAX,
        ];
        let length = numbers.below(4);
        let near = numbers.below(v);
        (0..length)
            .map(|_| {
                if numbers.chance(60) {
                    near
                } else {
                    numbers.choice(&far)
                }
            })
            .collect()
    };
    match numbers.below(10) {
        0 => Call::Final,
        1..=3 => Call::Set(list(numbers).first().copied().unwrap_or(v)),
        4 => Call::Add(numbers.wide_lane(), list(numbers), list(numbers)),
        _ => Call::Add(numbers.lane(), list(numbers), list(numbers)),
    }
}

/// Gives most adds of runs that have no lanes one of 0 to 255. All other lines, answers too, stay as they are.
pub fn label(lines: impl Iterator<Item = String>, seed: u64, sink: &mut Sink) {
    let mut numbers = Numbers(seed);
    for line in lines {
        let lane = match line.starts_with("add ") && numbers.chance(80) {
            true => format!(" {}", numbers.lane()),
            false => String::new(),
        };
        sink(format!("{line}{lane}\n").as_bytes());
    }
}

/// All lists of so many more calls over the places 0, 1, 2, with at most one input and one output
/// (and one add with two inputs). Shorter lists are their beginnings, which the trace shows.
fn all_sessions(run: &SessionLines, made: usize, depth: usize, sink: &mut Sink) {
    if made == depth {
        sink(run.again().end().as_bytes());
        return;
    }
    let some: [Vec<u64>; 4] = [vec![], vec![0], vec![1], vec![2]];
    let mut calls: Vec<Call> = (0..3).map(Call::Set).collect();
    for inputs in &some {
        for outputs in &some {
            calls.push(Call::Add(0, inputs.clone(), outputs.clone()));
        }
    }
    calls.push(Call::Add(0, vec![1, 0], vec![]));
    calls.push(Call::Flush);
    let mut any = false;
    for call in calls {
        let mut next = run.again();
        if next.try_call(call) {
            any = true;
            all_sessions(&next, made + 1, depth, sink);
        }
    }
    if !any {
        sink(run.again().end().as_bytes());
    }
}

// ---- The guide alone

#[derive(Clone, Copy)]
enum Step {
    Push(u64, u64, u64, Option<Location>),
    Flush,
}

struct GuideLines {
    opening: Opening,
    guide: Guide,
    steps: Vec<Step>,
    given: Vec<Location>,
    text: String,
}

impl GuideLines {
    fn new(opening: Opening) -> Self {
        let Opening { p, v, traced, .. } = opening;
        let lent = Lent::for_session(p, v, 0);
        let Ok(guide) = Guide::open(p, v, lent.spans, lent.order, lent.tally) else {
            crate::fail("the opening was refused")
        };
        let text = format!("guide {p} {v}\n{}", if traced { "trace\n" } else { "" });
        Self {
            opening,
            guide,
            steps: Vec::new(),
            given: Vec::new(),
            text,
        }
    }

    fn again(&self) -> Self {
        let mut again = Self::new(self.opening);
        for step in &self.steps {
            again.try_step(*step);
        }
        again
    }

    /// Makes the step, which stands in the list if the model accepts it.
    fn try_step(&mut self, step: Step) {
        let (accepted, line) = match step {
            Step::Push(value, added, accepted, after) => {
                let location = self.guide.push(value, added, accepted, after);
                let after = match after {
                    Some(Location { span, position }) => format!("{span},{position}"),
                    None => "-".to_owned(),
                };
                self.given.extend(location.ok());
                (
                    location.is_ok(),
                    format!("push {value} {added} {accepted} {after}\n"),
                )
            }
            Step::Flush => (self.guide.flush() == 0, "flush\n".to_owned()),
        };
        if accepted || self.opening.refused {
            self.text += &line;
            self.steps.push(step);
        }
    }
}

fn random_guide(numbers: &mut Numbers, refused: bool) -> String {
    let v = if refused { 1 + numbers.below(90) } else { 400 };
    let opening = Opening {
        p: numbers.parallelism(),
        v,
        w: None,
        traced: numbers.chance(50),
        refused,
    };
    let mut run = GuideLines::new(opening);
    let bound = numbers.choice(&[10, 1 << 32]);
    let (flushes, absent) = (
        numbers.choice(&[0, 1, 5, 20]),
        numbers.choice(&[1, 5, 20, 60]),
    );
    let recent = numbers.choice(&[30, 80, 100]);
    let reach = numbers.choice(&[1, 2, 4, 12]);
    for _ in 0..10 + numbers.below(90) {
        if numbers.chance(flushes) {
            run.try_step(Step::Flush);
        }
        let count = run.given.len() as u64;
        let after = if count == 0 || numbers.chance(absent) {
            None
        } else if refused && numbers.chance(20) {
            // Somewhere in or near the window, held or not.
            let span = run.guide.window.first + numbers.below(34);
            Some(Location {
                span,
                position: numbers.below(4),
            })
        } else if numbers.chance(recent) {
            Some(run.given[(count - 1 - numbers.below(reach.min(count))) as usize])
        } else if numbers.chance(50) {
            Some(numbers.choice(&run.given))
        } else if run.guide.window.first > 0 && numbers.chance(50) {
            let (span, position) = (numbers.below(run.guide.window.first), numbers.below(9));
            Some(Location { span, position })
        } else {
            Some(Location::default())
        };
        let (value, added, accepted) = (
            numbers.below(bound),
            numbers.below(bound),
            numbers.below(bound),
        );
        run.try_step(Step::Push(value, added, accepted, after));
    }
    if numbers.chance(70) {
        run.try_step(Step::Flush);
    }
    run.text + "end\n"
}

/// All lists of so many more steps: pushes after nothing, after (0,0) and after each value, and
/// flushes; at the end a flush.
fn all_guides(run: &GuideLines, made: usize, depth: usize, sink: &mut Sink) {
    if made == depth {
        let mut last = run.again();
        last.try_step(Step::Flush);
        sink((last.text + "end\n").as_bytes());
        return;
    }
    let mut afters = vec![None, Some(Location::default())];
    afters.extend(run.given.iter().map(|location| Some(*location)));
    let number = made as u64;
    let pushes = afters
        .into_iter()
        .map(|after| Step::Push(number, number, number, after));
    for step in pushes.chain([Step::Flush]) {
        let mut next = run.again();
        next.try_step(step);
        all_guides(&next, made + 1, depth, sink);
    }
}
