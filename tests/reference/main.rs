//! The reference model as a program. Standard input and output; FORMAT.md stands in oracle/.
//!
//!   reference runs              runs in the oracle's format, printed again with the model's answers
//!   reference job               a job, answered as the program answers it
//!   reference host LENT         a job, answered as the host's call does with LENT listing bytes: the
//!                               returned number on a line, then the listing
//!   reference needs             a job: what it needs by its text alone, or its refusal; and what it used,
//!                               where it is accepted
//!   reference reason NUMBER     a job, answered as the program that is asked for a registration's reason answers it
//!   reference label SEED        runs, printed again with lanes of 0 to 255 on most adds; answers stay beside them
//!   reference random KIND SEED COUNT
//!                               random runs, KIND session, guide, session-refused, guide-refused
//!   reference exhaustive KIND   all short runs, KIND session or guide
//!   reference jobs SEED COUNT   jobs with the model's answers (jobs.rs says how they look)
//!   reference floors            jobs by which floors are told apart, with the model's answers (floors.rs)
//!
//! Status 2 and a message on standard error: a malformed line or a wrong use.

mod floors;
mod generate;
mod jobs;
#[allow(dead_code)] // how storage has entries and rows is for the tests of storage
mod model;

use model::{Ascending, Code, Entry, Guide, Lent, Location, Needs, Session, Summary, Window, SPANS};
use std::fmt::{Display, Write as _};
use std::io::{Read, Write};
use std::process::exit;

fn main() {
    let arguments: Vec<String> = std::env::args().skip(1).collect();
    let words: Vec<&str> = arguments.iter().map(|word| word.as_str()).collect();
    let mut out = std::io::BufWriter::with_capacity(1 << 16, std::io::stdout());
    match words[..] {
        ["runs"] => answer_runs(&mut out),
        ["job"] => put(&mut out, &model::program(&read_input())),
        ["host", lent] => {
            let (returned, listing) = model::host(&read_input(), plain(lent) as usize);
            put(&mut out, format!("{returned}\n").as_bytes());
            put(&mut out, &listing);
        }
        ["needs"] => put(&mut out, needs_text(&read_input()).as_bytes()),
        ["reason", number] => put(&mut out, model::reason_program(&read_input(), plain(number)).as_bytes()),
        ["label", seed] => {
            generate::label(input_lines(), plain(seed), &mut |line| put(&mut out, line))
        }
        ["random", kind, seed, count] => {
            generate::random(kind, plain(seed), plain(count), &mut |run| put(&mut out, run))
        }
        ["jobs", seed, count] => {
            jobs::cases(plain(seed), plain(count), &mut |case| put(&mut out, case))
        }
        ["floors"] => floors::cases(&mut |case| put(&mut out, case)),
        ["exhaustive", kind] => generate::exhaustive(kind, &mut |run| put(&mut out, run)),
        _ => fail("use: runs | job | host LENT | needs | reason NUMBER | label SEED | random KIND SEED COUNT | exhaustive KIND | jobs SEED COUNT | floors"),
    }
    let _ = out.flush();
}

fn fail(message: &str) -> ! {
    eprintln!("reference: {message}");
    exit(2)
}

fn plain(word: &str) -> u64 {
    word.parse()
        .unwrap_or_else(|_| fail(&format!("`{word}` is no number")))
}

fn read_input() -> Vec<u8> {
    let mut input = Vec::new();
    if let Err(error) = std::io::stdin().read_to_end(&mut input) {
        fail(&format!("the input can't be read: {error}"));
    }
    input
}

/// Line by line, since runs with answers may be long.
fn input_lines() -> impl Iterator<Item = String> {
    let lines = std::io::stdin().lines();
    lines
        .map(|line| line.unwrap_or_else(|error| fail(&format!("the input can't be read: {error}"))))
}

fn put(out: &mut impl Write, bytes: &[u8]) {
    if out.write_all(bytes).is_err() {
        exit(1)
    }
}

/// Registrations, list numbers, plain flushes and the ceiling on spans; after a run the spans released.
fn needs_text(job: &[u8]) -> String {
    let line = |word, needs: &Needs, spans: u64| {
        let Needs {
            registrations,
            list_numbers,
            flushes,
        } = needs;
        format!("{word} {registrations} {list_numbers} {flushes} {spans}\n")
    };
    match model::job_needs(job) {
        Ok(needs) => {
            let used = model::finish_job(job)
                .map(|(session, _)| line("used", &session.used(), session.window.first));
            line("needs", &needs, needs.ceiling()) + &used.unwrap_or_default()
        }
        Err(refusal) => refusal.text(),
    }
}

// ---- Runs

/// What a run opened, or the code with which that was refused.
enum Opened {
    Session(Session, Option<Summary>),
    Ascending(Ascending, Option<Summary>),
    Guide(Guide, Vec<Location>),
    Refused(Code),
}

struct Run {
    opened: Opened,
    traced: bool,
    /// Whether an accepted add has a lane beside it.
    labelled: bool,
    calls: usize,
    /// The index and code of each refused call.
    refused: Vec<(usize, Code)>,
}

fn answer_runs(out: &mut impl Write) {
    let input = String::from_utf8(read_input()).unwrap_or_else(|_| fail("the input is no text"));
    let mut run: Option<Run> = None;
    let mut text = String::new();
    for (i, line) in input.lines().enumerate() {
        if line.starts_with('=') {
            continue;
        }
        let comment = line.is_empty() || line.starts_with('#');
        if line != "end" {
            let _ = writeln!(text, "{line}");
        }
        if !comment {
            let done = answer_line(line, &mut run, &mut text);
            done.unwrap_or_else(|message| fail(&format!("line {}: {message}", i + 1)));
        }
        put(out, text.as_bytes());
        text.clear();
    }
    if run.is_some() {
        fail("the last run has no `end`");
    }
}

fn answer_line(line: &str, run: &mut Option<Run>, text: &mut String) -> Result<(), String> {
    let words: Vec<&str> = line.split(' ').collect();
    match (run.as_mut(), &words[..]) {
        (None, _) => *run = Some(open(&words)?),
        (Some(open), ["trace"]) if open.calls == 0 => open.traced = true,
        (Some(open), ["end"]) => {
            for answer in end(open) {
                let _ = writeln!(text, "= {answer}");
            }
            text.push_str("end\n");
            *run = None;
        }
        (Some(open), _) => {
            let (code, answer) = call(&mut open.opened, &words)?;
            open.labelled |= code == 0 && matches!(words[..], ["add", _, _, _]);
            if code != 0 {
                open.refused.push((open.calls, code));
            }
            open.calls += 1;
            if open.traced && !matches!(open.opened, Opened::Refused(_)) {
                let _ = writeln!(text, "= at {code} {answer}");
            }
        }
    }
    Ok(())
}

fn open(words: &[&str]) -> Result<Run, String> {
    let opened = match words {
        ["session", p, v, w @ ..] if w.len() <= 1 => {
            let (p, v) = (number(p)?, number(v)?);
            let pool = w.first().map_or(Ok(u64::MAX), |w| number(w))?;
            match Session::open(p, v, &Lent::for_session(p, v, pool)) {
                Ok(session) => Opened::Session(session, None),
                Err(code) => Opened::Refused(code),
            }
        }
        ["ascending", p, v, w @ ..] if w.len() <= 1 => {
            let (p, v) = (number(p)?, number(v)?);
            let w = w.first().map_or(Ok(u64::MAX), |w| number(w))?;
            match Ascending::open(p, v, &Lent::for_session(p, v, w)) {
                Ok(ascending) => Opened::Ascending(ascending, None),
                Err(code) => Opened::Refused(code),
            }
        }
        ["guide", p, v] => {
            let (p, v) = (number(p)?, number(v)?);
            let lent = Lent::for_session(p, v, 0);
            match Guide::open(p, v, lent.spans, lent.order, lent.tally) {
                Ok(guide) => Opened::Guide(guide, Vec::new()),
                Err(code) => Opened::Refused(code),
            }
        }
        _ => return Err(format!("`{}` opens no run", words.join(" "))),
    };
    Ok(Run {
        opened,
        traced: false,
        labelled: false,
        calls: 0,
        refused: Vec::new(),
    })
}

/// Makes a call and says how things stand after it.
fn call(opened: &mut Opened, words: &[&str]) -> Result<(Code, String), String> {
    match opened {
        Opened::Session(session, summary) => {
            let code = match session_call(words)? {
                SessionCall::Set(place) => session.set(place),
                SessionCall::Add(lane, inputs, outputs) => session.add(lane, &inputs, &outputs),
                SessionCall::Flush => session.flush(),
                SessionCall::Final => closed(session.final_flush(), summary),
            };
            Ok((code, standing(session)))
        }
        Opened::Ascending(ascending, summary) => {
            let code = match session_call(words)? {
                SessionCall::Set(place) => ascending.set(place),
                SessionCall::Add(lane, inputs, outputs) => ascending.add(lane, &inputs, &outputs),
                SessionCall::Flush => ascending.flush(),
                SessionCall::Final => closed(ascending.final_flush(), summary),
            };
            Ok((code, standing(&ascending.session)))
        }
        Opened::Guide(guide, locations) => {
            let (code, location) = match words {
                ["push", value, added, accepted, after] => {
                    let (value, added, accepted) =
                        (number(value)?, number(added)?, number(accepted)?);
                    match guide.push(value, added, accepted, location(after)?) {
                        Ok(location) => {
                            locations.push(location);
                            (0, pair(&location))
                        }
                        Err(code) => (code, "-".to_owned()),
                    }
                }
                ["flush"] => (guide.flush(), "-".to_owned()),
                _ => return Err(format!("`{}` is no call of the guide", words.join(" "))),
            };
            let length = guide.window.order.len();
            Ok((
                code,
                format!("{location} {length} {}", window(&guide.window)),
            ))
        }
        Opened::Refused(_) => Ok((0, String::new())),
    }
}

/// A call of a session, ordinary or ascending.
enum SessionCall {
    Set(u64),
    Add(u64, Vec<u64>, Vec<u64>),
    Flush,
    Final,
}

fn session_call(words: &[&str]) -> Result<SessionCall, String> {
    Ok(match words {
        ["set", place] => SessionCall::Set(number(place)?),
        ["add", inputs, outputs, lane @ ..] if lane.len() <= 1 => {
            let lane = lane.first().map_or(Ok(0), |lane| number(lane))?;
            SessionCall::Add(lane, list(inputs)?, list(outputs)?)
        }
        ["flush"] => SessionCall::Flush,
        ["final"] => SessionCall::Final,
        _ => return Err(format!("`{}` is no call of a session", words.join(" "))),
    })
}

/// The number of a final, whose summary is kept.
fn closed(done: Result<Summary, Code>, summary: &mut Option<Summary>) -> Code {
    match done {
        Ok(given) => {
            *summary = Some(given);
            0
        }
        Err(code) => code,
    }
}

/// The order's length, the mark and the window.
fn standing(session: &Session) -> String {
    let length = session.window.order.len();
    format!("{length} {} {}", mark(session), window(&session.window))
}

/// The answers before `end`.
fn end(run: &Run) -> Vec<String> {
    let refused = line(
        "refused",
        run.refused
            .iter()
            .map(|(call, code)| format!("{call},{code}")),
    );
    match &run.opened {
        Opened::Session(session, summary)
        | Opened::Ascending(Ascending { session }, summary) => {
            let window = &session.window;
            let mut answers = vec![refused, order(window), rows(session), places(session)];
            answers.push(format!("mark {}", mark(session)));
            answers.push(waiting(session));
            answers.extend(held(window));
            if run.labelled {
                answers.extend(lanes(session));
            }
            if let Some(summary) = summary {
                answers.push(format!("final {} {}", session.rows.len(), session.leading));
                answers.push(format!("average {}", summary.average));
                answers.push(format!("median {}", summary.median));
                answers.push(counts("low", &summary.low));
                answers.push(counts("thousands", &summary.thousands));
            }
            answers
        }
        Opened::Guide(guide, locations) => {
            let locations = line("locations", locations.iter().map(pair));
            let mut answers = vec![refused, locations, order(&guide.window)];
            answers.extend(held(&guide.window));
            answers
        }
        Opened::Refused(code) => vec![format!("refused open,{code}")],
    }
}

// ---- Words of the format

fn line<T: Display>(word: &str, items: impl Iterator<Item = T>) -> String {
    let mut text = word.to_owned();
    for item in items {
        let _ = write!(text, " {item}");
    }
    text
}

fn pair(location: &Location) -> String {
    format!("{},{}", location.span, location.position)
}

fn mark(session: &Session) -> String {
    match session.leading {
        0 => "-".to_owned(),
        leading => (leading - 1).to_string(),
    }
}

fn window(window: &Window) -> String {
    let filled = (0..SPANS)
        .rev()
        .find(|&i| !window.spans[i].is_empty())
        .map_or(0, |i| i + 1);
    line(
        &window.first.to_string(),
        window.spans[..filled].iter().map(|span| span.len()),
    )
}

fn order(window: &Window) -> String {
    line(
        "order",
        window.order.iter().map(|entry| {
            let Entry {
                value,
                added,
                accepted,
                parallelism,
                ..
            } = entry;
            format!("{value},{added},{accepted},{parallelism}")
        }),
    )
}

fn rows(session: &Session) -> String {
    line(
        "rows",
        session.rows.iter().map(|row| {
            let model::Row {
                added,
                accepted,
                written,
                index,
                parallelism,
                ..
            } = row;
            format!("{added},{accepted},{written},{index},{parallelism}")
        }),
    )
}

fn places(session: &Session) -> String {
    let tracked = session
        .places
        .iter()
        .enumerate()
        .filter(|(_, p)| p.mark != model::UNTRACKED);
    line(
        "places",
        tracked.map(|(number, place)| format!("{number},{},{}", place.mark, pair(&place.location))),
    )
}

fn waiting(session: &Session) -> String {
    line(
        "waiting",
        session.waiting.iter().map(|(place, registrations)| {
            registrations
                .iter()
                .fold(place.to_string(), |text, number| format!("{text},{number}"))
        }),
    )
}

/// The tally, the window and its entries.
fn held(shown: &Window) -> [String; 3] {
    let entries = shown.spans.iter().flatten();
    [
        counts("tally", &shown.tally),
        format!("window {}", window(shown)),
        line(
            "held",
            entries.map(|e| format!("{},{},{}", e.value, e.added, e.accepted)),
        ),
    ]
}

/// The lanes of the order's entries, of the rows and of the window's entries.
fn lanes(session: &Session) -> [String; 3] {
    let window = &session.window;
    [
        line("order-lanes", window.order.iter().map(|entry| entry.lane)),
        line("row-lanes", session.rows.iter().map(|row| row.lane)),
        line(
            "held-lanes",
            window.spans.iter().flatten().map(|entry| entry.lane),
        ),
    ]
}

fn counts(word: &str, counts: &[u64]) -> String {
    let some = counts.iter().enumerate().filter(|(_, count)| **count != 0);
    line(word, some.map(|(i, count)| format!("{i},{count}")))
}

fn number(word: &str) -> Result<u64, String> {
    let digits = !word.is_empty() && word.bytes().all(|byte| byte.is_ascii_digit());
    digits
        .then(|| word.parse().ok())
        .flatten()
        .ok_or(format!("`{word}` is no number"))
}

fn list(word: &str) -> Result<Vec<u64>, String> {
    match word {
        "-" => Ok(Vec::new()),
        _ => word.split(',').map(number).collect(),
    }
}

fn location(word: &str) -> Result<Option<Location>, String> {
    if word == "-" {
        return Ok(None);
    }
    let (span, position) = word
        .split_once(',')
        .ok_or(format!("`{word}` is no location"))?;
    Ok(Some(Location {
        span: number(span)?,
        position: number(position)?,
    }))
}
