//! The oracle: reads runs (FORMAT.md) on standard input, makes their calls on the Rust, and prints
//! each run again with the answers beside it. This file reads the format; `runs` makes the calls.
//! Status 2: a malformed line, named on standard error. Status 3: the Rust panicked in some run.

#![feature(trait_alias, ptr_metadata, vec_push_within_capacity)]

use std::io::{Read, Write};
use std::process::exit;

#[macro_use]
pub mod log_utils;
pub mod config;
pub mod cs;
pub mod dag;
pub mod field;
pub mod utils;

use dag::resolvers::runs::{Guide, Run, Session, Spans};

/// One call of a run.
pub enum Call {
    Set(u64),
    Add(Vec<u64>, Vec<u64>),
    Push {
        value: u32,
        added: u32,
        accepted: u32,
        after: Option<(u32, u32)>,
    },
    Acquire(Option<u32>),
    Flush,
    Final,
    Finalize,
}

/// A run as it stands in the text: its lines without answers, and what they say.
struct Text<'a> {
    lines: Vec<&'a str>,
    open: Open,
    traced: bool,
    /// Each call with the index of its line.
    calls: Vec<(usize, Call)>,
}

enum Open {
    Session { parallelism: u32, places: usize },
    Guide { parallelism: u32 },
    Spans { parallelism: u32 },
}

fn main() {
    let mut input = String::new();
    if let Err(error) = std::io::stdin().read_to_string(&mut input) {
        fail(0, &format!("the input can't be read: {error}"));
    }
    std::panic::set_hook(Box::new(|_| {}));

    let mut out = std::io::BufWriter::with_capacity(1 << 16, std::io::stdout());
    let mut panicked = false;
    let mut lines = input.lines().enumerate().map(|(i, line)| (i + 1, line));
    while let Some((number, line)) = lines.next() {
        if is_answer(line) {
            continue;
        }
        if is_comment(line) {
            put(&mut out, line);
            continue;
        }
        let text = read_run(number, line, &mut lines).unwrap_or_else(|(number, message)| {
            let _ = out.flush();
            fail(number, &message)
        });
        panicked |= answer_run(&text, &mut out);
    }
    let _ = out.flush();
    exit(if panicked { 3 } else { 0 });
}

fn fail(number: usize, message: &str) -> ! {
    eprintln!("oracle: line {number}: {message}");
    exit(2)
}

fn put(out: &mut impl Write, line: &str) {
    if writeln!(out, "{line}").is_err() {
        exit(1)
    }
}

fn is_answer(line: &str) -> bool {
    line.starts_with('=')
}

fn is_comment(line: &str) -> bool {
    line.is_empty() || line.starts_with('#')
}

/// Makes the run's calls and prints its lines with the answers; says whether the Rust panicked.
/// The answers come first into a text of their own, so that a panic leaves whole lines.
fn answer_run(text: &Text, out: &mut impl Write) -> bool {
    let mut answers: Vec<(usize, String)> = Vec::new();
    let made = std::panic::catch_unwind(std::panic::AssertUnwindSafe(|| match text.open {
        Open::Session {
            parallelism,
            places,
        } => make_calls(Session::new(parallelism, places), text, &mut answers),
        Open::Guide { parallelism } => make_calls(Guide::new(parallelism), text, &mut answers),
        Open::Spans { parallelism } => make_calls(Spans::new(parallelism), text, &mut answers),
    }));
    if let Err(payload) = &made {
        let message = payload
            .downcast_ref::<String>()
            .map(|text| text.as_str())
            .or(payload.downcast_ref::<&str>().copied())
            .unwrap_or("no message");
        let first = message.lines().next().unwrap_or("");
        answers.push((text.lines.len() - 1, format!("panic {first}")));
    }

    let mut answers = answers.iter().peekable();
    for (i, line) in text.lines.iter().enumerate() {
        // Answers to the whole run stand before its `end`.
        if i + 1 < text.lines.len() {
            put(out, line);
        }
        while let Some((_, answer)) = answers.next_if(|(at, _)| *at == i) {
            put(out, &format!("= {answer}"));
        }
    }
    put(out, "end");
    made.is_err()
}

fn make_calls<R: Run>(mut run: R, text: &Text, answers: &mut Vec<(usize, String)>) {
    for (line, call) in &text.calls {
        let answer = run.call(call);
        if text.traced {
            answers.push((*line, format!("at 0 {answer}")));
        }
    }
    let last = text.lines.len() - 1;
    answers.push((last, "refused".to_owned()));
    answers.extend(run.end().into_iter().map(|answer| (last, answer)));
}

type Problem = (usize, String);

/// Reads a run from its opening line to its `end`.
fn read_run<'a>(
    number: usize,
    opening: &'a str,
    lines: &mut impl Iterator<Item = (usize, &'a str)>,
) -> Result<Text<'a>, Problem> {
    let open = read_open(opening).map_err(|message| (number, message))?;
    let mut text = Text {
        lines: vec![opening],
        open,
        traced: false,
        calls: Vec::new(),
    };
    let mut closed = false;
    for (number, line) in lines {
        if is_answer(line) {
            continue;
        }
        text.lines.push(line);
        if is_comment(line) {
            continue;
        }
        match line {
            "end" => return Ok(text),
            "trace" if text.calls.is_empty() => text.traced = true,
            "trace" => return Err((number, "`trace` stands before the first call".to_owned())),
            _ if closed => return Err((number, "a call after `final`".to_owned())),
            _ => {
                let call = read_call(&text.open, line).map_err(|message| (number, message))?;
                closed = matches!(call, Call::Final);
                text.calls.push((text.lines.len() - 1, call));
            }
        }
    }
    Err((number, "this run has no `end`".to_owned()))
}

fn read_open(line: &str) -> Result<Open, String> {
    let words: Vec<&str> = line.split(' ').collect();
    match words[..] {
        ["session", p, v] | ["session", p, v, _] => {
            if let Some(w) = words.get(3) {
                number(w, 0, u64::MAX)?;
            }
            Ok(Open::Session {
                parallelism: parallelism(p)?,
                places: places(v)?,
            })
        }
        ["guide", p, v] => {
            places(v)?;
            Ok(Open::Guide {
                parallelism: parallelism(p)?,
            })
        }
        ["spans", p] => Ok(Open::Spans {
            parallelism: parallelism(p)?,
        }),
        _ => Err(format!(
            "`{}` opens no run: `session P V`, `session P V W`, `guide P V` or `spans P` expected",
            shortened(line)
        )),
    }
}

fn parallelism(word: &str) -> Result<u32, String> {
    Ok(number(word, 1, 64_999)? as u32)
}

fn places(word: &str) -> Result<usize, String> {
    Ok(number(word, 1, 1 << 24)? as usize)
}

fn read_call(open: &Open, line: &str) -> Result<Call, String> {
    let words: Vec<&str> = line.split(' ').collect();
    let u32s = |word| number(word, 0, u32::MAX as u64).map(|n| n as u32);
    match (open, &words[..]) {
        (Open::Session { .. }, ["set", place]) => Ok(Call::Set(number(place, 0, u64::MAX)?)),
        (Open::Session { .. }, ["add", ins, outs]) => Ok(Call::Add(list(ins)?, list(outs)?)),
        (Open::Session { .. }, ["flush"]) | (Open::Guide { .. }, ["flush"]) => Ok(Call::Flush),
        (Open::Session { .. }, ["final"]) => Ok(Call::Final),
        (Open::Guide { .. }, ["push", value, added, accepted, after]) => Ok(Call::Push {
            value: u32s(value)?,
            added: u32s(added)?,
            accepted: u32s(accepted)?,
            after: location(after)?,
        }),
        (Open::Spans { .. }, ["acquire", "-"]) => Ok(Call::Acquire(None)),
        (Open::Spans { .. }, ["acquire", after]) => Ok(Call::Acquire(Some(u32s(after)?))),
        (Open::Spans { .. }, ["finalize"]) => Ok(Call::Finalize),
        _ => Err(format!("`{}` is no call of this run", shortened(line))),
    }
}

fn location(word: &str) -> Result<Option<(u32, u32)>, String> {
    if word == "-" {
        return Ok(None);
    }
    let (span, position) = word
        .split_once(',')
        .ok_or_else(|| format!("`{}` is no location: SPAN,POSITION or -", shortened(word)))?;
    let part = |word| number(word, 0, u32::MAX as u64).map(|n| n as u32);
    Ok(Some((part(span)?, part(position)?)))
}

fn list(word: &str) -> Result<Vec<u64>, String> {
    if word == "-" {
        return Ok(Vec::new());
    }
    word.split(',')
        .map(|item| number(item, 0, u64::MAX))
        .collect()
}

fn number(word: &str, least: u64, most: u64) -> Result<u64, String> {
    let plain = !word.is_empty() && word.bytes().all(|byte| byte.is_ascii_digit());
    let value = if plain {
        word.parse::<u64>().ok()
    } else {
        None
    };
    match value {
        Some(value) if least <= value && value <= most => Ok(value),
        Some(_) => Err(format!("{word} is not in {least}..{most}")),
        None => Err(format!("`{}` is no number", shortened(word))),
    }
}

fn shortened(text: &str) -> String {
    match text.char_indices().nth(60) {
        Some((at, _)) => format!("{}...", &text[..at]),
        None => text.to_owned(),
    }
}
