//! Runs in the text of oracle/FORMAT.md, with the answers of another program if there are any.

use crate::lists::{List, Step, Told};
use crate::Call;
use crate::state::State;
use crate::summary::{Numbers, COUNTS, THOUSANDS};
use std::fmt::Write;

/// A run of a session as it stands in the text.
pub struct Run {
    /// The line of its opening.
    pub line: usize,
    pub list: List,
    /// Nothing, where no answers stand beside the calls.
    pub told: Option<Told>,
}

/// Reads a text line by line; runs that open something else are passed over.
pub struct Reader {
    opening: &'static str,
    line: usize,
    run: Option<Run>,
    passed_over: bool,
}

impl Reader {
    /// Of runs that this word opens: `session` or `ascending`.
    pub fn of(opening: &'static str) -> Self {
        Self {
            opening,
            line: 0,
            run: None,
            passed_over: false,
        }
    }

    /// Takes the next line; with the last line of a run, gives the run.
    pub fn take(&mut self, line: &str) -> Result<Option<Run>, String> {
        self.line += 1;
        if line.is_empty() || line.starts_with('#') {
            return Ok(None);
        }
        let words: Vec<&str> = line.split(' ').collect();
        if self.passed_over {
            self.passed_over = words[..] != ["end"];
            return Ok(None);
        }
        match (&mut self.run, &words[..]) {
            (None, [opening, p, v, w @ ..]) if *opening == self.opening && w.len() <= 1 => {
                let list = List {
                    p: number(p)?,
                    v: number(v)?,
                    w: w.first().map(|w| number(w)).transpose()?,
                    calls: Vec::new(),
                };
                self.run = Some(Run {
                    line: self.line,
                    list,
                    told: None,
                });
            }
            (None, ["session" | "ascending" | "guide" | "spans", ..]) => self.passed_over = true,
            (None, _) => return Err(format!("`{line}` opens no run")),
            (Some(run), ["=", answer @ ..]) => {
                let told = run.told.get_or_insert_with(Told::default);
                take_answer(told, run.list.calls.len(), answer)?;
            }
            (Some(_), ["trace"]) => {}
            (Some(_), ["end"]) => return Ok(self.run.take()),
            (Some(run), words) => run.list.calls.push(call(words)?),
        }
        Ok(None)
    }
}

fn call(words: &[&str]) -> Result<Call, String> {
    Ok(match words {
        ["set", place] => Call::Set(number(place)?),
        ["add", inputs, outputs] => Call::Add(list(inputs)?, list(outputs)?),
        ["add", inputs, outputs, lane] => {
            Call::AddInLane(number(lane)?, list(inputs)?, list(outputs)?)
        }
        ["flush"] => Call::Flush,
        ["final"] => Call::Final,
        _ => return Err(format!("`{}` is no call", words.join(" "))),
    })
}

fn take_answer(told: &mut Told, calls: usize, answer: &[&str]) -> Result<(), String> {
    let Some((word, rest)) = answer.split_first() else {
        return Err("an empty answer".to_owned());
    };
    match *word {
        "at" => {
            let [code, order_length, mark, _first, lengths @ ..] = rest else {
                return Err("a short line `at`".to_owned());
            };
            told.steps.push(Step {
                call: calls - 1,
                code: number(code)?,
                order_length: number(order_length)?,
                leading: leading(mark)?,
                lengths: numbers(lengths)?,
            });
            return Ok(());
        }
        "refused" => {
            let mut codes = vec![0; calls];
            for pair in rest {
                match pair.split_once(',').ok_or("a refusal without its number")? {
                    ("open", code) => told.opening = Some(number(code)?),
                    (call, code) => codes[number(call)? as usize] = number(code)?,
                }
            }
            told.codes = Some(codes);
            return Ok(());
        }
        "panic" => return Err(format!("the other program panicked: {}", rest.join(" "))),
        _ => {}
    }
    let end = told.end.get_or_insert_with(State::default);
    match *word {
        "order" => end.order = tuples(rest)?,
        "rows" => end.rows = tuples(rest)?,
        "places" => end.places = tuples(rest)?,
        "mark" => end.leading = leading(rest.first().ok_or("no mark")?)?,
        "waiting" => {
            for tuple in rest {
                let mut under = list(tuple)?;
                end.waiting.push((under.remove(0), under));
            }
        }
        "tally" => {
            end.tally = tuples(rest)?
                .into_iter()
                .map(|[p, count]| (p, count))
                .collect()
        }
        "window" => end.lengths = numbers(rest.get(1..).unwrap_or_default())?,
        "held" => {
            let still = |[value, added, accepted]: [u64; 3]| [value, added, accepted, 0];
            end.held = tuples(rest)?.into_iter().map(still).collect()
        }
        // They follow the lines that they belong to.
        "order-lanes" => end.label(|end| &mut end.order, &numbers(rest)?)?,
        "row-lanes" => end.label(|end| &mut end.rows, &numbers(rest)?)?,
        "held-lanes" => end.label(|end| &mut end.held, &numbers(rest)?)?,
        // How many registrations and places there are stands in the session, which no host sees.
        "final" => {}
        "average" | "median" | "low" | "thousands" => {
            let summary = end.summary.get_or_insert([0; 195]);
            take_summary(summary, word, rest)?;
        }
        _ => return Err(format!("`{word}` is no answer")),
    }
    Ok(())
}

/// One line of the summary, put where `order_summary` has it.
fn take_summary(summary: &mut Numbers, word: &str, rest: &[&str]) -> Result<(), String> {
    let from = match word {
        "average" | "median" => {
            let at = usize::from(word == "median");
            summary[at] = number(rest.first().ok_or("no number")?)? as u32;
            return Ok(());
        }
        "low" => COUNTS,
        _ => THOUSANDS,
    };
    for [at, count] in tuples(rest)? {
        summary[from + at as usize] = count as u32;
    }
    Ok(())
}

/// The mark plus 1, or 0 for none.
fn leading(mark: &str) -> Result<u64, String> {
    match mark {
        "-" => Ok(0),
        _ => Ok(number(mark)? + 1),
    }
}

fn number(word: &str) -> Result<u64, String> {
    word.parse().map_err(|_| format!("`{word}` is no number"))
}

fn numbers(words: &[&str]) -> Result<Vec<u64>, String> {
    words.iter().map(|word| number(word)).collect()
}

fn list(word: &str) -> Result<Vec<u64>, String> {
    match word {
        "-" => Ok(Vec::new()),
        _ => word.split(',').map(number).collect(),
    }
}

fn tuples<const N: usize>(words: &[&str]) -> Result<Vec<[u64; N]>, String> {
    let tuple = |word: &&str| {
        list(word)?
            .try_into()
            .map_err(|_| format!("`{word}` has not {N} numbers"))
    };
    words.iter().map(tuple).collect()
}

/// A list of calls as a run without answers.
pub fn run_text(list: &List, traced: bool) -> String {
    let mut text = format!("session {} {}", list.p, list.v);
    if let Some(w) = list.w {
        let _ = write!(text, " {w}");
    }
    text += if traced { "\ntrace\n" } else { "\n" };
    for call in &list.calls {
        text += &match call {
            Call::Set(place) => format!("set {place}\n"),
            Call::Add(inputs, outputs) => {
                format!("add {} {}\n", list_text(inputs), list_text(outputs))
            }
            Call::AddInLane(lane, inputs, outputs) => {
                format!("add {} {} {lane}\n", list_text(inputs), list_text(outputs))
            }
            Call::Flush => "flush\n".to_owned(),
            Call::Final => "final\n".to_owned(),
        };
    }
    text + "end\n"
}

fn list_text(list: &[u64]) -> String {
    let words: Vec<String> = list.iter().map(|number| number.to_string()).collect();
    match words.is_empty() {
        true => "-".to_owned(),
        false => words.join(","),
    }
}
