//! Reasons beside what the Rust keeps: under which place a registration waits is its greatest input, and the mark plus 1
//! is the lowest untracked place. The Rust's answers stand beside the calls (oracle/FORMAT.md).

use crate::buffers::encode;
use crate::fail;
use crate::model::Reason;
use crate::polled::Asking;
use crate::text::{run_text, Reader, Run};
use std::io::BufRead;

/// Asks for every registration of the sessions of a text on standard input.
pub fn check() -> Result<String, String> {
    let (mut reader, mut asking) = (Reader::of("session"), Asking::new());
    let [mut lists, mut asked, mut waiting] = [0; 3];
    for line in std::io::stdin().lock().lines() {
        let line = line.unwrap_or_else(|error| fail(&format!("the input can't be read: {error}")));
        let Some(run) = reader.take(&line).unwrap_or_else(|error| fail(&error)) else {
            continue;
        };
        let wanted = wanted(&run).ok_or_else(|| format!("no answers beside the run at line {}", run.line))?;
        let (numbers, _) = encode(&run.list.calls);
        for (r, wanted) in wanted.iter().enumerate() {
            let found = asking.ask(&run.list, &numbers, r as u64);
            if found != *wanted {
                let text = run_text(&run.list, false);
                return Err(format!("line {}, registration {r}: {found}, not {wanted}\n{text}", run.line));
            }
            asked += 1;
            waiting += u64::from(found % 64 == 0);
        }
        lists += 1;
    }
    if waiting == 0 {
        return Err("no registration of the text waits".to_owned());
    }
    Ok(format!("{lists} lists that the Rust answered, asked {asked} times: as it keeps who waits, {waiting} of them"))
}

/// What is to be returned for each registration, and for one past them; nothing where no answers stand beside the calls.
fn wanted(run: &Run) -> Option<Vec<u64>> {
    let told = run.told.as_ref()?;
    let end = told.end.as_ref()?;
    let accepted = |call: usize| told.codes.as_ref().is_none_or(|codes| codes[call] == 0);
    let adds = run.list.calls.iter().enumerate().filter(|(i, call)| call.lists().is_some() && accepted(*i));
    let mut wanted = vec![20; adds.count()];
    for (input, registrations) in &end.waiting {
        let reason = Reason { input: *input, place: end.leading };
        for r in registrations {
            wanted[*r as usize] = reason.returned();
        }
    }
    wanted.push(19);
    Some(wanted)
}
