//! How long `replay_reason` takes beside `replay_calls`, on a list of the benchmark's with a registration after it that has
//! as many inputs as it may and waits. A figure is the least of several runs, which take turns.

use crate::buffers::{encode, Buffers, Lent, Short};
use crate::polled::Asking;
use crate::workloads::{workload, Size};
use crate::Call;
use std::time::{Duration, Instant};

const PARALLELISM: u64 = 1_024;
const INPUTS: u64 = 65_535;
const REPETITIONS: usize = 9;

pub fn measure(places: u64) -> Result<String, String> {
    let size = Size { places: places as usize - 1, waiting: 0 };
    let made = workload("forward", size).ok_or("the benchmark has no such list")?;
    // its final is the last number; the last place stays untracked
    let mut calls = made.calls[..made.calls.len() - 1].to_vec();
    let inputs: Vec<u64> = (places.saturating_sub(INPUTS)..places).collect();
    let (pooled, count) = (made.pooled + inputs.len(), inputs.len());
    calls.extend(encode(&[Call::Add(inputs, vec![]), Call::Final]).0);
    let (waits, v) = (made.registrations as u64, places);
    let lent = Lent { p: PARALLELISM, v, w: pooled, calls: calls.len(), slack: 0, short: Short::Nothing, whole: true };

    let (mut plain, mut asking) = (Buffers::new(), Asking::new());
    let mut least = [Duration::MAX; 3];
    for _ in 0..REPETITIONS {
        least[0] = least[0].min(timed(&mut plain, &lent, &calls));
        for (i, (r, wanted)) in [(waits, Ok((((v - 1) << 24) + v - 1) as usize)), (0, Err(20))].into_iter().enumerate() {
            asking.set(r);
            least[i + 1] = least[i + 1].min(timed(&mut asking.storage, &lent, &calls));
            if asking.storage.returned != wanted {
                return Err(format!("registration {r}: {:?} is returned, not {wanted:?}", asking.storage.returned));
            }
        }
    }
    asking.storage.check_same_written(&plain)?;
    let [calls, waiting, placed] = least.map(|time| time.as_secs_f64() * 1e3);
    Ok(format!(
        "V = {places}, {waits} registrations and one of {count} inputs that waits: replay_calls {calls:.2} ms, \
         replay_reason {waiting:.2} ms for the latter, {placed:.2} ms for one that is placed"
    ))
}

fn timed(storage: &mut Buffers, lent: &Lent, calls: &[u64]) -> Duration {
    storage.prepare(lent);
    let began = Instant::now();
    storage.call(calls, lent.p, lent.v);
    began.elapsed()
}
