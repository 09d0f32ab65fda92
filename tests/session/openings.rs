//! Refusals of a whole replay, each with nothing written: 15 for numbers that are no list of calls,
//! 1 for a P or V out of range, 2 for each slice that is one number short. 15 goes before 1, and 1
//! before 2.

use crate::buffers::{encode, Buffers, Lent, Short};
use crate::generate::Numbers;
use crate::Call;

/// What an ordinary session needs and, before the last, what an ascending one needs.
pub const SHORT: [Short; 8] = [
    Short::Spans,
    Short::Order,
    Short::Tally,
    Short::Rows,
    Short::Marks,
    Short::Locations,
    Short::Answers,
    Short::Waiting,
];

/// By the exported call that the buffers are for, which needs these slices.
pub fn check(buffers: &mut Buffers, slices: &[Short]) -> Result<String, String> {
    let ranges = check_ranges(buffers)?;
    let short = check_short(buffers, slices)?;
    let malformed = check_malformed(buffers)?;
    let truncated = check_truncated(buffers)?;
    Ok(format!(
        "  refused replays, nothing written: {ranges} with a P or V out of range, {short} with a slice one \
         short, {malformed} malformed and {truncated} truncated lists; just enough is accepted"
    ))
}

fn lent(p: u64, v: u64, calls: usize) -> Lent {
    Lent {
        p,
        v,
        w: 7,
        calls,
        slack: 0,
        short: Short::Nothing,
        whole: true,
    }
}

/// Replays on storage for `lent`, with P and V of their own, and looks at what is returned.
fn expect(
    buffers: &mut Buffers,
    lent: &Lent,
    (p, v): (u64, u64),
    calls: &[u64],
    code: u64,
) -> Result<(), String> {
    buffers.prepare(lent);
    buffers.call(calls, p, v);
    let head = &calls[..calls.len().min(12)];
    let at = |message| {
        let Lent { calls, short, .. } = lent;
        format!("P {p}, V {v}, {calls} answers, {short:?} short, calls {head:?}..: {message}")
    };
    match (code, buffers.returned) {
        (0, Ok(_)) => Ok(()),
        (_, Err(returned)) if returned == code => buffers.check_nothing_written().map_err(at),
        (_, returned) => Err(at(format!("{returned:?} is returned, not {code}"))),
    }
}

fn check_ranges(buffers: &mut Buffers) -> Result<u64, String> {
    let mut count = 0;
    let calls = [1, 0, 3, 4];
    let parallelisms = [0, 65_000, 65_536, 1 << 32, (1 << 32) + 1, u64::MAX];
    let places = [0, 16_777_217, 1 << 32, (1 << 32) + 1, 1 << 62, u64::MAX];
    let wrong_p = parallelisms.iter().map(|&p| (p, 2));
    let wrong_v = places.iter().map(|&v| (2, v));
    for opening in wrong_p.chain(wrong_v).chain([(0, 0), (u64::MAX, u64::MAX)]) {
        // Also where every length is too short: 1 goes before 2.
        expect(buffers, &lent(2, 2, 3), opening, &calls, 1)?;
        expect(buffers, &lent(1, 1, 0), opening, &calls, 1)?;
        expect(buffers, &lent(1, 1, 0), opening, &[], 1)?;
        count += 3;
    }
    // In range, but the storage is for less.
    for opening in [
        (64_999, 2),
        (2, 16_777_216),
        (64_999, 16_777_216),
        (3, 2),
        (2, 3),
    ] {
        expect(buffers, &lent(2, 2, 3), opening, &calls, 2)?;
        count += 1;
    }
    Ok(count)
}

fn check_short(buffers: &mut Buffers, slices: &[Short]) -> Result<u64, String> {
    let mut count = 0;
    let (calls, ends) = encode(&[
        Call::Set(0),
        Call::Add(vec![0], vec![]),
        Call::Flush,
        Call::Set(u64::MAX),
        Call::Final,
    ]);
    for (p, v) in [
        (1, 1),
        (1, 2),
        (2, 1),
        (3, 5),
        (7, 64),
        (130, 33),
        (64_999, 1),
    ] {
        for slack in 0..=5 {
            let enough = Lent {
                slack,
                ..lent(p, v, ends.len())
            };
            expect(buffers, &enough, (p, v), &calls, 0)?;
            for &short in slices {
                let less = Lent { short, ..enough };
                expect(buffers, &less, (p, v), &calls, 2)?;
                count += 1;
            }
            if p > 1_000 {
                break;
            }
        }
    }
    Ok(count)
}

/// What starts no call, or one that is cut short.
fn malformed_tails() -> Vec<Vec<u64>> {
    let far = [
        2,
        3,
        4,
        5,
        1 << 31,
        1 << 32,
        (1 << 32) + 1,
        1 << 61,
        1 << 62,
        1 << 63,
        u64::MAX - 1,
        u64::MAX,
    ];
    let mut tails = vec![vec![0], vec![1], vec![5]];
    let tags = [6, 7, 64, 1 << 32, (1 << 32) + 1, (1 << 32) + 5, u64::MAX];
    tails.extend(tags.map(|tag| vec![tag]));
    tails.extend(tags.map(|tag| vec![tag, 0, 0, 0]));
    // an add, in lane 0 and in others, which are not judged here
    for add in [&[2][..], &[5, 0], &[5, 7], &[5, 256], &[5, u64::MAX]] {
        let mut rests = vec![vec![], vec![0], vec![1, 0]];
        rests.extend(far.map(|count| vec![count, 0]));
        rests.extend(far.map(|count| vec![0, count, 0]));
        rests.extend(far.map(|count| vec![1, 0, count, 0]));
        rests.extend(far.map(|count| vec![count]));
        rests.extend(far.map(|count| vec![count, count]));
        tails.extend(rests.iter().map(|rest| [add, rest].concat()));
    }
    tails
}

/// Numbers that are no list of calls, by themselves and after calls that are well formed. 15 goes
/// before 1 and 2.
fn check_malformed(buffers: &mut Buffers) -> Result<u64, String> {
    let tails = malformed_tails();
    let heads: [&[u64]; 5] = [
        &[],
        &[3],
        &[1, 0, 2, 1, 0, 1, 1],
        &[4, 4],
        &[5, 255, 1, 0, 1, 1, 5, u64::MAX, 0, 0],
    ];
    let mut count = 0;
    for head in heads {
        expect(buffers, &lent(3, 5, 9), (3, 5), head, 0)?;
        for tail in &tails {
            let calls = [head, tail].concat();
            expect(buffers, &lent(3, 5, 9), (3, 5), &calls, 15)?;
            expect(buffers, &lent(3, 5, 9), (0, 5), &calls, 15)?;
            expect(buffers, &lent(3, 5, 0), (64_999, 5), &calls, 15)?;
            count += 3;
        }
    }
    Ok(count)
}

/// Every beginning of encoded lists: where it ends with a call it is accepted, else malformed.
fn check_truncated(buffers: &mut Buffers) -> Result<u64, String> {
    let mut numbers = Numbers(15);
    let mut count = 0;
    for _ in 0..60 {
        let list = |numbers: &mut Numbers| -> Vec<u64> {
            (0..numbers.below(5))
                .map(|_| numbers.choice(&[0, 1, 4, 5, u64::MAX]))
                .collect()
        };
        let calls: Vec<Call> = (0..8)
            .map(|_| match numbers.below(6) {
                0 => Call::Set(numbers.below(6)),
                1 => Call::Flush,
                2 | 3 => {
                    let lane = numbers.choice(&[0, 1, 2, 5, 255, 256, u64::MAX]);
                    Call::AddInLane(lane, list(&mut numbers), list(&mut numbers))
                }
                _ => Call::Add(list(&mut numbers), list(&mut numbers)),
            })
            .collect();
        let (encoded, ends) = encode(&calls);
        for length in 1..encoded.len() {
            let whole = ends.contains(&length);
            let code = if whole { 0 } else { 15 };
            expect(buffers, &lent(3, 5, 8), (3, 5), &encoded[..length], code)?;
            count += u64::from(!whole);
        }
    }
    Ok(count)
}
