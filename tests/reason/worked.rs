//! Answers worked out by hand: jobs with the reason of each registration that is asked for, or why there is none. The
//! calls and the program are held to them.

use crate::buffers::encode;
use crate::lists::List;
use crate::polled::Asking;
use crate::{model, sys, Call};

/// What is said of a registration of a job.
#[derive(Clone, Copy, PartialEq, Eq, Debug)]
pub enum Answer {
    /// Greatest input, lowest untracked place.
    Because(u64, u64),
    /// The number alone: 19 or 20.
    Number(u64),
    /// The job's refusal: number and line.
    Refused(u64, u64),
}

use Answer::{Because, Number, Refused};

impl Answer {
    /// As the calls return it.
    pub fn returned(self) -> u64 {
        match self {
            Because(input, place) => 64 * ((1 << 24) * input + place),
            Number(code) => code,
            Refused(code, line) => 64 * line + code,
        }
    }

    /// As the program prints it.
    pub fn printed(self) -> String {
        match self {
            Because(input, place) => format!("status=0\ninput={input}\nplace={place}\n"),
            Number(code) => format!("status={code}\n"),
            Refused(code, line) => format!("status={code}\nline={line}\n"),
        }
    }
}

/// A job, and what is said of registrations of it.
pub struct Worked {
    pub job: String,
    pub told: Vec<(u64, Answer)>,
}

const MOST: u64 = u64::MAX;

/// Jobs over 6 places with P = 4, by their lines after the head, and what is said of registrations 0, 1 and on.
const SMALL: [(&str, &[Answer]); 33] = [
    ("set=2 in=2 out= final=1", &[Because(2, 0), Number(19)]),
    ("set=0 set=2 in=2 out= final=1", &[Because(2, 1), Number(19)]),
    ("set=2 set=0 in=2 out= final=1", &[Because(2, 1)]),
    ("set=2 in=2 out= set=0 final=1", &[Because(2, 1)]),
    ("set=0 set=1 set=2 in=2 out= final=1", &[Number(20), Number(19)]),
    ("set=2 in=2 out= set=1 set=0 final=1", &[Number(20), Number(19)]),
    // 0 is promised, and named
    ("in=3 out=0 in=1 out=2 final=1", &[Because(3, 0), Because(1, 0), Number(19)]),
    ("in=1 out=0 in=3 out=1 final=1", &[Because(1, 0), Because(3, 0), Number(19)]),
    // its own output
    ("in=0 out=0 final=1", &[Because(0, 0), Number(19)]),
    ("set=0 in=1 out=1 final=1", &[Because(1, 1), Number(19)]),
    // tracked places above the mark do not count
    ("set=0 set=3 set=4 in=0,4,3 out= final=1", &[Because(4, 1)]),
    ("set=0 in=5,1,5 out=1 final=1", &[Because(5, 1)]),
    ("set=0 set=5 in=5,3 out= final=1", &[Because(5, 1)]),
    // the greatest stands first, in the middle, last; it is tracked and the others are not
    ("set=0 in=4,3,2 out= final=1", &[Because(4, 1)]),
    ("set=0 in=2,4,3 out= final=1", &[Because(4, 1)]),
    ("set=0 in=2,3,4 out= final=1", &[Because(4, 1)]),
    ("set=5 in=3,5,4 out= final=1", &[Because(5, 0)]),
    // the input is the lowest untracked place itself, and the one before is not
    ("set=0 in=1 out= in=0 out= final=1", &[Because(1, 1), Number(20), Number(19)]),
    ("set=0 set=1 in=2 out= in=1 out= final=1", &[Because(2, 2), Number(20), Number(19)]),
    // placed ones beside one that waits; without inputs none waits
    ("in= out=0 in=3 out=4 in=0 out=1 final=1", &[Number(20), Because(3, 2), Number(20), Number(19)]),
    ("in= out= in= out=1 in=5 out= final=1", &[Number(20), Number(20), Because(5, 0), Number(19)]),
    // one that came off, and by it another, beside one that waits still
    ("in=1 out=2 in=2 out=3 in=4 out=5 set=1 set=0 final=1", &[Number(20), Number(20), Because(4, 4), Number(19)]),
    ("in=0 out=1 flush=1 in=1 out= flush=1 final=1", &[Because(0, 0), Because(1, 0), Number(19)]),
    ("lane=255 in=5 out=0 final=1", &[Because(5, 0), Number(19)]),
    // what follows a final that 12 refuses changes nothing
    ("in=0 out=1 final=1 set=0", &[Because(0, 0), Number(19)]),
    ("in=0 out=1 final=1 final=1", &[Because(0, 0), Number(19)]),
    ("in=0 out=1 final=1 x", &[Because(0, 0), Number(19)]),
    // nothing is registered
    ("final=1", &[Number(19), Number(19)]),
    // refused otherwise, whoever is asked for
    ("set=9 final=1", &[Refused(5, 3), Refused(5, 3)]),
    ("in=0 out=1 set=9 final=1", &[Refused(5, 5), Refused(5, 5)]),
    ("in=0 out=1", &[Refused(15, 5), Refused(15, 5)]),
    ("in=0 out=1 in=1", &[Refused(15, 6), Refused(15, 6)]),
    ("set=0 in=0 out=1 final=1 set=2", &[Refused(15, 7), Refused(15, 7)]),
];

/// J1 of document 01.
pub const J1: &str = "parallelism=2\nplaces=6\nset=0\nin=0\nout=1\nin=1\nout=2\nin=0\nout=3\nin=\nout=4\nfinal=1\n";

/// Numbers that no registration of a small job has: the places, and those whose lower bits are small.
const NEVER: [u64; 9] = [4, 6, 512, 1 << 16, 1 << 24, 1 << 32, (1 << 32) + 1, 1 << 63, MOST];

fn small() -> Vec<Worked> {
    let worked = |&(words, told): &(&str, &[Answer])| {
        let mut told: Vec<(u64, Answer)> = (0..).zip(told.iter().copied()).collect();
        let never = match told[0].1 {
            refused @ Refused(..) => refused,
            _ => Number(19),
        };
        told.extend(NEVER.map(|r| (r, never)));
        let job = format!("parallelism=4\nplaces=6\n{}\n", words.replace(' ', "\n"));
        Worked { job, told }
    };
    SMALL.iter().map(worked).collect()
}

/// Whole jobs: J1, heads that are refused, the greatest places, a full pool, text without an end, too many bytes.
fn whole() -> Vec<Worked> {
    let zeros = |count: usize| vec!["0"; count].join(",");
    let head = "parallelism=4\nplaces=6\n";
    let j1: Vec<(u64, Answer)> = (0..5).map(|r| (r, Number(if r < 4 { 20 } else { 19 }))).collect();
    let rows: Vec<(String, Vec<(u64, Answer)>)> = vec![
        (J1.to_owned(), j1),
        (format!("{J1}set=5\n"), vec![(0, Refused(15, 13)), (MOST, Refused(15, 13))]),
        (format!("{J1}x"), vec![(0, Refused(15, 13))]),
        (String::new(), vec![(0, Refused(15, 1)), (MOST, Refused(15, 1))]),
        (format!("{head}in=0\nout=1\nfinal=1\nx"), vec![(0, Because(0, 0)), (1, Number(19))]),
        (format!("{head}in=0\nout=1\nfinal=1"), vec![(0, Refused(15, 5))]),
        ("parallelism=0\nplaces=6\nin=0\nout=1\nfinal=1\n".to_owned(), vec![(0, Refused(1, 2))]),
        ("parallelism=65\nplaces=6\nin=0\nout=1\nfinal=1\n".to_owned(), vec![(0, Refused(2, 2))]),
        ("parallelism=4\nplaces=513\nin=0\nout=1\nfinal=1\n".to_owned(), vec![(0, Refused(2, 2))]),
        (format!("{head}lane=256\nin=0\nout=1\nfinal=1\n"), vec![(0, Refused(18, 5))]),
        ("parallelism=64\nplaces=512\nin=511\nout=\nfinal=1\n".to_owned(), vec![(0, Because(511, 0)), (1, Number(19))]),
        (format!("{head}in={},1\nout=\nfinal=1\n", zeros(4_095)), vec![(0, Because(1, 0)), (1, Number(19))]),
        (format!("{head}in={},1\nout=\nfinal=1\n", zeros(4_096)), vec![(0, Refused(10, 4))]),
        ("x".repeat(65_537), vec![(0, Refused(16, 1))]),
        (filled(65_536), vec![(0, Because(0, 0)), (1, Number(19))]),
        (filled(65_537), vec![(0, Refused(16, 1))]),
    ];
    let worked = |(job, told)| Worked { job, told };
    rows.into_iter().map(worked).collect()
}

/// A job of so many bytes in which one registration waits: bytes after its final fill it up.
fn filled(bytes: usize) -> String {
    let mut job = "parallelism=4\nplaces=6\nin=0\nout=\nfinal=1\n".to_owned();
    job.push_str(&"x".repeat(bytes - job.len()));
    job
}

pub fn all() -> Vec<Worked> {
    small().into_iter().chain(whole()).collect()
}

/// Holds both calls, and the model, to them; `replay_reason` where the job is run to its final.
pub fn check() -> Result<String, String> {
    let (mut asked, mut by_list, mut asking) = (0, 0, Asking::new());
    for Worked { job, told } in all() {
        let list = calls_of(&job);
        for (r, answer) in told {
            let at = |who: &str, found| Err(format!("registration {r}: {found} by {who}, not {}\n{job}", answer.returned()));
            let (call, by_model) = (sys::job_reason(job.as_bytes(), r), model::reason_host(job.as_bytes(), r));
            if call != answer.returned() {
                return at("order_reason", call);
            }
            if by_model != answer.returned() {
                return at("the model", by_model);
            }
            if matches!(answer, Because(..) | Number(..)) {
                let list = list.as_ref().ok_or("a job that runs to its final is no list of calls")?;
                let found = asking.ask(list, &encode(&list.calls).0, r);
                if found != answer.returned() {
                    return at("replay_reason", found);
                }
                by_list += 1;
            }
            asked += 1;
        }
    }
    Ok(format!("worked out by hand: {asked} answers of {} jobs by order_reason, {by_list} by replay_reason", all().len()))
}

/// The calls of a job up to its final, with its P and V and a job's pool; none, where there is no final.
fn calls_of(job: &str) -> Option<List> {
    let mut lines = job.lines().map(|line| line.split_once('=').unwrap_or_default());
    let plain = |word: &str| word.parse().ok();
    let places = |word: &str| -> Vec<u64> { word.split(',').filter_map(plain).collect() };
    let (p, v) = (plain(lines.next()?.1)?, plain(lines.next()?.1)?);
    let mut calls = Vec::new();
    while calls.last() != Some(&Call::Final) {
        calls.push(match lines.next()? {
            ("set", place) => Call::Set(plain(place)?),
            ("flush", _) => Call::Flush,
            ("final", _) => Call::Final,
            ("in", inputs) => Call::Add(places(inputs), places(lines.next()?.1)),
            ("lane", lane) => {
                let inputs = places(lines.next()?.1);
                Call::AddInLane(plain(lane)?, inputs, places(lines.next()?.1))
            }
            _ => return None,
        });
    }
    Some(List { p, v, w: Some(4_096), calls })
}
