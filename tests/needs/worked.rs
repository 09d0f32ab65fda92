//! Jobs with answers worked out by hand: what the call says, what running the job returns, how many spans
//! that releases. None of them is computed by the model; the call and the model are both held to them.

use crate::compared::{compare, shown, Answer, Counts};
use crate::{model, sources, sys};

/// A job with its answer, and what running it returns where that is a refusal.
pub struct Worked {
    what: String,
    pub job: Vec<u8>,
    answer: Answer,
    ran: Option<u64>,
}

const HEAD: &str = "parallelism=2\nplaces=6\n";
/// The shortest head.
const SHORT: &str = "parallelism=1\nplaces=1\n";

/// The returned number of a refusal.
const fn at(line: u64, code: u64) -> u64 {
    64 * line + code
}

fn zeros(count: usize) -> String {
    vec!["0"; count].join(",")
}

/// Its needs are told; running it is accepted, or refused.
fn told(what: &str, job: String, needs: [u64; 4], ran: Option<u64>) -> Worked {
    let answer = Answer::Needs(needs);
    Worked { what: what.to_owned(), job: job.into_bytes(), answer, ran }
}

/// Refused, and with the same number when run.
fn refused(what: &str, job: String, returned: u64) -> Worked {
    let answer = Answer::Refused(returned);
    Worked { what: what.to_owned(), job: job.into_bytes(), answer, ran: Some(returned) }
}

pub fn check() -> Result<String, String> {
    let mut counts = Counts::default();
    let all = [accepted(), refused_when_run(), malformed(), largest(), too_long()];
    for worked in all.iter().flatten() {
        worked.check().map_err(|message| format!("{}: {message}\n{}", worked.what, shown(&worked.job)))?;
        compare(&worked.job, &mut counts).map_err(|message| format!("{}: {message}", worked.what))?;
    }
    let close = check_close(&mut counts)?;
    Ok(format!("worked out by hand: {counts}: no difference\nneeds: {close}"))
}

impl Worked {
    fn check(&self) -> Result<(), String> {
        let (call, model) = (Answer::of_call(&self.job)?, Answer::of_model(&self.job));
        for (who, found) in [("the call", call), ("the model", model)] {
            if found != self.answer {
                return Err(format!("{found} by {who}, not {}", self.answer));
            }
        }
        let ran = sys::job(&self.job, &mut [0; model::LISTING_BYTES]);
        match (self.ran, ran % 64) {
            (None, 0) => Ok(()),
            (Some(refusal), _) if refusal == ran => Ok(()),
            _ => Err(format!("running it returns {ran}, not {:?}", self.ran)),
        }
    }
}

/// Jobs that are accepted when run.
fn accepted() -> Vec<Worked> {
    [
        ("J1", sources::J1, [4, 7, 0, 40]),
        ("two head lines and final", "parallelism=2\nplaces=6\nfinal=1\n", [0, 0, 0, 32]),
        ("sets alone", "parallelism=2\nplaces=6\nset=1\nset=0\nfinal=1\n", [0, 0, 0, 32]),
        ("flushes alone", "parallelism=2\nplaces=6\nflush=1\nflush=1\nflush=1\nfinal=1\n", [0, 0, 3, 128]),
        ("empty lists", "parallelism=2\nplaces=6\nin=\nout=\nin=\nout=\nfinal=1\n", [2, 0, 0, 36]),
        ("inputs alone", "parallelism=2\nplaces=6\nset=0\nin=0,0,0\nout=\nfinal=1\n", [1, 3, 0, 34]),
        ("outputs alone", "parallelism=2\nplaces=6\nin=\nout=0,1,2,3\nfinal=1\n", [1, 4, 0, 34]),
        ("numbers of three digits", "parallelism=2\nplaces=512\nin=\nout=110,111,112\nflush=1\nfinal=1\n", [1, 3, 1, 66]),
        ("J1 in lanes", sources::J1_LANES, [4, 7, 0, 40]),
        ("a lane without places", "parallelism=2\nplaces=6\nlane=255\nin=\nout=\nfinal=1\n", [1, 0, 0, 34]),
    ]
    .map(|(what, job, needs)| told(what, job.to_owned(), needs, None))
    .into()
}

/// Jobs that are refused when run, with neither 15 nor 16: the lines before final, what the job needs, and
/// where it is refused.
fn judged() -> Vec<(&'static str, String, [u64; 4], u64)> {
    let pool = format!("parallelism=2 places=6 set=0 in={} out=", zeros(4_097));
    let rows: [(&str, &str, [u64; 4], u64); 17] = [
        ("P of 0", "parallelism=0 places=6 set=0 in=0 out=1 flush=1", [1, 2, 1, 66], at(2, 1)),
        ("P of 65", "parallelism=65 places=6 in= out=0,1 in=1 out=", [2, 3, 0, 36], at(2, 2)),
        ("P of 2^64 - 1", "parallelism=18446744073709551615 places=6", [0, 0, 0, 32], at(2, 1)),
        ("V of 0", "parallelism=2 places=0 in= out=", [1, 0, 0, 34], at(2, 1)),
        ("V of 513", "parallelism=2 places=513 in= out=0", [1, 1, 0, 34], at(2, 2)),
        ("a place set twice", "parallelism=2 places=6 set=0 set=0 in=0 out=1", [1, 2, 0, 34], at(4, 8)),
        ("a place with bit 62", "parallelism=2 places=6 set=4611686018427387904 flush=1", [0, 0, 1, 64], at(3, 4)),
        ("a place of V", "parallelism=2 places=6 in=6 out=7,8 flush=1 flush=1", [1, 3, 2, 98], at(4, 5)),
        ("an output twice", "parallelism=2 places=6 in= out=1,1", [1, 2, 0, 34], at(4, 6)),
        ("one waiting at final", "parallelism=2 places=6 in=0 out=1 flush=1", [1, 2, 1, 66], at(6, 12)),
        ("4,097 list numbers", &pool, [1, 4_097, 0, 34], at(5, 10)),
        ("more than V registrations", "parallelism=2 places=1 in= out=0 in=0 out= in=0 out=", [3, 3, 0, 38], at(6, 9)),
        ("long numbers", "parallelism=2 places=6 in=10,200,3000 out=18446744073709551615", [1, 4, 0, 34], at(4, 4)),
        ("a lane of 256", "parallelism=2 places=6 set=0 lane=256 in=0 out=1,2 flush=1", [1, 3, 1, 66], at(6, 18)),
        ("a lane of 2^64 - 1", "parallelism=2 places=6 lane=18446744073709551615 in= out=", [1, 0, 0, 34], at(5, 18)),
        ("a lane of 256 and a place of V", "parallelism=2 places=6 lane=256 in=6 out=", [1, 1, 0, 34], at(5, 18)),
        ("a place of V and a lane after it", "parallelism=2 places=6 in=6 out= lane=256 in= out=0", [2, 2, 0, 36], at(4, 5)),
    ];
    rows.map(|(what, words, needs, ran)| (what, words.replace(' ', "\n") + "\n", needs, ran)).into()
}

/// What is refused when run has its needs told; with a malformed line after it, that line is told.
fn refused_when_run() -> Vec<Worked> {
    let mut all = Vec::new();
    for (what, lines, needs, ran) in judged() {
        let next = lines.lines().count() as u64 + 1;
        all.push(told(what, lines.clone() + "final=1\n", needs, Some(ran)));
        let mut later = vec![("final=1\nset=0\n", next + 1), ("final=1\n\n", next + 1), ("final=1\nx", next + 1)];
        // who waits is judged at final alone
        if ran % 64 != 12 {
            later.extend([("set=x\nfinal=1\n", next), ("in=1\nout=1,\nfinal=1\n", next + 1), ("", next)]);
            later.extend([("lane=x\nin=\nout=\nfinal=1\n", next), ("lane=256\nfinal=1\n", next + 1)]);
        }
        for (rest, line) in later {
            let worked = refused(&format!("{what}, and a line after it"), lines.clone() + rest, at(line, 15));
            all.push(Worked { ran: Some(ran), ..worked });
        }
    }
    all
}

/// Malformed, missing and surplus lines, each with the line that is told: whole jobs, and what follows a head.
const MALFORMED: [(&str, &str, u64); 10] = [
    ("no bytes", "", 1),
    ("a head line without byte 10", "parallelism=2", 1),
    ("final without byte 10 or head", "final=1", 1),
    ("P of 2^64", "parallelism=18446744073709551616\nplaces=6\nfinal=1\n", 1),
    ("V of 2^64", "parallelism=2\nplaces=18446744073709551616\nfinal=1\n", 2),
    ("P of 0 and V of 2^64", "parallelism=0\nplaces=18446744073709551616\nfinal=1\n", 2),
    ("no second line", "parallelism=2\n", 2),
    ("the head lines exchanged", "places=6\nparallelism=2\nfinal=1\n", 1),
    ("a lane line before the head", "lane=1\nparallelism=2\nplaces=6\nin=\nout=\nfinal=1\n", 1),
    ("a lane line in the head", "parallelism=2\nlane=1\nplaces=6\nin=\nout=\nfinal=1\n", 2),
];
const AFTER_HEAD: [(&str, &str, u64); 38] = [
    ("a line after final", "final=1\nset=0\n", 4),
    ("a second final", "final=1\nfinal=1\n", 4),
    ("an empty line after final", "final=1\n\n", 4),
    ("text without byte 10 after final", "final=1\nset=0", 4),
    ("a malformed line after final", "final=1\nx\n", 4),
    ("no final", "", 3),
    ("no final after calls", "set=0\nflush=1\n", 5),
    ("final without byte 10", "final=1", 3),
    ("a registration's two lines and no final", "in=0\nout=1\n", 5),
    ("in= and nothing more", "in=0\n", 4),
    ("in= and final", "in=0\nfinal=1\n", 4),
    ("in= and out= without byte 10", "in=0\nout=1", 4),
    ("in= twice", "in=0\nin=0\nout=1\nfinal=1\n", 4),
    ("a malformed out=", "in=0\nout=1,\nfinal=1\n", 4),
    ("a malformed in=, and out= too", "in=0,\nout=1,\nfinal=1\n", 3),
    ("out= alone", "out=1\nfinal=1\n", 3),
    ("a place of 2^64", "set=18446744073709551616\nfinal=1\n", 3),
    ("an input of 2^64", "in=0,18446744073709551616\nout=\nfinal=1\n", 3),
    ("an output of 2^64", "in=\nout=18446744073709551616\nfinal=1\n", 4),
    ("another flush", "flush=2\nfinal=1\n", 3),
    ("a head line once more", "places=6\nfinal=1\n", 3),
    ("a lane of 2^64", "lane=18446744073709551616\nin=\nout=\nfinal=1\n", 3),
    ("a lane of 21 digits", "lane=100000000000000000000\nin=\nout=\nfinal=1\n", 3),
    ("a lane with a leading zero", "lane=00\nin=\nout=\nfinal=1\n", 3),
    ("a lane without a number", "lane=\nin=\nout=\nfinal=1\n", 3),
    ("a lane line and nothing more", "lane=1\n", 4),
    ("a lane line without byte 10", "lane=1", 3),
    ("a lane line, and in= without byte 10", "lane=1\nin=", 4),
    ("a lane line and final", "lane=1\nfinal=1\n", 4),
    ("a lane line and a flush", "lane=1\nflush=1\nin=\nout=\nfinal=1\n", 4),
    ("a lane line and a set", "lane=1\nset=0\nfinal=1\n", 4),
    ("a lane line and out=", "lane=1\nout=\nfinal=1\n", 4),
    ("a lane line twice", "lane=1\nlane=1\nin=\nout=\nfinal=1\n", 4),
    ("a lane line and a malformed in=", "lane=1\nin=0,\nout=\nfinal=1\n", 4),
    ("a lane line between in= and out=", "in=\nlane=1\nout=\nfinal=1\n", 4),
    ("a lane of 256 and a malformed out=", "lane=256\nin=\nout=1,\nfinal=1\n", 5),
    ("a lane line before final", "in=\nout=\nlane=1\nfinal=1\n", 6),
    ("a lane line after final", "final=1\nlane=1\n", 4),
];

fn malformed() -> Vec<Worked> {
    let whole = MALFORMED.map(|(what, job, line)| refused(what, job.to_owned(), at(line, 15)));
    let after_head = AFTER_HEAD.map(|(what, rest, line)| refused(what, HEAD.to_owned() + rest, at(line, 15)));
    whole.into_iter().chain(after_head).collect()
}

/// The greatest numbers that 65,536 bytes hold: 23 are the head's and 8 final's.
pub fn largest() -> Vec<Worked> {
    let job = |calls: &str| format!("{SHORT}{calls}final=1\n");
    let lists = |inputs, outputs: &str| job(&format!("in={}\nout={outputs}\n", zeros(inputs)));
    let sized = |worked: Worked, bytes| {
        assert_eq!(worked.job.len(), bytes, "{}", worked.what);
        worked
    };
    let registrations = job(&"in=\nout=\n".repeat(7_278));
    let in_lanes = job(&"lane=0\nin=\nout=\n".repeat(4_094));
    let flushes = job(&"flush=1\n".repeat(8_188));
    let longer_head = flushes.replace("places=1\n", "places=10\n");
    vec![
        sized(told("registrations", registrations, [7_278, 0, 0, 14_588], Some(at(6, 9))), 65_533),
        sized(told("registrations in lanes", in_lanes, [4_094, 0, 0, 8_220], Some(at(8, 9))), 65_535),
        sized(told("flushes", flushes, [0, 0, 8_188, 262_048], None), 65_535),
        sized(told("flushes, all bytes", longer_head, [0, 0, 8_188, 262_048], None), 65_536),
        sized(told("numbers of one list", lists(32_748, ""), [1, 32_748, 0, 34], Some(at(4, 10))), 65_535),
        sized(told("numbers of two lists", lists(32_748, "0"), [1, 32_749, 0, 34], Some(at(4, 10))), 65_536),
        sized(refused("no line", "x".repeat(65_536), at(1, 15)), 65_536),
        sized(refused("empty lines", "\n".repeat(65_536), at(1, 15)), 65_536),
        sized(refused("one line more than final", job(&"flush=1\n".repeat(8_187)) + "set=1234\n", at(8_191, 15)), 65_536),
    ]
}

/// More than 65,536 bytes, whatever they are.
fn too_long() -> Vec<Worked> {
    let one_more = |worked: Worked| {
        let job = String::from_utf8(worked.job).expect("ASCII");
        // a byte more in the head, so that the job stays what it was
        let mut longer = job.replacen("=1\n", "=11\n", 1);
        longer += &"x".repeat(65_537_usize.saturating_sub(longer.len()));
        refused(&format!("{}, and more bytes", worked.what), longer, at(1, 16))
    };
    let mut all: Vec<Worked> = largest().into_iter().map(one_more).collect();
    let job = |calls: &str, count| format!("{SHORT}{}final=1\n", calls.repeat(count));
    all.push(refused("a registration more", job("in=\nout=\n", 7_279), at(1, 16)));
    all.push(refused("a flush more", job("flush=1\n", 8_189), at(1, 16)));
    let two_lists = format!("{SHORT}in={}\nout=10\nfinal=1\n", zeros(32_748));
    assert_eq!(two_lists.len(), 65_537);
    all.push(refused("two lists with a digit more", two_lists, at(1, 16)));
    all
}

/// A chain: each registration reads what the one before writes.
fn chain(parallelism: u64, count: u64, rest: &str) -> String {
    let adds: String = (1..=count).map(|x| format!("in={}\nout={x}\n", x - 1)).collect();
    format!("parallelism={parallelism}\nplaces=512\nset=0\n{adds}{rest}final=1\n")
}

/// Jobs whose released spans were counted by hand, beside the ceiling. With P of 1 each registration fills
/// a span, and one is released. In a chain with P of 2 the first 31 come to lie in spans 1 to 31 and
/// release nothing; each further one opens two.
fn close() -> Vec<(&'static str, String, u64, u64)> {
    vec![
        ("final alone", format!("{HEAD}final=1\n"), 32, 32),
        ("two flushes and final", format!("{HEAD}flush=1\nset=0\nflush=1\nfinal=1\n"), 96, 96),
        ("one registration, P of 1", chain(1, 1, ""), 33, 34),
        ("one registration, P of 1, and a flush", chain(1, 1, "flush=1\n"), 65, 66),
        ("one registration, P of 2", chain(2, 1, ""), 32, 34),
        ("31 in a chain", chain(2, 31, ""), 32, 94),
        ("32 in a chain", chain(2, 32, ""), 34, 96),
        ("511 in a chain", chain(2, 511, ""), 992, 1_054),
        ("511 in a chain, and three flushes", chain(2, 511, "flush=1\nflush=1\nflush=1\n"), 1_088, 1_150),
    ]
}

fn check_close(counts: &mut Counts) -> Result<String, String> {
    for (what, job, released, ceiling) in close() {
        let job = job.as_bytes();
        compare(job, counts).map_err(|message| format!("{what}: {message}"))?;
        let found = model::finish_job(job).map(|(session, _)| session.window.first);
        let found = found.map_err(|_| format!("{what}: the model refuses it"))?;
        let by_call = Answer::of_call(job)?;
        if found != released || !matches!(by_call, Answer::Needs([.., last]) if last == ceiling) {
            return Err(format!("{what}: {by_call}, {found} spans released, not {ceiling} and {released}"));
        }
    }
    // a ceiling without final's 32 spans, or one span short, would not hold for these jobs
    let (without, with) = (counts.ceiling.without, counts.ceiling.with);
    match (without, with) {
        (Some(0), Some(1)) => Ok(counts.ceiling.to_string()),
        _ => Err(format!("the ceiling is not met so closely: {}", counts.ceiling)),
    }
}
