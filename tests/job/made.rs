//! Jobs to compare by, each with a count of listing bytes: random ones, random bytes, and jobs at every
//! boundary of document 01.

use crate::generate::Numbers;
use crate::{jobs, model};

/// The random jobs of the reference model, with the listing lengths that it chose.
pub fn random_jobs(seed: u64, count: u64) -> Vec<(Vec<u8>, usize)> {
    let mut text = Vec::new();
    jobs::cases(seed, count, &mut |case| text.extend_from_slice(case));
    let text = String::from_utf8(text).expect("cases are ASCII");
    let lines: Vec<&str> = text.lines().collect();
    let case = |three: &[&str]| {
        let lent = three[2].split(' ').nth(1).expect("host LENT NUMBER");
        (unescaped(&three[0][4..]), lent.parse().expect("a number"))
    };
    lines.chunks(3).map(case).collect()
}

/// The bytes behind the text of a case (reference/jobs.rs).
pub fn unescaped(text: &str) -> Vec<u8> {
    let mut bytes = Vec::new();
    let mut rest = text.as_bytes();
    while let [first, tail @ ..] = rest {
        rest = tail;
        if *first != b'\\' {
            bytes.push(*first);
            continue;
        }
        match rest[0] {
            b'n' => bytes.push(10),
            b'\\' => bytes.push(b'\\'),
            _ => {
                let digits = std::str::from_utf8(&rest[1..3]).expect("\\xHH");
                bytes.push(u8::from_str_radix(digits, 16).expect("\\xHH"));
                rest = &rest[2..];
            }
        }
        rest = &rest[1..];
    }
    bytes
}

/// Bytes of no plan, and pieces of jobs in any order.
pub fn random_bytes(seed: u64, count: u64) -> Vec<(Vec<u8>, usize)> {
    const PIECES: [&str; 27] = [
        "parallelism=",
        "places=",
        "set=",
        "lane=",
        "in=",
        "out=",
        "flush=1",
        "final=1",
        "\n",
        "\n",
        "\n",
        ",",
        "0",
        "1",
        "2",
        "7",
        "19",
        "256",
        "00",
        "18446744073709551615",
        "18446744073709551616",
        "=",
        " ",
        "\r",
        "parallelism=2\nplaces=9\n",
        "set=0\n",
        "lane=3\nin=0\n",
    ];
    let mut all = Vec::new();
    for i in 0..count {
        let mut numbers = Numbers(seed.wrapping_mul(1 << 40).wrapping_add(i));
        let length = numbers.below(60);
        let mut job = Vec::new();
        if numbers.chance(30) {
            job.extend((0..length).map(|_| numbers.below(256) as u8));
        } else {
            job.extend(
                b"parallelism=2\nplaces=9\n"
                    .iter()
                    .take(numbers.below(40) as usize),
            );
            for _ in 0..length {
                job.extend(numbers.choice(&PIECES).bytes());
            }
        }
        let lent = numbers.choice(&[0, 1, 60, 200, 65_536]);
        all.push((job, lent));
    }
    all
}

/// Jobs at the boundaries, each with listing bytes for all of it, for all but one, and for none.
pub fn edges() -> Vec<(Vec<u8>, usize)> {
    let mut all = Vec::new();
    for job in edge_jobs() {
        let length = model::host(&job, 65_536).1.len();
        for lent in [65_536, length, length.saturating_sub(1), 0] {
            all.push((job.clone(), lent));
        }
    }
    all
}

/// The jobs at the boundaries.
pub fn edge_jobs() -> Vec<Vec<u8>> {
    let mut made = vec![String::new()];
    let head = |p: &str, v: &str| format!("parallelism={p}\nplaces={v}\n");
    for p in [
        "0",
        "1",
        "64",
        "65",
        "64999",
        "65000",
        "18446744073709551615",
        "18446744073709551616",
        "01",
        "",
        "+1",
    ] {
        for v in [
            "0",
            "1",
            "512",
            "513",
            "16777216",
            "16777217",
            "007",
            "99999999999999999999",
            "100000000000000000000",
        ] {
            made.push(head(p, v));
            made.push(head(p, v) + "final=1\n");
            made.push(head(p, v) + "set=0\nfinal=1\n");
        }
    }
    let start = head("3", "512");
    for x in [
        "0",
        "00",
        "511",
        "512",
        "4611686018427387904",
        "9223372036854775808",
        "18446744073709551615",
        "18446744073709551616",
        "-1",
        " 1",
        "1 ",
        "1,",
        "",
        "1a",
        "184467440737095516150",
    ] {
        made.push(format!("{start}set={x}\nfinal=1\n"));
        made.push(format!("{start}set={x}"));
        for list in [
            x.to_string(),
            format!("{x},1"),
            format!("1,{x}"),
            format!(",{x}"),
            format!("{x},,1"),
        ] {
            made.push(format!("{start}set=1\nin={list}\nout=2\nfinal=1\n"));
            made.push(format!("{start}set=1\nin=\nout={list}\nfinal=1\n"));
        }
    }
    for calls in [
        "in=\nout=1,1",
        "in=\nout=1\nin=\nout=2,1",
        "set=1\nset=1",
        "in=7\nout=8\nset=8",
        "in=7\nout=8",
        "in=1\nout=1",
    ] {
        made.push(format!("{start}{calls}\nfinal=1\n"));
    }
    for line in [
        "flush=1",
        "flush=01",
        "flush=0",
        "flush=1 ",
        "flush=",
        "final=2",
        "final=11",
        "Final=1",
        "in=",
        "out=1",
        "places=1",
        "parallelism=1",
        "",
        "\r",
        "set",
        "=",
        "in=\nin=",
        "in=\nset=1",
        "in=\nout",
        "in=\nout=1\nout=1",
        "lane=1",
        "lane=256",
        "lane=",
        "lane=1\nlane=1",
        "lane=1\nset=1",
        "lane=1\nout=1",
        "lane=1\nflush=1",
        "lane=1\nplaces=1",
        "lane=1\n",
        "lane=1\nin=,",
        "lane=1\nin=",
        "lane=1\nin=\nlane=1",
        "lane=1\nin=\nout=1",
        "in=\nlane=1\nout=1",
    ] {
        made.push(format!("{start}{line}\nfinal=1\n"));
        made.push(format!("{start}{line}\n"));
        made.push(format!("{start}{line}"));
        made.push(format!("{start}final=1\n{line}\n"));
        made.push(format!("{start}final=1\n{line}"));
        made.push(format!("{line}\n{start}final=1\n"));
    }
    made.extend(lane_jobs(&start));
    // lists at W exactly and one over, of inputs, of outputs and of both, in one add and in several
    let zeros = |n: usize| vec!["0"; n].join(",");
    for n in [4094, 4095, 4096, 4097] {
        made.push(format!("{start}set=0\nin={}\nout=1\nfinal=1\n", zeros(n)));
        made.push(format!("{start}set=0\nin={}\nout=\nfinal=1\n", zeros(n)));
        made.push(format!(
            "{start}set=0\nin={}\nout=1\nin=1\nout=2\nfinal=1\n",
            zeros(n - 2)
        ));
    }
    let places: Vec<String> = (1..512).map(|x| x.to_string()).collect();
    made.push(format!(
        "{start}set=0\nin=0\nout={}\nfinal=1\n",
        places.join(",")
    ));
    // all V registrations and one more; all places set
    let adds: String = (0..513).map(|_| "in=\nout=\n").collect();
    made.push(format!("{start}{adds}final=1\n"));
    made.push(format!("{start}{}final=1\n", &adds[..adds.len() - 9]));
    let chain: String = (1..512)
        .map(|x| format!("in={}\nout={x}\n", x - 1))
        .collect();
    made.push(format!("{}set=0\n{chain}final=1\n", head("64", "512")));
    made.push(format!("{}{chain}set=0\nfinal=1\n", head("1", "512")));
    let sets: String = (0..512).map(|x| format!("set={x}\n")).collect();
    made.push(format!("{start}{sets}final=1\n"));
    // 65,535, 65,536 and 65,537 bytes: flushes with a last line that fills up, long lines, long lists
    let flushes = |n: usize| format!("{}{}", head("2", "512"), "flush=1\n".repeat(n));
    for size in [65_535, 65_536, 65_537, 70_000] {
        let whole = flushes((size - 64) / 8);
        let room = size - whole.len();
        made.push(format!("{whole}set={}\n", "1".repeat(room - 5)));
        made.push(format!("{whole}final=1\n"));
        made.push(format!(
            "{whole}in={}\nout=\nfinal=1\n",
            "1,".repeat((room - 18) / 2) + "1"
        ));
        made.push("x".repeat(size));
        made.push("\n".repeat(size));
        made.push(format!(
            "{}in={}",
            head("2", "9"),
            "1,".repeat((size - 26) / 2)
        ));
        made.push(format!(
            "{}in={}1\nout=3\nfinal=1\n",
            head("2", "9"),
            "1,".repeat((size - 50) / 2)
        ));
    }
    made.into_iter().map(String::into_bytes).collect()
}

/// Lanes at the boundaries, and what is no lane.
const LANES: [&str; 26] = [
    "0",
    "1",
    "255",
    "256",
    "257",
    "511",
    "65535",
    "65536",
    "16777216",
    "4294967296",
    "4294967551",
    "9223372036854775808",
    "18446744073709551615",
    "18446744073709551616",
    "99999999999999999999",
    "100000000000000000000",
    "000000000000000000000",
    "00",
    "0255",
    "+1",
    "-1",
    " 1",
    "1 ",
    "1,",
    "1\r",
    "0x1",
];
/// A registration after its lane line: accepted, waiting, malformed, and with each refusal of an add that needs no more.
const IN_LANE: [&str; 10] = [
    "in=\nout=1",
    "in=\nout=1\nin=1\nout=2",
    "in=7\nout=8",
    "in=\nout=",
    "in=\nout=,",
    "in=,\nout=",
    "in=4611686018427387904\nout=",
    "in=512\nout=1",
    "in=\nout=1,1",
    "in=\nout=3",
];

/// Jobs in these lanes, with 18 beside every other refusal of an add.
fn lane_jobs(start: &str) -> Vec<String> {
    let zeros = vec!["0"; 4_097].join(",");
    let mut made = Vec::new();
    for lane in LANES {
        let line = format!("lane={lane}\n");
        let calls = IN_LANE.map(|calls| format!("{start}set=3\n{line}{calls}\nfinal=1\n"));
        made.extend(calls);
        // one registration too many, and one list number
        made.push(format!(
            "parallelism=1\nplaces=1\nin=\nout=\n{line}in=\nout=\nfinal=1\n"
        ));
        made.push(format!("{start}set=0\n{line}in={zeros}\nout=\nfinal=1\n"));
        made.push(format!("{line}{start}final=1\n"));
        made.push(format!("parallelism=3\n{line}places=9\nfinal=1\n"));
    }
    made
}
