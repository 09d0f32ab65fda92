//! Host code, not proved: jobs of any size beside the proved `order_job`, on jobs that both can run,
//! and on their own where only `large` can.

#[path = "../../../tests/reference/generate.rs"]
#[allow(dead_code)]
mod generate;
#[path = "../../../tests/reference/jobs.rs"]
mod jobs;
#[path = "../../../tests/job/made.rs"]
mod made;
#[path = "../../../tests/reference/model.rs"]
#[allow(dead_code)]
mod model;

use std::collections::BTreeMap;

use witness_order::large::{self, Options, Rejection};
use witness_order::{job, Refusal};

/// What the generators call.
fn fail(message: &str) -> ! {
    panic!("{message}")
}

fn run(job: &[u8], options: &Options) -> (Vec<u8>, Result<(), Rejection>) {
    let mut listing = Vec::new();
    let verdict = large::run(job, &mut listing, options, &mut ());
    let verdict = verdict.expect("slices can be read and written");
    (listing, verdict)
}

/// How `large` stands to `order_job` on a job: equal, or refused by the latter for its smaller storage.
fn compare(job: &[u8], seen: &mut BTreeMap<u64, u64>) {
    let all = Options::default();
    let (listing, verdict) = run(job, &all);
    let code = match job::run(job) {
        Ok(text) => {
            assert_eq!(listing, text.as_bytes(), "{}", shown(job));
            assert_eq!(verdict, Ok(()));
            0
        }
        Err(rejected) => {
            let number = rejected.refusal.number();
            let told = format!("status={number}\nline={}\n", rejected.line);
            match rejected.refusal {
                // Other storage is lent; 10 comes with the same pool.
                Refusal::TooShort => assert!(wide(job), "{}", shown(job)),
                Refusal::FullPool => {
                    let same = Options {
                        pool: Some(4096),
                        ..Options::default()
                    };
                    assert_eq!(run(job, &same).0, told.as_bytes(), "{}", shown(job));
                }
                Refusal::LongJob => assert!(job.len() > 65_536),
                Refusal::LongListing => assert!(listing.len() > 65_536 && verdict.is_ok()),
                refusal => {
                    assert_eq!(listing, told.as_bytes(), "{}", shown(job));
                    let rejection = verdict.expect_err("refused by the proved call");
                    assert_eq!(
                        (rejection.refusal, rejection.line),
                        (refusal, rejected.line)
                    );
                }
            }
            number
        }
    };
    *seen.entry(code).or_default() += 1;
}

/// A head with P over 64 or V over 512.
fn wide(job: &[u8]) -> bool {
    let text = String::from_utf8_lossy(job);
    let value =
        |line: Option<&str>| line.and_then(|line| line.split('=').nth(1)?.parse::<u64>().ok());
    let mut lines = text.lines();
    let (p, v) = (value(lines.next()), value(lines.next()));
    p.is_some_and(|p| p > 64) || v.is_some_and(|v| v > 512)
}

fn shown(job: &[u8]) -> String {
    String::from_utf8_lossy(&job[..job.len().min(2000)]).into_owned()
}

fn compare_all(name: &str, jobs: impl IntoIterator<Item = Vec<u8>>) -> BTreeMap<u64, u64> {
    let mut seen = BTreeMap::new();
    jobs.into_iter().for_each(|job| compare(&job, &mut seen));
    let total: u64 = seen.values().sum();
    let codes: Vec<String> = seen
        .iter()
        .map(|(code, count)| format!("{count} with {code}"))
        .collect();
    println!(
        "large: {name}: {total} jobs beside order_job, status {}: no difference",
        codes.join(", ")
    );
    seen
}

fn only_jobs(made: Vec<(Vec<u8>, usize)>) -> impl Iterator<Item = Vec<u8>> {
    made.into_iter().map(|(job, _)| job)
}

fn count(name: &str, default: u64) -> u64 {
    std::env::var(name)
        .ok()
        .and_then(|word| word.parse().ok())
        .unwrap_or(default)
}

#[test]
fn jobs_at_the_boundaries() {
    let mut all: Vec<Vec<u8>> = only_jobs(made::edges()).collect();
    all.dedup();
    // Each of these takes more than a gigabyte; tests/large/run.sh has one such job.
    all.retain(|job| !job.windows(16).any(|bytes| bytes == b"places=16777216\n"));
    let seen = compare_all("boundaries", all);
    // 3, 7 and 11 need more lines or longer lists than `order_job` takes; 17 needs fewer bytes lent.
    for code in [0, 1, 2, 4, 5, 6, 8, 9, 10, 12, 15, 16, 18] {
        assert!(seen.contains_key(&code), "no job with {code}");
    }
}

#[test]
fn random_jobs() {
    let (seed, count) = (count("LARGE_SEED", 1), count("LARGE_JOBS", 4000));
    compare_all("random jobs", only_jobs(made::random_jobs(seed, count)));
}

#[test]
fn random_bytes() {
    let (seed, count) = (count("LARGE_SEED", 1), count("LARGE_BYTES", 20_000));
    compare_all("random bytes", only_jobs(made::random_bytes(seed, count)));
}

/// `large` reads the start of a line first, and the rest of a list after it: lines of every length around
/// that.
#[test]
fn lines_of_every_length() {
    let list = |bytes: usize| {
        let zeros = vec!["0"; bytes / 2].join(",");
        if bytes % 2 == 0 {
            zeros.replacen('0', "10", 1)
        } else {
            zeros + ",0"
        }
    };
    let sets: String = (0..11).map(|place| format!("set={place}\n")).collect();
    let mut all = Vec::new();
    for bytes in 90..160 {
        for end in ["", ",", ",,", "x", " ", "0", "\0"] {
            let places = list(bytes) + end;
            for rest in [
                format!("in={places}\nout=11\nfinal=1\n"),
                format!("in=0\nout={places}\nfinal=1\n"),
                format!("in={places}"),
                format!("in={places}\nout={places}"),
                format!("set={places}\nfinal=1\n"),
                format!("set={}{end}\nfinal=1\n", "1".repeat(bytes)),
                format!("{places}\nfinal=1\n"),
                format!("final=1\n{places}\n"),
            ] {
                all.push((head(2, 12) + &sets + &rest).into_bytes());
            }
        }
        all.push(format!("parallelism={}\n", "1".repeat(bytes)).into_bytes());
        all.push(format!("parallelism=1\nplaces={}\n", "1".repeat(bytes)).into_bytes());
    }
    let seen = compare_all("lines of every length", all);
    assert!([0, 6, 15].iter().all(|code| seen.contains_key(code)));
}

// ---- What only `large` runs

fn status(job: &str, pool: Option<u64>) -> String {
    let (listing, _) = run(
        job.as_bytes(),
        &Options {
            pool,
            ..Options::default()
        },
    );
    let text = String::from_utf8(listing).expect("ASCII");
    text.lines().take(2).collect::<Vec<_>>().join(" ")
}

fn head(p: u64, v: u64) -> String {
    format!("parallelism={p}\nplaces={v}\n")
}

#[test]
fn the_ranges_are_those_of_a_session() {
    for (p, v) in [(65, 1), (64_999, 1), (1, 513), (64_999, 70_000)] {
        assert_eq!(
            status(&(head(p, v) + "final=1\n"), None),
            "status=0 entries=0",
            "P {p}, V {v}"
        );
    }
    for (p, v) in [
        (0, 1),
        (65_000, 1),
        (1, 0),
        (1, 16_777_217),
        (u64::MAX, u64::MAX),
    ] {
        assert_eq!(
            status(&(head(p, v) + "final=1\n"), None),
            "status=1 line=2",
            "P {p}, V {v}"
        );
        assert_eq!(
            status(&(head(p, v) + "nonsense\n"), None),
            "status=1 line=2",
            "P {p}, V {v}"
        );
    }
}

#[test]
fn the_pool_has_room_for_all_lists_unless_said() {
    let inputs = vec!["0"; 5000].join(",");
    let job = head(2, 6) + &format!("set=0\nin={inputs}\nout=1\nin=1\nout=2\nfinal=1\n");
    for (pool, wanted) in [
        (None, "status=0 entries=2"),
        (Some(u64::MAX), "status=0 entries=2"),
        (Some(5003), "status=0 entries=2"),
        (Some(5002), "status=10 line=7"),
        (Some(5001), "status=10 line=7"),
        (Some(5000), "status=10 line=5"),
        (Some(0), "status=10 line=5"),
    ] {
        assert_eq!(status(&job, pool), wanted, "a pool of {pool:?}");
    }
}

#[test]
fn lists_and_flushes_have_their_limits() {
    let list = |count: usize| vec!["0"; count].join(",");
    for (count, wanted) in [
        (65_535, "status=0 entries=1"),
        (65_536, "status=3 line=5"),
        (300_000, "status=3 line=5"),
    ] {
        let list = list(count);
        let job = |rest: &str| head(2, 6) + &format!("set=0\nin={list}{rest}");
        assert_eq!(
            status(&job("\nout=1\nfinal=1\n"), None),
            wanted,
            "{count} inputs"
        );
        assert_eq!(status(&job("\nfinal=1\n"), None), "status=15 line=5");
        assert_eq!(
            status(&job(",\nout=1\nfinal=1\n"), None),
            "status=15 line=4"
        );
        // What stands in a list that is too long does not matter, and an earlier refusal comes first.
        let flagged = job(",9223372036854775808\nout=1\nfinal=1\n");
        let wanted = ["status=4 line=5", "status=3 line=5"][usize::from(count > 65_534)];
        assert_eq!(status(&flagged, None), wanted);
        let earlier = job("\nout=1\nfinal=1\n").replacen("set=0", "set=6", 1);
        assert_eq!(status(&earlier, None), "status=5 line=3");
    }
    // A lane over 255 comes before a list that is too long.
    for (lane, wanted) in [(255, "status=3 line=5"), (256, "status=18 line=5")] {
        let job = format!("lane={lane}\nin={}\nout=1\nfinal=1\n", list(65_536));
        assert_eq!(status(&(head(2, 6) + &job), None), wanted, "lane {lane}");
    }
    let outputs = head(2, 6) + &format!("in=\nout={}\nfinal=1\n", list(300_000));
    assert_eq!(status(&outputs, None), "status=3 line=4");
    let flushes = |count: usize| head(2, 6) + &"flush=1\n".repeat(count) + "final=1\n";
    assert_eq!(status(&flushes(65_535), None), "status=0 entries=0");
    assert_eq!(status(&flushes(65_536), None), "status=11 line=65538");
}

#[test]
fn an_earlier_refusal_wins_over_a_later_malformed_line() {
    let start = head(2, 6);
    for (rest, wanted) in [
        ("set=0\nset=0\nnonsense\n", "status=8 line=4"),
        ("set=0\nnonsense\nset=0\n", "status=15 line=4"),
        ("in=0\nout=0\nfinal=1\nmore\n", "status=12 line=5"),
        ("final=1\nmore\n", "status=15 line=4"),
        ("final=1\nmore", "status=15 line=4"),
        ("final=1\nfinal=1\n", "status=15 line=4"),
        ("set=0\n", "status=15 line=4"),
        ("set=0", "status=15 line=3"),
        ("in=9\n", "status=15 line=4"),
        ("in=9\nset=0\n", "status=15 line=4"),
        ("in=9\nout=1\nfinal=1\n", "status=5 line=4"),
        ("in=9\nout=1,\nfinal=1\n", "status=15 line=4"),
        ("set=9\nset=8\nfinal=1\n", "status=5 line=3"),
        ("lane=256\nin=9\nout=1\nnonsense\n", "status=18 line=5"),
        ("lane=256\nin=9\nout=1,\n", "status=15 line=5"),
        ("lane=256\nin=9,\nout=1\n", "status=15 line=4"),
        ("set=0\nset=0\nlane=256\nset=1\n", "status=8 line=4"),
        ("lane=1\nin=\nout=0\nset=0\nfinal=1\n", "status=8 line=6"),
    ] {
        assert_eq!(status(&(start.clone() + rest), None), wanted, "{rest:?}");
    }
}

/// The model of the tests runs any size; it says what a job of thousands of places comes to.
#[test]
fn thousands_of_places_beside_the_model() {
    let (p, v) = (70, 5000u64);
    let mut session = match model::Session::open(p, v, &model::Lent::for_session(p, v, u64::MAX)) {
        Ok(session) => session,
        Err(code) => panic!("opening is refused with {code}"),
    };
    let mut numbers = generate::Numbers(9);
    let mut text = head(p, v) + "set=0\n";
    assert_eq!(session.set(0), 0);
    for place in 1..v {
        let inputs: Vec<u64> = (0..numbers.below(4))
            .map(|_| numbers.below(place))
            .collect();
        let lane = numbers.lane();
        assert_eq!(session.add(lane, &inputs, &[place]), 0);
        let inputs: Vec<String> = inputs.iter().map(u64::to_string).collect();
        text += &format!("lane={lane}\nin={}\nout={place}\n", inputs.join(","));
    }
    let summary = session
        .final_flush()
        .unwrap_or_else(|code| panic!("final is refused with {code}"));
    let (listing, verdict) = run((text + "final=1\n").as_bytes(), &Options::default());
    assert_eq!(verdict, Ok(()));
    assert!(
        listing == model::list(&session, &summary),
        "the listings differ"
    );
}

#[test]
fn what_cannot_be_read_or_written_is_an_error() {
    use std::io::{BufReader, Error, Read, Write};
    struct Broken;
    impl Read for Broken {
        fn read(&mut self, _: &mut [u8]) -> std::io::Result<usize> {
            Err(Error::other("broken"))
        }
    }
    impl Write for Broken {
        fn write(&mut self, _: &[u8]) -> std::io::Result<usize> {
            Err(Error::other("broken"))
        }
        fn flush(&mut self) -> std::io::Result<()> {
            Ok(())
        }
    }
    let failed = large::run(
        BufReader::new(Broken),
        Vec::new(),
        &Options::default(),
        &mut (),
    );
    assert_eq!(
        failed.unwrap_err().to_string(),
        "the job cannot be read: broken"
    );
    let failed = large::run(
        &b"parallelism=1\nplaces=1\nfinal=1\n"[..],
        Broken,
        &Options::default(),
        &mut (),
    );
    assert_eq!(
        failed.unwrap_err().to_string(),
        "the listing cannot be written: broken"
    );
}
