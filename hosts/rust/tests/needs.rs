//! Host code, not proved: what a job needs by the safe interface, beside what running it says.

use witness_order::{job, Needs};

const HEAD: &str = "parallelism=2\nplaces=6\n";

/// The four numbers, or the number and the line of the refusal.
fn asked(job: &[u8]) -> Result<[u64; 4], (u64, u64)> {
    match Needs::of(job) {
        Ok(needs) => Ok([
            needs.registrations,
            needs.pool,
            needs.flushes,
            needs.most_spans,
        ]),
        Err(rejected) => Err((rejected.refusal.number(), rejected.line)),
    }
}

#[test]
fn accepted_jobs_have_the_entries_that_they_need() {
    let accepted = [
        (
            "set=0\nin=0\nout=1\nin=1\nout=2\nin=0\nout=3\nin=\nout=4\nfinal=1\n",
            [4, 7, 0, 40],
        ),
        ("final=1\n", [0, 0, 0, 32]),
        (
            "flush=1\nin=\nout=\nflush=1\nin=\nout=0,1,2\nflush=1\nfinal=1\n",
            [2, 3, 3, 132],
        ),
        ("lane=255\nin=\nout=0\nfinal=1\n", [1, 1, 0, 34]),
    ];
    for (calls, needs) in accepted {
        let text = format!("{HEAD}{calls}");
        assert_eq!(asked(text.as_bytes()), Ok(needs), "{text}");
        let listing = job::run(text.as_bytes()).unwrap();
        let entries = format!("status=0\nentries={}\n", needs[0]);
        assert!(listing.starts_with(&entries), "{text}");
    }
}

/// Jobs that are well formed and refused when they are run: the number of that, their needs, their text.
fn refused_when_run() -> [(u64, [u64; 4], String); 8] {
    let many = vec!["0"; 4096].join(",");
    let head = |p, v| format!("parallelism={p}\nplaces={v}\n");
    let calls = |text| format!("{HEAD}{text}final=1\n");
    [
        (1, [0, 0, 0, 32], head(0, 6) + "final=1\n"),
        (2, [0, 0, 0, 32], head(65, 6) + "final=1\n"),
        (5, [1, 3, 0, 34], calls("in=6\nout=1,2\n")),
        (8, [0, 0, 0, 32], calls("set=0\nset=0\n")),
        (
            9,
            [2, 2, 0, 36],
            head(2, 1) + "in=\nout=0\nin=0\nout=\nfinal=1\n",
        ),
        (
            10,
            [1, 4097, 0, 34],
            calls(&format!("set=0\nin={many}\nout=1\n")),
        ),
        (12, [1, 2, 1, 66], calls("in=5\nout=1\nflush=1\n")),
        (18, [1, 1, 0, 34], calls("lane=256\nin=\nout=1\n")),
    ]
}

#[test]
fn calls_are_not_judged_and_lines_are() {
    for (number, needs, text) in refused_when_run() {
        let rejected = job::run(text.as_bytes()).unwrap_err();
        assert_eq!(rejected.refusal.number(), number, "{text}");
        assert_eq!(asked(text.as_bytes()), Ok(needs), "{text}");
        let lines = text.lines().count() as u64;
        for surplus in ["final=1\n", "\n", "x"] {
            let longer = text.clone() + surplus;
            assert_eq!(asked(longer.as_bytes()), Err((15, lines + 1)), "{longer}");
        }
        let other = text.replace("final=1", "final=2");
        assert_eq!(asked(other.as_bytes()), Err((15, lines)), "{other}");
    }
}

#[test]
fn what_is_refused_when_read_is_refused_by_both() {
    let refused = [
        (15, 1, String::new()),
        (15, 1, "parallelism=2".into()),
        (15, 1, "parallelism=18446744073709551616\nplaces=6\n".into()),
        (15, 2, "parallelism=2\n".into()),
        (15, 4, format!("{HEAD}set=0\n")),
        (15, 4, format!("{HEAD}in=0\nfinal=1\n")),
        (15, 4, format!("{HEAD}lane=0\nset=0\n")),
        (15, 4, format!("{HEAD}lane=0\n")),
        (15, 4, format!("{HEAD}in=0\nlane=0\nout=1\n")),
        (15, 3, format!("{HEAD}lane=00\nin=0\nout=1\n")),
        (15, 3, format!("{HEAD}final=1")),
        (15, 1, "#".repeat(65_536)),
        (16, 1, "#".repeat(65_537)),
        (16, 1, format!("{HEAD}final=1\n{}", "\n".repeat(65_537))),
    ];
    for (number, line, text) in refused {
        let rejected = Needs::of(text.as_bytes()).unwrap_err();
        assert_eq!((rejected.refusal.number(), rejected.line), (number, line));
        assert_eq!(rejected, job::run(text.as_bytes()).unwrap_err());
    }
}
