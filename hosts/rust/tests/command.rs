//! Host code, not proved: the program `order-large` as a command: options, exit status, what it says.

use std::fs::{self, File};
use std::io::{Read, Write};
use std::path::PathBuf;
use std::process::{Command, Output, Stdio};

const J1: &str =
    "parallelism=2\nplaces=6\nset=0\nin=0\nout=1\nin=1\nout=2\nin=0\nout=3\nin=\nout=4\nfinal=1\n";

fn order_large(arguments: &[&str]) -> Command {
    let mut command = Command::new(env!("CARGO_BIN_EXE_order-large"));
    command.args(arguments).stdin(Stdio::null());
    command
}

/// A file of its own for each test.
fn file(name: &str, text: &[u8]) -> PathBuf {
    let path = PathBuf::from(env!("CARGO_TARGET_TMPDIR")).join(name);
    fs::write(&path, text).unwrap();
    path
}

fn run(arguments: &[&str], job: &str) -> (i32, String, String) {
    let mut command = order_large(arguments);
    command
        .stdin(Stdio::piped())
        .stdout(Stdio::piped())
        .stderr(Stdio::piped());
    let mut child = command.spawn().unwrap();
    // A command that is misused reads nothing.
    let _ = child.stdin.take().unwrap().write_all(job.as_bytes());
    told(child.wait_with_output().unwrap())
}

fn told(output: Output) -> (i32, String, String) {
    let text = |bytes| String::from_utf8(bytes).unwrap();
    (
        output.status.code().unwrap(),
        text(output.stdout),
        text(output.stderr),
    )
}

#[test]
fn a_job_from_standard_input_or_a_file() {
    let path = file("j1.job", J1.as_bytes());
    let path = path.to_str().unwrap();
    let (status, listing, said) = run(&[], J1);
    assert_eq!((status, said.as_str()), (0, ""));
    assert!(
        listing.starts_with("status=0\nentries=4\nplaces=5\nfloor=2\nmedian=2\norder=0 added=0 ")
    );
    for arguments in [
        &["-"][..],
        &["--", "-"],
        &["--words"],
        &["--pool", "100"],
        &["--pool=7"],
    ] {
        assert_eq!(
            run(arguments, J1),
            (0, listing.clone(), String::new()),
            "{arguments:?}"
        );
    }
    for arguments in [&[path][..], &["--", path], &["--words", path]] {
        assert_eq!(
            run(arguments, ""),
            (0, listing.clone(), String::new()),
            "{arguments:?}"
        );
    }
}

#[test]
fn a_refused_job_has_status_1() {
    let refused = "parallelism=2\nplaces=6\nset=0\nin=\nout=1,0\nfinal=1\n";
    let lines = "status=8\nline=5\n".to_owned();
    assert_eq!(run(&[], refused), (1, lines.clone(), String::new()));
    let (status, listing, said) = run(&["--words"], refused);
    assert_eq!((status, listing), (1, lines));
    let said: Vec<&str> = said.lines().collect();
    assert_eq!(said.len(), 4, "{said:?}");
    assert!(
        said[0].starts_with("order-large: line 5: refused with 8 (taken_place): a place to be set")
    );
    assert_eq!(said[1..3], ["     4 | in=", "     5 | out=1,0"]);
    assert!(said[3].starts_with("order-large: "));
}

#[test]
fn a_lane_is_quoted_with_its_registration() {
    let head = "parallelism=2\nplaces=6\n";
    let refused = format!("{head}lane=256\nin=\nout=1\nfinal=1\n");
    let (_, listing, said) = run(&["--words"], &refused);
    assert_eq!(listing, "status=18\nline=5\n");
    let said: Vec<&str> = said.lines().collect();
    let quoted = ["     3 | lane=256", "     4 | in=", "     5 | out=1"];
    assert_eq!(said[1..4], quoted);
    assert!(said[0].starts_with("order-large: line 5: refused with 18 (unknown_lane): "));
    let malformed = format!("{head}lane=1\nset=0\nfinal=1\n");
    let (_, listing, said) = run(&["--words"], &malformed);
    assert_eq!(listing, "status=15\nline=4\n");
    let expected = "order-large: expected: `in=LIST`, after `lane=N`";
    assert_eq!(said.lines().nth(2), Some(expected), "{said}");
}

#[test]
fn who_waits_at_the_final_is_said() {
    let head = "parallelism=2\nplaces=900\nin=\nout=0\nflush=1\n";
    for (calls, r, input, place) in [
        (
            "in=0\nout=1\nin=700,2\nout=3\nin=2\nout=4\nset=700\n",
            2,
            700,
            2,
        ),
        ("in=1\nout=1\n", 1, 1, 1),
    ] {
        let job = format!("{head}{calls}final=1\n");
        let (status, listing, words) = run(&["--words"], &job);
        let line = job.lines().count();
        assert_eq!((status, listing), (1, format!("status=12\nline={line}\n")));
        let words: Vec<&str> = words.lines().collect();
        assert_eq!(words.len(), 4, "{words:?}");
        assert_eq!(words[1], format!("{line:>6} | final=1"));
        let said =
            format!("registration {r} waits: its greatest input is {input}, and place {place} is");
        assert!(
            words[2].starts_with(&format!("order-large: {said}")),
            "{words:?}"
        );
    }
}

#[test]
fn words_quote_the_line() {
    for (job, quoted) in [
        ("", "     1 | (the job ends before this line)"),
        (
            "parallelism=2",
            "     1 | parallelism=2 (not ended by a line feed)",
        ),
        ("parallelism=2\nplaces=07\n", "     2 | places=07"),
        ("parallelism=0\nplaces=7\n", "     1 | parallelism=0"),
        (
            "parallelism=2\nplaces=7\nset=\u{1b}[2J\n",
            "     3 | set=\\x1b[2J",
        ),
        ("parallelism=2\nplaces=7\nset=7\n", "     3 | set=7"),
        (
            "parallelism=2\nplaces=7\nin=1\nout=\nfinal=1\n",
            "     5 | final=1",
        ),
    ] {
        let (status, _, said) = run(&["--words"], job);
        assert_eq!(status, 1);
        assert!(said.lines().any(|line| line == quoted), "{job:?}: {said}");
    }
    let long = format!("parallelism=2\nplaces=7\nset={}\n", "1".repeat(1 << 20));
    let (_, _, said) = run(&["--words"], &long);
    assert!(said.len() < 1000 && said.contains("111.."), "{said}");
    let (_, _, said) = run(&["--words"], "parallelism=2\nplaces=7\nin=\nfinal=1\n");
    assert!(
        said.contains("order-large: expected: `out=LIST`, after `in=LIST`"),
        "{said}"
    );
}

#[test]
fn help_and_version() {
    let (status, text, said) = run(&["--help"], "");
    assert_eq!((status, said.as_str()), (0, ""));
    for option in [
        "--pool W",
        "--words",
        "--dry-run",
        "--help",
        "--version",
        "Exit status",
    ] {
        assert!(text.contains(option), "{option}");
    }
    let version = include_str!("../../../VERSION").trim();
    assert_eq!(
        run(&["--version"], ""),
        (0, format!("order-large {version}\n"), String::new())
    );
    assert_eq!(version, env!("CARGO_PKG_VERSION"), "VERSION and Cargo.toml");
}

#[test]
fn misuse_has_status_2_and_prints_nothing() {
    for (arguments, sentence) in [
        (&["--nonsense"][..], "--nonsense is no option"),
        (&["-x"], "-x is no option"),
        (&["--pool"], "--pool wants a number"),
        (&["--pool", ""], "--pool wants a number below 2^64, not ``"),
        (
            &["--pool", "-1"],
            "--pool wants a number below 2^64, not `-1`",
        ),
        (
            &["--pool", "+1"],
            "--pool wants a number below 2^64, not `+1`",
        ),
        (
            &["--pool=1.5"],
            "--pool wants a number below 2^64, not `1.5`",
        ),
        (
            &["--pool", "18446744073709551616"],
            "--pool wants a number below 2^64, not",
        ),
        (&["--words=1"], "--words=1 is no option"),
        (&["--dry-run=1"], "--dry-run=1 is no option"),
        (&["a", "b"], "one job at a time, not 2"),
        (&["--", "--words", "b"], "one job at a time, not 2"),
        (
            &["no/such.job"],
            "no/such.job cannot be read: No such file or directory",
        ),
        (&["--", "--words"], "--words cannot be read: No such file"),
        (&[""], " cannot be read: No such file"),
        (&["."], ". is a directory, not a job"),
    ] {
        let (status, printed, said) = run(arguments, J1);
        assert_eq!((status, printed.as_str()), (2, ""), "{arguments:?}");
        assert!(
            said.starts_with("order-large: ") && said.contains(sentence),
            "{arguments:?}: {said}"
        );
        assert_eq!(said.lines().count(), 1, "{arguments:?}: {said}");
    }
}

#[cfg(unix)]
#[test]
fn an_argument_that_is_no_text() {
    use std::os::unix::ffi::OsStrExt;
    let mut command = order_large(&[]);
    let output = command
        .arg(std::ffi::OsStr::from_bytes(b"\xff.job"))
        .output()
        .unwrap();
    let (status, printed, said) = told(output);
    assert_eq!((status, printed.as_str()), (2, ""));
    assert!(said.contains("is no text in UTF-8"), "{said}");
}

#[test]
fn a_directory_as_standard_input() {
    let output = order_large(&[])
        .stdin(File::open(".").unwrap())
        .output()
        .unwrap();
    let (status, printed, said) = told(output);
    assert_eq!((status, printed.as_str()), (2, ""));
    assert!(
        said.contains("standard input cannot be read: Is a directory"),
        "{said}"
    );
}

#[test]
fn a_full_disk() {
    let path = file("full.job", J1.as_bytes());
    let path = path.to_str().unwrap();
    for arguments in [
        &[path][..],
        &["--dry-run", path],
        &["--help"],
        &["--version"],
    ] {
        let full = File::options().write(true).open("/dev/full").unwrap();
        let output = order_large(arguments).stdout(full).output().unwrap();
        let (status, _, said) = told(output);
        assert_eq!(status, 2, "{arguments:?}");
        let sentence = "order-large: standard output cannot be written: No space left on device";
        assert!(said.starts_with(sentence), "{arguments:?}: {said}");
    }
}

/// A command of the shell, in which $0 is the program.
fn shell(script: &str) -> (i32, String, String) {
    let mut command = Command::new("sh");
    command.args(["-c", script, env!("CARGO_BIN_EXE_order-large")]);
    told(command.stdin(Stdio::null()).output().unwrap())
}

#[test]
fn closed_streams_are_said() {
    let path = file("closed.job", J1.as_bytes());
    let path = path.display();
    let sentence = |of: &str| format!("order-large: standard {of}: it is closed\n");
    let (unread, unwritten) = (
        sentence("input cannot be read"),
        sentence("output cannot be written"),
    );
    for words in ["FILE", "--dry-run FILE", "--help", "--version"] {
        let words = words.replace("FILE", &format!("'{path}'"));
        let said = shell(&format!("\"$0\" {words} >&-"));
        assert_eq!(said, (2, String::new(), unwritten.clone()), "{words}");
    }
    for words in ["", "-", "--dry-run"] {
        let said = shell(&format!("\"$0\" {words} <&-"));
        assert_eq!(said, (2, String::new(), unread.clone()), "{words}");
    }
    // A closed stream that is not asked for, and /dev/null in any mode, are no failure.
    assert_eq!(shell(&format!("\"$0\" '{path}' <&-")), run(&[], J1));
    let nowhere = (0, String::new(), String::new());
    assert_eq!(shell(&format!("\"$0\" '{path}' 1<>/dev/null")), nowhere);
    assert_eq!(shell("\"$0\" 0<>/dev/null").0, 1);
    assert_eq!(shell(&format!("\"$0\" '{path}' 2>&-")), run(&[], J1));
}

#[cfg(unix)]
#[test]
fn a_reader_that_goes_is_said() {
    use std::os::fd::OwnedFd;
    use std::os::unix::net::UnixStream;
    let adds: String = (1..20_000)
        .map(|x| format!("in={}\nout={x}\n", x - 1))
        .collect();
    let job = format!("parallelism=4\nplaces=20000\nset=0\n{adds}final=1\n");
    let path = file("pipe.job", job.as_bytes());
    let path = path.to_str().unwrap();
    let sentence = "order-large: standard output was closed before all was written\n";
    // One that is gone before anything is written.
    for arguments in [
        &[path][..],
        &["--dry-run", path],
        &["--help"],
        &["--version"],
    ] {
        let (reader, writer) = UnixStream::pair().unwrap();
        drop(reader);
        let mut command = order_large(arguments);
        let output = command.stdout(OwnedFd::from(writer)).output().unwrap();
        let (status, _, said) = told(output);
        assert_eq!((status, said.as_str()), (2, sentence), "{arguments:?}");
    }
    // And one that goes in the middle: no pipe holds a listing so long.
    let mut command = order_large(&[path]);
    let mut child = command
        .stdout(Stdio::piped())
        .stderr(Stdio::piped())
        .spawn()
        .unwrap();
    let mut start = [0; 9];
    let mut reader = child.stdout.take().unwrap();
    reader.read_exact(&mut start).unwrap();
    drop(reader);
    assert_eq!(&start, b"status=0\n");
    let (status, _, said) = told(child.wait_with_output().unwrap());
    assert_eq!((status, said.as_str()), (2, sentence));
}

#[test]
fn a_dry_run_says_the_memory_and_places_nothing() {
    let (status, text, said) = run(&["--dry-run"], J1);
    assert_eq!((status, said.as_str()), (0, ""));
    let value = |key: &str| -> u64 {
        let line = text
            .lines()
            .find_map(|line| line.strip_prefix(&format!("{key}=")))
            .expect(key);
        line.parse().unwrap()
    };
    assert_eq!(
        (value("parallelism"), value("places"), value("calls")),
        (2, 6, 6)
    );
    assert_eq!((value("list_numbers"), value("pool_bytes")), (7, 28));
    let storage = witness_order::Storage::bytes(2, 6, 7).unwrap();
    assert_eq!(value("storage_bytes"), storage);
    assert_eq!(value("answers_bytes"), 48);
    let total = value("storage_bytes") + value("calls_bytes") + value("answers_bytes");
    assert_eq!(value("memory_bytes"), total);

    let (_, text, _) = run(&["--dry-run", "--pool", "3"], J1);
    assert!(text.contains("pool_bytes=12\n"), "{text}");
    assert_eq!(
        run(&["--dry-run"], "parallelism=0\nplaces=1\n"),
        (1, "status=1\nline=2\n".to_owned(), String::new())
    );
    assert_eq!(
        run(&["--dry-run"], "parallelism=1\nplaces=1\nset=0\nnonsense\n"),
        (1, "status=15\nline=4\n".to_owned(), String::new())
    );
    // What only a call finds is not looked for.
    let (status, text, _) = run(&["--dry-run"], "parallelism=1\nplaces=1\nset=9\nfinal=1\n");
    assert!(status == 0 && text.starts_with("parallelism=1\n"), "{text}");
}

/// A line that does not end, or not soon, takes no more memory than another.
#[cfg(target_os = "linux")]
#[test]
fn lines_without_an_end() {
    let start = "parallelism=2\\nplaces=6\\n";
    for (line, wanted) in [
        (
            "printf 'set='; tr '\\0' 1 </dev/zero",
            "status=15\nline=3\n",
        ),
        ("tr '\\0' x </dev/zero", "status=15\nline=3\n"),
        ("cat /dev/zero", "status=15\nline=3\n"),
        (
            "printf 'in=1,'; tr '\\0' , </dev/zero",
            "status=15\nline=3\n",
        ),
        ("printf 'in='; tr '\\0' 1 </dev/zero", "status=15\nline=3\n"),
        (
            "printf 'in='; yes 1, | head -n 20000000 | tr -d '\\n'; printf '1\\nout=0\\n'",
            "status=3\nline=4\n",
        ),
    ] {
        let job = format!("{{ printf '{start}'; {line}; }} 2>/dev/null");
        for words in ["", "--words"] {
            let limited = "prlimit --as=60000000 \"$0\"";
            let (status, printed, said) = shell(&format!("{job} | {limited} {words}"));
            assert_eq!((status, printed.as_str()), (1, wanted), "{line}: {said}");
        }
    }
}

/// With less memory than a job needs it says so. `prlimit` is a part of util-linux.
#[cfg(target_os = "linux")]
#[test]
fn too_little_memory() {
    let path = file(
        "memory.job",
        b"parallelism=64999\nplaces=16777216\nfinal=1\n",
    );
    let output = Command::new("prlimit")
        .args([
            "--as=500000000",
            env!("CARGO_BIN_EXE_order-large"),
            path.to_str().unwrap(),
        ])
        .output()
        .unwrap();
    let (status, printed, said) = told(output);
    assert_eq!((status, printed.as_str()), (2, ""));
    assert!(
        said.contains("bytes of memory are needed, and the system does not give them"),
        "{said}"
    );
}
