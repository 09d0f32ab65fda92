//! Host code, not proved: `order-large`, jobs of any size from a file or standard input, by the proved
//! `replay_calls`. docs/LARGE.md describes it.

use std::fmt;
use std::fs::File;
use std::io::{self, BufReader, IsTerminal, Read, Write};
use std::process::ExitCode;
use std::sync::atomic::{AtomicBool, Ordering};
use std::time::{Duration, Instant};

use witness_order::large::{
    self, text::Quoted, Failure, Job, Memory, Options, Progress, Rejection,
};
use witness_order::Reason;

const HELP: &str = "\
usage: order-large [OPTION..] [FILE]

Reads a job from FILE, or from standard input where FILE is missing or -, and prints its execution
order, or for a refused job its `status=` and `line=`. The text is that of the program `order`, with
a parallelism of up to 64,999, up to 16,777,216 places, and job and listing of any length.

  --pool W     refuse adds whose lists would take the list numbers past W (10); without it there is
               room for all of them
  --words      say on standard error why a job is refused, with the line quoted
  --dry-run    read the job and say the memory it would take, but place nothing
  --help       print this
  --version    print the version

Exit status: 0 if the job is accepted, 1 if it is refused, 2 if the command is misused, the job
cannot be read, the listing cannot be written or the memory does not suffice.
";

/// What the command line asks for.
struct Asked {
    options: Options,
    words: bool,
    dry_run: bool,
    /// None is standard input.
    file: Option<String>,
}

enum Command {
    Run(Asked),
    Print(String),
}

/// The sentence with which the program ends, its status 2.
struct Stop(String);

// ---- Streams that are closed

/// Whether standard input and standard output were closed when the program was started.
static CLOSED: [AtomicBool; 2] = [AtomicBool::new(false), AtomicBool::new(false)];

/// Looks at the two streams before `main`: Rust's start-up puts /dev/null in the place of a closed one,
/// after which a lost listing looks like one that was written.
extern "C" fn look_at_streams() {
    extern "C" {
        fn fcntl(descriptor: i32, command: i32, ...) -> i32;
    }
    const GET_FLAGS: i32 = 1; // F_GETFD, which fails for a closed descriptor and for no other
    for (descriptor, closed) in (0..).zip(&CLOSED) {
        // SAFETY: F_GETFD takes no argument and touches no memory of the program.
        let flags = unsafe { fcntl(descriptor, GET_FLAGS) };
        closed.store(flags < 0, Ordering::Relaxed);
    }
}

/// What stands in this section the C library calls before Rust's start-up.
#[used]
#[link_section = ".init_array"]
static LOOK_FIRST: extern "C" fn() = look_at_streams;

/// Standard input, unless it was closed.
fn input() -> Result<io::StdinLock<'static>, Stop> {
    match CLOSED[0].load(Ordering::Relaxed) {
        true => Err(Stop(
            "standard input cannot be read: it is closed".to_owned(),
        )),
        false => Ok(io::stdin().lock()),
    }
}

/// Standard output, unless it was closed.
fn output() -> Result<io::StdoutLock<'static>, Stop> {
    match CLOSED[1].load(Ordering::Relaxed) {
        true => Err(Stop(
            "standard output cannot be written: it is closed".to_owned(),
        )),
        false => Ok(io::stdout().lock()),
    }
}

// ---- The command

fn main() -> ExitCode {
    let words = std::env::args_os().skip(1).map(|word| word.into_string());
    let ended = match words.collect::<Result<Vec<String>, _>>() {
        Ok(words) => command(&words).and_then(carry_out),
        Err(word) => Err(Stop(format!(
            "the argument {} is no text in UTF-8",
            word.to_string_lossy()
        ))),
    };
    match ended {
        Ok(status) => status,
        Err(Stop(sentence)) => {
            say(format_args!("order-large: {sentence}"));
            ExitCode::from(2)
        }
    }
}

/// A line on standard error; where that is closed there is nobody to tell.
fn say(line: fmt::Arguments) {
    let _ = writeln!(io::stderr(), "{line}");
}

fn misused(sentence: String) -> Stop {
    Stop(format!("{sentence}; see order-large --help"))
}

fn command(words: &[String]) -> Result<Command, Stop> {
    let mut asked = Asked {
        options: Options::default(),
        words: false,
        dry_run: false,
        file: None,
    };
    let mut files: Vec<&String> = Vec::new();
    let mut words = words.iter();
    while let Some(word) = words.next() {
        match word.as_str() {
            "--help" | "-h" => return Ok(Command::Print(HELP.to_owned())),
            "--version" => {
                return Ok(Command::Print(format!(
                    "order-large {}\n",
                    witness_order::VERSION
                )))
            }
            "--words" => {
                asked.words = true;
                asked.options.reasons = true;
            }
            "--dry-run" => asked.dry_run = true,
            "--pool" => match words.next() {
                Some(number) => asked.options.pool = Some(pool(number)?),
                None => return Err(misused("--pool wants a number".to_owned())),
            },
            "--" => files.extend(words.by_ref()),
            _ => match word.strip_prefix("--pool=") {
                Some(number) => asked.options.pool = Some(pool(number)?),
                None if word.starts_with('-') && word != "-" => {
                    return Err(misused(format!("{word} is no option")))
                }
                None => files.push(word),
            },
        }
    }
    match files[..] {
        [] => {}
        [file] if file == "-" => {}
        [file] => asked.file = Some(file.clone()),
        _ => return Err(misused(format!("one job at a time, not {}", files.len()))),
    }
    Ok(Command::Run(asked))
}

fn pool(word: &str) -> Result<u64, Stop> {
    let digits = !word.is_empty() && word.bytes().all(|byte| byte.is_ascii_digit());
    match word.parse() {
        Ok(number) if digits => Ok(number),
        _ => Err(misused(format!(
            "--pool wants a number below 2^64, not `{word}`"
        ))),
    }
}

fn carry_out(command: Command) -> Result<ExitCode, Stop> {
    let asked = match command {
        Command::Print(text) => return print(&text),
        Command::Run(asked) => asked,
    };
    let (name, file, length) = match &asked.file {
        None => ("standard input", None, None),
        Some(path) => {
            let (file, length) = open(path)?;
            (path.as_str(), Some(file), length)
        }
    };
    let input: Box<dyn Read> = match file {
        Some(file) => Box::new(file),
        None => Box::new(input()?),
    };
    let input = BufReader::with_capacity(1 << 18, input);
    let output = output()?;
    let mut shown: Box<dyn Progress> = match io::stderr().is_terminal() {
        true => Box::new(Shown::new(length)),
        false => Box::new(()),
    };
    let ended = match asked.dry_run {
        true => dry_run(input, output, &asked, &mut *shown),
        false => large::run(input, output, &asked.options, &mut *shown),
    };
    drop(shown);
    match ended {
        Ok(Ok(())) => Ok(ExitCode::SUCCESS),
        Ok(Err(rejection)) => {
            if asked.words {
                say_words(&rejection);
            }
            Ok(ExitCode::from(1))
        }
        Err(failure) => Err(stop(failure, name)),
    }
}

fn open(path: &str) -> Result<(File, Option<u64>), Stop> {
    let cannot = |error: io::Error| Stop(format!("{path} cannot be read: {error}"));
    let file = File::open(path).map_err(cannot)?;
    let about = file.metadata().map_err(cannot)?;
    if about.is_dir() {
        return Err(Stop(format!("{path} is a directory, not a job")));
    }
    let length = about.is_file().then_some(about.len());
    Ok((file, length))
}

fn stop(failure: Failure, name: &str) -> Stop {
    match failure {
        Failure::Input(error) => Stop(format!("{name} cannot be read: {error}")),
        Failure::Output(error) if error.kind() == io::ErrorKind::BrokenPipe => {
            Stop("standard output was closed before all was written".to_owned())
        }
        Failure::Output(error) => Stop(format!("standard output cannot be written: {error}")),
        Failure::Memory(_) => Stop(failure.to_string()),
    }
}

fn print(text: &str) -> Result<ExitCode, Stop> {
    let mut out = output()?;
    let written = out.write_all(text.as_bytes()).and_then(|()| out.flush());
    match written {
        Ok(()) => Ok(ExitCode::SUCCESS),
        Err(error) => Err(stop(Failure::Output(error), "")),
    }
}

/// Says the memory that a job takes, in bytes, or that its head or a line of it is refused.
fn dry_run(
    input: impl io::BufRead,
    mut out: impl Write,
    asked: &Asked,
    progress: &mut dyn Progress,
) -> Result<Result<(), Rejection>, Failure> {
    let verdict = large::read(input, progress)?.and_then(|job| {
        let text = memory_text(&job, &asked.options);
        job.ended.map(|()| text).map_err(Rejection::from)
    });
    let text = match &verdict {
        Ok(text) => text.clone(),
        Err(rejection) => format!(
            "status={}\nline={}\n",
            rejection.refusal.number(),
            rejection.line
        ),
    };
    let written = out.write_all(text.as_bytes());
    written
        .and_then(|()| out.flush())
        .map_err(Failure::Output)?;
    Ok(verdict.map(|_| ()))
}

fn memory_text(job: &Job, options: &Options) -> String {
    let memory = job.memory(options);
    let Memory {
        storage,
        pool,
        calls,
        answers,
    } = memory;
    let mut text = format!("parallelism={}\nplaces={}\n", job.p, job.v);
    text += &format!(
        "calls={}\nlist_numbers={}\n",
        job.calls.len(),
        job.calls.list_numbers()
    );
    text += &format!("storage_bytes={storage}\npool_bytes={pool}\n");
    text += &format!("calls_bytes={calls}\nanswers_bytes={answers}\n");
    text + &format!("memory_bytes={}\n", memory.total())
}

// ---- A refusal in words

fn say_words(rejection: &Rejection) {
    let Rejection {
        refusal,
        line,
        expected,
        quoted,
        waiting,
    } = rejection;
    let (number, name) = (refusal.number(), refusal.name());
    say(format_args!(
        "order-large: line {line}: refused with {number} ({name}): {refusal}"
    ));
    for (line, quoted) in quoted {
        say(format_args!("{line:>6} | {}", quote(quoted)));
    }
    if let Some((r, Reason { input, place })) = waiting {
        say(format_args!(
            "order-large: registration {r} waits: its greatest input is {input}, and place {place} is the lowest untracked one"
        ));
    }
    match expected {
        Some(expected) => say(format_args!("order-large: expected: {expected}")),
        None => say(format_args!("order-large: {}", refusal.advice())),
    }
}

/// The line with all but plain letters escaped, so that a terminal shows it as it is.
fn quote(quoted: &Quoted) -> String {
    let (start, more, note) = match quoted {
        Quoted::Missing => return "(the job ends before this line)".to_owned(),
        Quoted::Line { start, more } => (start, more, ""),
        Quoted::NotEnded { start, more } => (start, more, " (not ended by a line feed)"),
    };
    let plain = |byte: &u8| match byte {
        b' '..=b'~' => (*byte as char).to_string(),
        _ => byte.escape_ascii().to_string(),
    };
    let text: String = start.iter().map(plain).collect();
    text + if *more { ".." } else { "" } + note
}

// ---- Progress

/// Shows on a terminal how far a long job is.
struct Shown {
    /// The job's length, where it is known.
    length: Option<u64>,
    began: Instant,
    last: Instant,
    /// Calls of `read` or `written` since the clock was last looked at.
    since: u32,
    shown: bool,
}

impl Shown {
    fn new(length: Option<u64>) -> Self {
        let now = Instant::now();
        Self {
            length,
            began: now,
            last: now,
            since: 0,
            shown: false,
        }
    }

    /// Whether it is time to show something: after a second, and then four times a second.
    fn due(&mut self) -> bool {
        self.since += 1;
        if self.since < 4096 {
            return false;
        }
        self.since = 0;
        let now = Instant::now();
        let due = now - self.began > Duration::from_secs(1)
            && now - self.last > Duration::from_millis(250);
        if due {
            self.last = now;
        }
        due
    }

    fn show(&mut self, text: fmt::Arguments) {
        self.shown = true;
        // Back to the line's start, and what is left of the text before is cleared.
        let mut out = io::stderr();
        let _ = write!(out, "\r\x1b[Korder-large: {text}").and_then(|()| out.flush());
    }
}

impl Progress for Shown {
    fn read(&mut self, bytes: u64) {
        if !self.due() {
            return;
        }
        let megabytes = bytes / 1_000_000;
        match self.length {
            Some(length) if length > 0 => {
                let part = 100 * u128::from(bytes) / u128::from(length);
                self.show(format_args!("reading, {megabytes} MB, {part} %"))
            }
            _ => self.show(format_args!("reading, {megabytes} MB")),
        }
    }

    fn placing(&mut self, calls: usize) {
        if calls > 1_000_000 {
            self.show(format_args!("placing {calls} calls"));
        }
    }

    fn written(&mut self, entries: usize, of: usize) {
        if self.due() {
            self.show(format_args!("writing, {entries} of {of} entries"));
        }
    }
}

impl Drop for Shown {
    fn drop(&mut self) {
        if self.shown {
            let mut out = io::stderr();
            let _ = write!(out, "\r\x1b[K").and_then(|()| out.flush());
        }
    }
}
