//! Host code, not proved: the benchmark's program. `bench time` runs workloads on every side and
//! prints a line of figures for each; `bench once` makes one run under a name that an instruction counter can look for.
//!
//!   bench sides                                      the sides that are linked in
//!   bench sides NAME P SIZE WAITING                  those of them that take this list: `ascending` only one in the profile
//!   bench storage                                    bytes that `replay` and `ascending_replay` are lent for each place
//!   bench time REPETITIONS SIDES NAME P SIZE WAITING
//!   bench once SIDE NAME P SIZE WAITING
//!
//! SIDES are names divided by commas. `once` prints the count of registrations; `SIDE-opening` makes
//! its run with an empty list of calls. A line of figures is, divided by tabs: workload, P, SIZE,
//! WAITING, V, registrations, side, nanoseconds of the opening and of the run, each the least of the
//! repetitions.

mod ours;
mod workloads;

use std::time::Duration;

use ours::{Lent, Session};
use workloads::{workload, Size, Workload};

/// One side: opens, runs the calls, and gives the order as a single number to compare sides by.
pub trait Side {
    fn open(&mut self, parallelism: u32, workload: &Workload);
    /// What `run` does again of the opening: nothing on the Rust's sides.
    fn reopen(&mut self) {}
    fn run(&mut self);
    fn close(&mut self) -> u64;
}

macro_rules! rust_side {
    ($name:ident, $library:ident) => {
        struct $name {
            calls: $library::Calls,
            sorter: Option<$library::Sorter>,
        }

        impl $name {
            fn boxed(calls: &[u64]) -> Box<dyn Side> {
                Box::new(Self { calls: $library::Calls::decoded(calls), sorter: None })
            }
        }

        impl Side for $name {
            fn open(&mut self, parallelism: u32, workload: &Workload) {
                self.sorter = Some($library::Sorter::open(parallelism, workload.capacity()));
            }

            fn run(&mut self) {
                self.sorter.as_mut().expect("an opened sorter").run(&self.calls)
            }

            fn close(&mut self) -> u64 {
                digest(self.sorter.take().expect("an opened sorter").order())
            }
        }
    };
}

rust_side!(Published, published);
rust_side!(Ordered, ordered);

struct Ours {
    session: Session,
    calls: Vec<u64>,
    lent: Option<Lent>,
    parallelism: u32,
    places: usize,
    registrations: usize,
}

impl Ours {
    fn boxed(session: Session, calls: &[u64]) -> Box<dyn Side> {
        let calls = calls.to_vec();
        Box::new(Self { session, calls, lent: None, parallelism: 0, places: 0, registrations: 0 })
    }
}

impl Side for Ours {
    fn open(&mut self, parallelism: u32, workload: &Workload) {
        self.parallelism = parallelism;
        self.places = workload.capacity();
        self.registrations = workload.registrations;
        self.lent = Some(Lent::new(self.session, parallelism, workload));
    }

    fn reopen(&mut self) {
        let lent = self.lent.as_mut().expect("lent storage");
        ours::run(lent, &[], self.parallelism, self.places)
    }

    fn run(&mut self) {
        let lent = self.lent.as_mut().expect("lent storage");
        ours::run(lent, &self.calls, self.parallelism, self.places)
    }

    fn close(&mut self) -> u64 {
        let lent = self.lent.take().expect("lent storage");
        assert!(lent.all_accepted(), "a call was refused");
        digest(lent.order(self.registrations))
    }
}

/// The sides that are linked in, with or without the one that takes only lists in the profile.
fn sides(ascending: bool) -> String {
    let mut names = vec!["published", "ordered"];
    if ours::linked(Session::Ordinary) {
        names.push("ours");
    }
    if ascending && ours::linked(Session::Ascending) {
        names.push("ascending");
    }
    names.join(",")
}

fn side(name: &str, calls: &[u64]) -> Box<dyn Side> {
    match name {
        "published" => Published::boxed(calls),
        "ordered" => Ordered::boxed(calls),
        "ours" if ours::linked(Session::Ordinary) => Ours::boxed(Session::Ordinary, calls),
        "ascending" if ours::linked(Session::Ascending) => Ours::boxed(Session::Ascending, calls),
        _ => fail(&format!("no side called {name} is linked in")),
    }
}

/// FNV-1a over the entries' numbers.
fn digest(order: impl Iterator<Item = (u32, u32, u32)>) -> u64 {
    order.fold(0xcbf29ce484222325, |hash, (added, accepted, parallelism)| {
        [added, accepted, parallelism]
            .iter()
            .fold(hash, |hash, number| (hash ^ *number as u64).wrapping_mul(0x100000001b3))
    })
}

/// What is measured runs under this name.
#[no_mangle]
#[inline(never)]
pub extern "C" fn measured(side: &mut Box<dyn Side>) {
    side.run()
}

/// The least times of the opening and of the run, and the order's digest.
struct Figures<'a> {
    name: &'a str,
    open: Duration,
    run: Duration,
    digest: u64,
}

/// How long it takes, in time that this thread really ran: other work of the machine does not count.
fn timed(work: impl FnOnce()) -> Duration {
    let start = thread_time();
    work();
    thread_time() - start
}

fn thread_time() -> Duration {
    const THREAD_CPUTIME: i32 = 3;
    let mut now = Time { seconds: 0, nanoseconds: 0 };
    // SAFETY: the system's own call, given a place for its answer.
    let told = unsafe { clock_gettime(THREAD_CPUTIME, &mut now) };
    assert!(told == 0, "no clock of the thread's time");
    Duration::new(now.seconds as u64, now.nanoseconds as u32)
}

/// One opening and one run, with nothing left over from the ones before. `replay` opens the session
/// itself, so the time of a run with no calls is taken off its run and added to its opening.
fn measure<'a>(name: &'a str, parallelism: u32, made: &Workload) -> Figures<'a> {
    let mut side = side(name, &made.calls);
    let open = timed(|| side.open(parallelism, made));
    let again = timed(|| side.reopen());
    let run = timed(|| measured(&mut side)).saturating_sub(again);
    Figures { name, open: open + again, run, digest: side.close() }
}

/// The sides in turn, as often as asked. Every order but that of the published registrar, which walks
/// a HashMap in no fixed order, must be the same.
fn time<'a>(
    repetitions: usize,
    names: &[&'a str],
    parallelism: u32,
    made: &Workload,
) -> Vec<Figures<'a>> {
    let mut least: Vec<Figures> =
        names.iter().map(|name| measure(name, parallelism, made)).collect();
    for _ in 1..repetitions {
        for side in &mut least {
            let again = measure(side.name, parallelism, made);
            side.open = side.open.min(again.open);
            side.run = side.run.min(again.run);
        }
    }
    let fixed = least.iter().filter(|side| side.name != "published");
    let digests: Vec<u64> = fixed.map(|side| side.digest).collect();
    assert!(digests.windows(2).all(|pair| pair[0] == pair[1]), "the sides' orders differ");
    least
}

#[repr(C)]
struct Time {
    seconds: i64,
    nanoseconds: i64,
}

extern "C" {
    fn clock_gettime(clock: i32, now: &mut Time) -> i32;
    fn mallopt(parameter: i32, value: i32) -> i32;
}

/// Large blocks always come fresh from the system, on every side: what earlier runs gave back is not
/// used again, so each run meets its memory for the first time.
fn fresh_memory() {
    const MMAP_THRESHOLD: i32 = -3;
    // SAFETY: glibc's own setting, made before any other thread runs.
    let set = unsafe { mallopt(MMAP_THRESHOLD, 1 << 17) };
    assert!(set == 1, "mallopt refused the threshold");
}

fn main() {
    fresh_memory();
    let words: Vec<String> = std::env::args().skip(1).collect();
    let words: Vec<&str> = words.iter().map(String::as_str).collect();
    match words[..] {
        ["sides"] => println!("{}", sides(true)),
        ["sides", name, parallelism, size, waiting] => {
            let (made, _) = asked(name, parallelism, size, waiting);
            println!("{}", sides(made.ascending))
        }
        ["storage"] => {
            let bytes = [Session::Ordinary, Session::Ascending].map(Lent::per_place);
            println!("{} {}", bytes[0], bytes[1])
        }
        ["time", repetitions, sides, name, parallelism, size, waiting] => {
            let (made, parallelism) = asked(name, parallelism, size, waiting);
            let sides: Vec<&str> = sides.split(',').collect();
            for side in time(number(repetitions), &sides, parallelism, &made) {
                let (v, registrations) = (made.capacity(), made.registrations);
                let (open, run) = (side.open.as_nanos(), side.run.as_nanos());
                println!(
                    "{name}\t{parallelism}\t{size}\t{waiting}\t{v}\t{registrations}\t{}\t{open}\t{run}",
                    side.name
                );
            }
        }
        ["once", name, workload, parallelism, size, waiting] => {
            let (made, parallelism) = asked(workload, parallelism, size, waiting);
            let (name, calls) = match name.strip_suffix("-opening") {
                Some(name) => (name, &[][..]),
                None => (name, &made.calls[..]),
            };
            let mut side = side(name, calls);
            side.open(parallelism, &made);
            measured(&mut side);
            println!("{}", made.registrations);
        }
        _ => fail("`sides`, `sides NAME P SIZE WAITING`, `storage`, `time REPETITIONS SIDES NAME P SIZE WAITING` or `once SIDE NAME P SIZE WAITING` expected"),
    }
}

fn asked(name: &str, parallelism: &str, size: &str, waiting: &str) -> (Workload, u32) {
    let size = Size { places: number(size), waiting: number(waiting) };
    let made = workload(name, size).unwrap_or_else(|| {
        fail(&format!("no workload is called {name}: {}", workloads::NAMES.join(", ")))
    });
    (made, number(parallelism) as u32)
}

fn number(word: &str) -> usize {
    word.parse().unwrap_or_else(|_| fail(&format!("{word} is no number")))
}

fn fail(message: &str) -> ! {
    eprintln!("bench: {message}");
    std::process::exit(2)
}
