//! Host code, not proved: the Rust behind order-large's own reading and printing, a job from a file,
//! its listing on standard output. The Rust knows no lanes: they are left out of the calls, and listed as 0.
//!
//!   large SIDE FILE    SIDE is published or ordered

use std::fs::File;
use std::io::BufReader;

use witness_order::large::listing::{Head, Listed, Listing};
use witness_order::large::{self, Job};

macro_rules! list {
    ($library:ident, $job:ident) => {{
        let mut sorter = $library::Sorter::open($job.p as u32, $job.v as usize);
        sorter.run_encoded($job.calls.numbers());
        let listing = std::cell::RefCell::new(Listing::new(std::io::stdout().lock()));
        let told = "the listing is written";
        sorter.tell(
            |entries, places, floor, median| {
                let (entries, places) = (entries as u64, places as u64);
                let head = Head { entries, places, floor: floor.into(), median: median as u64 };
                listing.borrow_mut().head(&head).expect(told)
            },
            |added, accepted, parallelism, written| {
                let listed = Listed { added, accepted, parallelism, written, lane: 0 };
                listing.borrow_mut().entry(listed).expect(told)
            },
        );
        listing.borrow_mut().finish().expect(told);
    }};
}

fn main() {
    let words: Vec<String> = std::env::args().skip(1).collect();
    let [side, path] = &words[..] else { fail("SIDE FILE expected") };
    let file = File::open(path).unwrap_or_else(|error| fail(&format!("{path}: {error}")));
    let job = read(BufReader::with_capacity(1 << 18, file));
    match side.as_str() {
        "published" => list!(published, job),
        "ordered" => list!(ordered, job),
        _ => fail("published or ordered expected"),
    }
}

fn read(input: BufReader<File>) -> Job {
    match large::read(input, &mut ()) {
        Ok(Ok(job)) if job.ended.is_ok() => job,
        Ok(_) => fail("the job is refused"),
        Err(failure) => fail(&failure.to_string()),
    }
}

fn fail(message: &str) -> ! {
    eprintln!("large: {message}");
    std::process::exit(2)
}
