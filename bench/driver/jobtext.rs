//! Host code, not proved: prints a workload of the benchmark as a job's text, for order-large.
//!
//!   jobtext NAME P SIZE WAITING

mod workloads;

use std::io::Write;

use workloads::{workload, Size};

fn main() {
    let words: Vec<String> = std::env::args().skip(1).collect();
    let words: Vec<&str> = words.iter().map(String::as_str).collect();
    let [name, p, size, waiting] = words[..] else { fail("NAME P SIZE WAITING expected") };
    let size = Size { places: number(size), waiting: number(waiting) };
    let made = workload(name, size).unwrap_or_else(|| {
        fail(&format!("no workload is called {name}: {}", workloads::NAMES.join(", ")))
    });
    let mut out = std::io::BufWriter::with_capacity(1 << 16, std::io::stdout().lock());
    let head = writeln!(out, "parallelism={}\nplaces={}", number(p), made.capacity());
    let written = head.and_then(|()| write_calls(&made.calls, &mut out)).and_then(|()| out.flush());
    if let Err(error) = written {
        fail(&format!("the job cannot be written: {error}"));
    }
}

/// The calls, one after another, from their encoding (docs/REPLAY.md).
fn write_calls(numbers: &[u64], out: &mut impl Write) -> std::io::Result<()> {
    let mut numbers = numbers.iter();
    while let Some(tag) = numbers.next() {
        match tag {
            1 => writeln!(out, "set={}", numbers.next().expect("a place"))?,
            2 => write_lists(&mut numbers, out)?,
            5 => {
                writeln!(out, "lane={}", numbers.next().expect("a lane"))?;
                write_lists(&mut numbers, out)?;
            }
            3 => writeln!(out, "flush=1")?,
            _ => writeln!(out, "final=1")?,
        }
    }
    Ok(())
}

fn write_lists(numbers: &mut std::slice::Iter<u64>, out: &mut impl Write) -> std::io::Result<()> {
    write_list("in=", numbers, out)?;
    write_list("out=", numbers, out)
}

fn write_list(key: &str, numbers: &mut std::slice::Iter<u64>, out: &mut impl Write) -> std::io::Result<()> {
    write!(out, "{key}")?;
    let count = *numbers.next().expect("a count") as usize;
    for (i, place) in numbers.take(count).enumerate() {
        let comma = if i == 0 { "" } else { "," };
        write!(out, "{comma}{place}")?;
    }
    writeln!(out)
}

fn number(word: &str) -> usize {
    word.parse().unwrap_or_else(|_| fail(&format!("{word} is no number")))
}

fn fail(message: &str) -> ! {
    eprintln!("jobtext: {message}");
    std::process::exit(2)
}
