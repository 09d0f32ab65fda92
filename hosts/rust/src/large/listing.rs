//! Host code, not proved: the listing of a job, written entry by entry. Its form is that of
//! crates/rules/specs/Listing.antt.

use std::io::{self, Write};

/// The first lines of an accepted job's listing.
#[derive(Clone, Copy, Debug, PartialEq, Eq)]
pub struct Head {
    pub entries: u64,
    /// As final fixed them.
    pub places: u64,
    pub floor: u64,
    pub median: u64,
}

/// An entry as it is listed.
#[derive(Clone, Copy, Debug, PartialEq, Eq)]
pub struct Listed {
    pub added: u32,
    pub accepted: u32,
    pub parallelism: u32,
    pub written: u32,
    pub lane: u32,
}

/// Writes listings; the bytes go through a buffer of its own.
#[derive(Debug)]
pub struct Listing<W> {
    output: W,
    buffer: Vec<u8>,
    /// The order index of the entry that comes next.
    index: u64,
}

/// How many bytes are written at once.
const BUFFER: usize = 1 << 16;
/// The longest line has fewer bytes.
const LINE: usize = 256;

impl<W: Write> Listing<W> {
    pub fn new(output: W) -> Self {
        Self {
            output,
            buffer: Vec::with_capacity(BUFFER),
            index: 0,
        }
    }

    /// The two lines of a refused job, which are all that it has.
    pub fn refused(&mut self, number: u64, line: u64) -> io::Result<()> {
        self.field(b"status=", number);
        self.field(b"\nline=", line);
        self.end_line()
    }

    /// The lines before the entries.
    pub fn head(&mut self, head: &Head) -> io::Result<()> {
        self.field(b"status=", 0);
        self.field(b"\nentries=", head.entries);
        self.field(b"\nplaces=", head.places);
        self.field(b"\nfloor=", head.floor);
        self.field(b"\nmedian=", head.median);
        self.end_line()
    }

    /// The line of the next entry.
    pub fn entry(&mut self, listed: Listed) -> io::Result<()> {
        self.field(b"order=", self.index);
        self.field(b" added=", listed.added.into());
        self.field(b" accepted=", listed.accepted.into());
        self.field(b" parallelism=", listed.parallelism.into());
        self.field(b" written=", listed.written.into());
        self.field(b" lane=", listed.lane.into());
        self.index += 1;
        self.end_line()
    }

    /// Writes what is left. The listing is complete only when this has succeeded.
    pub fn finish(&mut self) -> io::Result<()> {
        self.put_out()?;
        self.output.flush()
    }

    fn field(&mut self, word: &[u8], mut number: u64) {
        self.buffer.extend_from_slice(word);
        let mut digits = [0; 20];
        let mut start = digits.len();
        loop {
            start -= 1;
            digits[start] = b'0' + (number % 10) as u8;
            number /= 10;
            if number == 0 {
                break;
            }
        }
        self.buffer.extend_from_slice(&digits[start..]);
    }

    fn end_line(&mut self) -> io::Result<()> {
        self.buffer.push(b'\n');
        if self.buffer.len() > BUFFER - LINE {
            self.put_out()?;
        }
        Ok(())
    }

    fn put_out(&mut self) -> io::Result<()> {
        self.output.write_all(&self.buffer)?;
        self.buffer.clear();
        Ok(())
    }
}

#[cfg(test)]
mod tests {
    use super::*;

    #[test]
    fn numbers_are_decimal() {
        let mut text = Vec::new();
        let mut listing = Listing::new(&mut text);
        listing.refused(u64::MAX, 0).unwrap();
        listing.refused(10, 1_000_009).unwrap();
        listing.finish().unwrap();
        assert_eq!(
            text,
            b"status=18446744073709551615\nline=0\nstatus=10\nline=1000009\n"
        );
    }

    #[test]
    fn the_greatest_line_fits() {
        let greatest = Listed {
            added: u32::MAX,
            accepted: u32::MAX,
            parallelism: u32::MAX,
            written: u32::MAX,
            lane: u32::MAX,
        };
        let mut text = Vec::new();
        let mut listing = Listing {
            index: u64::MAX - 1,
            ..Listing::new(&mut text)
        };
        listing.entry(greatest).unwrap();
        listing.finish().unwrap();
        assert!(text.len() < LINE, "{} bytes", text.len());
    }
}
