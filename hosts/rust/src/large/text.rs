//! Host code, not proved: a job's text read line by line into a list of calls. The grammar is that of
//! crates/rules/specs/Job.antt.
//!
//! No line is kept whole: a list that is long is read in pieces, any other long line is malformed, and
//! at the first malformed number or line the reading ends. So a line without an end takes no more
//! memory than another.

use std::io::{self, BufRead};

use super::{Failure, Progress};
use crate::calls::{Call, Calls};
use crate::layout::{MOST_LISTED, TAG_ADD, TAG_FINAL, TAG_FLUSH, TAG_LANE_ADD, TAG_SET};

/// What stands on a line that is quoted.
#[derive(Clone, Debug, PartialEq, Eq)]
pub enum Quoted {
    /// A line, or as much of its beginning as is kept.
    Line { start: Vec<u8>, more: bool },
    /// Bytes that no byte 10 ends.
    NotEnded { start: Vec<u8>, more: bool },
    /// The job ended before this line.
    Missing,
}

/// The first line that is malformed, missing or surplus.
#[derive(Clone, Debug, PartialEq, Eq)]
pub struct Malformed {
    /// From 1.
    pub line: u64,
    /// What should have stood there.
    pub expected: &'static str,
    pub quoted: Quoted,
}

/// How many bytes of a line are kept for quoting.
const QUOTED_BYTES: usize = 120;
/// So many bytes of a line are read at first: more than a line has that is no list, and than is quoted.
const START_BYTES: usize = QUOTED_BYTES + 1;
/// The most digits of a number.
const NUMBER_BYTES: usize = 20;
/// So many bytes of the rest of a list are read at a time.
const PIECE_BYTES: usize = 1 << 12;
/// So many numbers of a list are kept: with one more than it may have it is refused all the same.
const KEPT_NUMBERS: usize = MOST_LISTED + 1;

fn shortened(line: &[u8]) -> (Vec<u8>, bool) {
    let kept = line.len().min(QUOTED_BYTES);
    (line[..kept].to_vec(), kept < line.len())
}

/// What the next line turned out to be.
#[derive(Clone, Copy, PartialEq, Eq)]
enum Next {
    /// All of it is read.
    Line,
    /// It has more than the bytes that are read at first.
    Long,
    NotEnded,
    Missing,
}

/// What ends a piece of a line.
enum End {
    /// Byte 10.
    Line,
    /// Nothing: the line may go on.
    Piece,
    /// The job ends, and the piece has no bytes.
    Job,
}

/// Reads a job: first its head, then its calls.
#[derive(Debug)]
pub struct Reader<R> {
    input: R,
    /// The line last read, without its byte 10, or the start of a long one.
    line: Vec<u8>,
    /// The number of that line.
    number: u64,
    bytes: u64,
}

/// What a part of a job came to: read whole, or only to a malformed line.
pub type Part<T> = Result<T, Malformed>;

impl<R: BufRead> Reader<R> {
    pub fn new(input: R) -> Self {
        Self {
            input,
            line: Vec::new(),
            number: 0,
            bytes: 0,
        }
    }

    /// The two lines of the head: parallelism and places.
    pub fn head(&mut self) -> Result<Part<(u64, u64)>, Failure> {
        let p = match self.head_line(b"parallelism=", "`parallelism=N`, on line 1")? {
            Ok(p) => p,
            Err(malformed) => return Ok(Err(malformed)),
        };
        let v = self.head_line(b"places=", "`places=N`, on line 2")?;
        Ok(v.map(|v| (p, v)))
    }

    fn head_line(&mut self, key: &[u8], expected: &'static str) -> Result<Part<u64>, Failure> {
        let next = self.next()?;
        let value = self.line.strip_prefix(key).and_then(number);
        Ok(match (next, value) {
            (Next::Line, Some(value)) => Ok(value),
            _ => Err(self.malformed(next, expected)),
        })
    }

    /// The calls after the head: up to `final=1`, which ends the job, or to the first malformed line.
    pub fn calls(&mut self, progress: &mut dyn Progress) -> Result<(Calls, Part<()>), Failure> {
        let mut calls = Calls::new();
        let ended = loop {
            match self.call(&mut calls)? {
                Ok(false) => progress.read(self.bytes),
                Ok(true) => break self.end()?,
                Err(malformed) => break Err(malformed),
            }
        };
        // What was taken in advance while the list grew goes back before storage is allocated.
        calls.numbers.shrink_to_fit();
        Ok((calls, ended))
    }

    /// One more call put at the end of the list; says whether it is the final one.
    fn call(&mut self, calls: &mut Calls) -> Result<Part<bool>, Failure> {
        const CALL: &str = "`set=N`, `lane=N` followed by `in=LIST`, `in=LIST` followed by \
                            `out=LIST`, `flush=1` or `final=1`";
        let next = self.next()?;
        let start = calls.numbers.len();
        make_room(calls, self.line.len())?;
        if self.line.starts_with(b"in=") && matches!(next, Next::Line | Next::Long) {
            calls.numbers.push(TAG_ADD);
            let expected = "`in=LIST` with numbers and single commas";
            return self.add(next, calls, start, expected);
        }
        if next != Next::Line {
            return Ok(Err(self.malformed(next, CALL)));
        }
        let numbers = &mut calls.numbers;
        let line = &self.line[..];
        let mut last = false;
        if let Some(place) = line.strip_prefix(b"set=").and_then(number) {
            numbers.extend([TAG_SET, place]);
        } else if let Some(lane) = line.strip_prefix(b"lane=").and_then(number) {
            numbers.extend([TAG_LANE_ADD, lane]);
            let next = self.next()?;
            make_room(calls, self.line.len())?;
            return self.add(next, calls, start, "`in=LIST`, after `lane=N`");
        } else if line == b"flush=1" {
            numbers.push(TAG_FLUSH);
        } else if line == b"final=1" {
            numbers.push(TAG_FINAL);
            last = true;
        } else {
            return Ok(Err(self.malformed(next, CALL)));
        }
        calls.count += 1;
        Ok(Ok(last))
    }

    /// The add whose numbers start there, of which those before the inputs are put: its `in=` line, which
    /// is the one last read, and its `out=` line. Without them there is no such add.
    fn add(
        &mut self,
        next: Next,
        calls: &mut Calls,
        start: usize,
        expected: &'static str,
    ) -> Result<Part<bool>, Failure> {
        let lists = calls.numbers.len();
        if !self.list(next, b"in=", calls)? {
            calls.numbers.truncate(start);
            return Ok(Err(self.malformed(next, expected)));
        }
        let next = self.next()?;
        make_room(calls, self.line.len())?;
        if !self.list(next, b"out=", calls)? {
            calls.numbers.truncate(start);
            return Ok(Err(self.malformed(next, "`out=LIST`, after `in=LIST`")));
        }
        calls.count += 1;
        // All numbers of the two lists but their counts.
        calls.list_numbers += calls.numbers.len() - lists - 2;
        Ok(Ok(false))
    }

    /// The end of the job: after `final=1` anything more is surplus.
    fn end(&mut self) -> Result<Part<()>, Failure> {
        Ok(match self.next()? {
            Next::Missing => Ok(()),
            next => Err(self.malformed(next, "nothing, after `final=1`")),
        })
    }

    /// The list of the line last read, behind its key: its count and its numbers are put at the end of
    /// the calls. Says whether the line has that key and is well formed.
    fn list(&mut self, next: Next, key: &[u8], calls: &mut Calls) -> Result<bool, Failure> {
        let start = calls.numbers.len();
        calls.numbers.push(0);
        let well_formed = match (next, self.line.strip_prefix(key)) {
            (Next::Line, Some(list)) => {
                list.is_empty() || put_numbers(list, &mut calls.numbers, start)
            }
            (Next::Long, Some(list)) => self.long_list(list.to_vec(), calls, start)?,
            _ => false,
        };
        calls.numbers[start] = (calls.numbers.len() - start - 1) as u64;
        Ok(well_formed)
    }

    /// The numbers of a list whose text goes on behind what is read of it.
    fn long_list(
        &mut self,
        mut text: Vec<u8>,
        calls: &mut Calls,
        start: usize,
    ) -> Result<bool, Failure> {
        loop {
            // The last number may go on, too.
            match text.iter().rposition(|byte| *byte == b',') {
                Some(comma) if put_numbers(&text[..comma], &mut calls.numbers, start) => {
                    text.drain(..=comma);
                }
                None if text.len() <= NUMBER_BYTES => {}
                _ => return Ok(false),
            }
            make_room(calls, NUMBER_BYTES + PIECE_BYTES)?;
            match self.piece(PIECE_BYTES, |piece| text.extend_from_slice(piece))? {
                End::Line => return Ok(put_numbers(&text, &mut calls.numbers, start)),
                End::Piece => {}
                End::Job => return Ok(false),
            }
        }
    }

    /// Reads the next line, or the start of a long one.
    fn next(&mut self) -> Result<Next, Failure> {
        self.number += 1;
        let mut line = std::mem::take(&mut self.line);
        line.clear();
        let next = loop {
            let room = START_BYTES - line.len();
            if room == 0 {
                break Next::Long;
            }
            match self.piece(room, |piece| line.extend_from_slice(piece))? {
                End::Line => break Next::Line,
                End::Piece => {}
                End::Job if line.is_empty() => break Next::Missing,
                End::Job => break Next::NotEnded,
            }
        };
        self.line = line;
        Ok(next)
    }

    /// Hands over the next bytes of a line, at most so many, and says what ended them.
    fn piece(&mut self, most: usize, take: impl FnOnce(&[u8])) -> Result<End, Failure> {
        loop {
            let available = match self.input.fill_buf() {
                Ok(available) => available,
                Err(error) if error.kind() == io::ErrorKind::Interrupted => continue,
                Err(error) => return Err(Failure::Input(error)),
            };
            let piece = &available[..available.len().min(most)];
            if piece.is_empty() {
                return Ok(End::Job);
            }
            let end = piece.iter().position(|byte| *byte == b'\n');
            take(&piece[..end.unwrap_or(piece.len())]);
            let used = end.map_or(piece.len(), |end| end + 1);
            self.input.consume(used);
            self.bytes += used as u64;
            return Ok(match end {
                Some(_) => End::Line,
                None => End::Piece,
            });
        }
    }

    fn malformed(&self, next: Next, expected: &'static str) -> Malformed {
        let (start, more) = shortened(&self.line);
        Malformed {
            line: self.number,
            expected,
            quoted: match next {
                Next::Line | Next::Long => Quoted::Line { start, more },
                Next::NotEnded => Quoted::NotEnded { start, more },
                Next::Missing => Quoted::Missing,
            },
        }
    }
}

/// A number: 1 to 20 digits, no leading zero but 0 itself, 64 bits.
fn number(digits: &[u8]) -> Option<u64> {
    let leading_zero = digits.len() > 1 && digits[0] == b'0';
    if digits.is_empty() || digits.len() > NUMBER_BYTES || leading_zero {
        return None;
    }
    digits.iter().try_fold(0u64, |value, digit| match digit {
        b'0'..=b'9' => value.checked_mul(10)?.checked_add(u64::from(digit - b'0')),
        _ => None,
    })
}

/// Room for the numbers of so many bytes of a list, with what stands around them, so that putting them
/// does not fail.
fn make_room(calls: &mut Calls, bytes: usize) -> Result<(), Failure> {
    let count = bytes / 2 + 4;
    let needed = 8 * (calls.numbers.len() + count) as u64;
    let room = calls.numbers.try_reserve(count);
    room.map_err(|_| Failure::Memory(needed))
}

/// Puts the numbers of a list, or of a part of it, at the end, where the list's count stands at
/// `start`; says whether all are well formed. Past one more than a list may have they are not kept.
fn put_numbers(text: &[u8], numbers: &mut Vec<u64>, start: usize) -> bool {
    for field in text.split(|byte| *byte == b',') {
        match number(field) {
            Some(number) if numbers.len() - start <= KEPT_NUMBERS => numbers.push(number),
            Some(_) => {}
            None => return false,
        }
    }
    true
}

/// The lines of one call of a job: numbered, as they stood there. A well-formed line can be told from
/// its numbers, since each has one form only.
pub fn call_lines(calls: &Calls, index: usize) -> Vec<(u64, Quoted)> {
    let mut line = 3;
    for call in calls.iter().take(index) {
        line += match call {
            Call::Add(..) => 2,
            Call::AddInLane(..) => 3,
            Call::Set(_) | Call::Flush | Call::Final => 1,
        };
    }
    let quoted = |text: String| {
        let (start, more) = shortened(text.as_bytes());
        Quoted::Line { start, more }
    };
    let lines = calls.iter().nth(index).map_or(vec![], texts);
    (line..).zip(lines.into_iter().map(quoted)).collect()
}

/// The texts of a call's lines, of a list as much as is quoted.
fn texts(call: Call<&[u64]>) -> Vec<String> {
    let add = |inputs, outputs| {
        let (inputs, outputs) = (list_start(inputs), list_start(outputs));
        vec![format!("in={inputs}"), format!("out={outputs}")]
    };
    match call {
        Call::Set(place) => vec![format!("set={place}")],
        Call::Add(inputs, outputs) => add(inputs, outputs),
        Call::AddInLane(lane, inputs, outputs) => {
            [vec![format!("lane={lane}")], add(inputs, outputs)].concat()
        }
        Call::Flush => vec!["flush=1".to_owned()],
        Call::Final => vec!["final=1".to_owned()],
    }
}

/// A list's text, or as much of it as is quoted.
fn list_start(list: &[u64]) -> String {
    let start = list.iter().take(QUOTED_BYTES).map(u64::to_string);
    start.collect::<Vec<_>>().join(",")
}

#[cfg(test)]
mod tests {
    use super::*;

    /// The numbers that the line `in=TEXT` puts, a 9 standing before them, read so many bytes at a time.
    fn listed(text: &str, size: usize) -> Option<Vec<u64>> {
        let line = format!("in={text}\n");
        let mut reader = Reader::new(io::BufReader::with_capacity(size, line.as_bytes()));
        let mut calls = Calls::new();
        calls.numbers.push(9);
        let next = reader.next().unwrap();
        make_room(&mut calls, reader.line.len()).unwrap();
        let well_formed = reader.list(next, b"in=", &mut calls).unwrap();
        well_formed.then_some(calls.numbers)
    }

    #[test]
    fn numbers_have_one_form() {
        let right = ["0", "7", "10", "18446744073709551615"];
        for text in right {
            let value = text.parse().unwrap();
            assert_eq!(number(text.as_bytes()), Some(value));
            assert_eq!(listed(text, 3), Some(vec![9, 1, value]));
        }
        let wrong = [
            "",
            "00",
            "01",
            "+1",
            "-1",
            " 1",
            "1 ",
            "1a",
            "18446744073709551616",
            "1844674407370955161a",
            "100000000000000000000",
        ];
        for text in wrong {
            assert_eq!(number(text.as_bytes()), None, "{text}");
            assert_eq!(listed(&format!("1,{text}"), 3), None, "{text}");
        }
    }

    #[test]
    fn lists_use_single_commas() {
        for size in 1..6 {
            assert_eq!(listed("", size), Some(vec![9, 0]));
            assert_eq!(listed("5", size), Some(vec![9, 1, 5]));
            assert_eq!(listed("5,0,15", size), Some(vec![9, 3, 5, 0, 15]));
            for text in [",", "1,", ",1", "1,,2", "1, 2", "a"] {
                assert_eq!(listed(text, size), None, "{text}");
                let long = vec!["3"; 100].join(",");
                for text in [format!("{long},{text}"), format!("{text},{long}")] {
                    assert_eq!(listed(&text, size), None, "{text}");
                }
            }
        }
    }

    #[test]
    fn a_list_is_kept_up_to_one_number_too_many() {
        for count in [65_534, 65_535, 65_536, 65_537, 200_000] {
            let list = vec!["12"; count].join(",");
            let kept = count.min(65_536);
            let numbers = listed(&list, 1000).unwrap();
            assert_eq!((numbers[1], numbers.len()), (kept as u64, 2 + kept));
            assert!(numbers[2..].iter().all(|number| *number == 12));
            assert_eq!(listed(&(list + ","), 1000), None, "{count} numbers");
        }
    }

    #[test]
    fn a_line_may_be_read_in_any_pieces() {
        let long = vec!["10"; 9000].join(",");
        let job = format!(
            "parallelism=2\nplaces=6\nset=0\nin=0\nout=1,2\nin={long}\nout=3\nflush=1\n\
             lane=7\nin={long}\nout=4\nfinal=1\n"
        );
        let whole = read_in_pieces(job.as_bytes(), 1 << 16);
        let calls = Calls::new().set(0).add(&[0], &[1, 2]);
        let calls = calls.add(&[10; 9000], &[3]).flush();
        let calls = calls.add_in_lane(7, &[10; 9000], &[4]).finish();
        assert_eq!(whole, calls);
        for size in (1..70).chain([115, 121, 122, 4095, 4096, 4097]) {
            let read = read_in_pieces(job.as_bytes(), size);
            assert_eq!(read, whole, "{size} bytes at a time");
        }
    }

    fn read_in_pieces(job: &[u8], size: usize) -> Calls {
        let mut reader = Reader::new(io::BufReader::with_capacity(size, job));
        assert_eq!(reader.head().unwrap(), Ok((2, 6)));
        let (calls, ended) = reader.calls(&mut ()).unwrap();
        assert_eq!(ended, Ok(()));
        calls
    }

    /// The calls that are read behind a head, and the line that is malformed, if one is, with what should
    /// have stood there.
    fn read_calls(text: &str) -> (Calls, Option<(u64, &'static str)>) {
        let job = format!("parallelism=2\nplaces=6\n{text}");
        let mut reader = Reader::new(job.as_bytes());
        assert_eq!(reader.head().unwrap(), Ok((2, 6)));
        let (calls, ended) = reader.calls(&mut ()).unwrap();
        let malformed = ended.err();
        (calls, malformed.map(|found| (found.line, found.expected)))
    }

    #[test]
    fn a_lane_stands_before_the_inputs() {
        for lane in [0, 1, 255, 256, u64::MAX] {
            let text = format!("in=\nout=0\nlane={lane}\nin=0\nout=1,2\nset=3\nfinal=1\n");
            let calls = Calls::new().add(&[], &[0]);
            let calls = calls.add_in_lane(lane, &[0], &[1, 2]).set(3).finish();
            assert_eq!(read_calls(&text), (calls, None));
        }
    }

    #[test]
    fn after_a_lane_only_inputs() {
        let rest = "\nin=\nout=1\nfinal=1\n";
        let inputs = "`in=LIST`, after `lane=N`";
        for next in [
            "lane=1", "set=0", "out=1", "flush=1", "final=1", "in=0,", "",
        ] {
            let (calls, malformed) = read_calls(&format!("lane=0\n{next}{rest}"));
            assert_eq!((calls, malformed), (Calls::new(), Some((4, inputs))));
        }
        for text in ["lane=0\n", "lane=0\nin=0"] {
            assert_eq!(read_calls(text), (Calls::new(), Some((4, inputs))));
        }
        let outputs = "`out=LIST`, after `in=LIST`";
        for text in ["in=0\nlane=1\nout=1\n", "in=0\n", "in=0\nout=,\n"] {
            let (calls, malformed) = read_calls(text);
            assert_eq!((calls, malformed), (Calls::new(), Some((4, outputs))));
            let (calls, malformed) = read_calls(&format!("lane=256\n{text}"));
            assert_eq!((calls, malformed), (Calls::new(), Some((5, outputs))));
        }
    }

    #[test]
    fn a_malformed_lane_is_no_call() {
        let wrong = [
            "",
            "01",
            "+1",
            "1 ",
            "1,2",
            "18446744073709551616",
            "100000000000000000000",
        ];
        for lane in wrong {
            let (calls, malformed) = read_calls(&format!("set=0\nlane={lane}\nin=\nout=1\n"));
            let line = malformed.map(|(line, _)| line);
            assert_eq!((calls, line), (Calls::new().set(0), Some(4)), "{lane}");
        }
        let (_, malformed) = read_calls("lane=1");
        assert_eq!(malformed.map(|(line, _)| line), Some(3), "no line end");
    }

    #[test]
    fn a_call_is_quoted_with_its_lines() {
        let calls = Calls::new().set(0).add(&[0, 1], &[]).flush();
        let calls = calls.add_in_lane(256, &[], &[1]).finish();
        let text = |index| -> Vec<(u64, String)> {
            let lines = call_lines(&calls, index).into_iter();
            let text = lines.map(|(line, quoted)| match quoted {
                Quoted::Line { start, more: false } => (line, String::from_utf8(start).unwrap()),
                _ => panic!("{quoted:?}"),
            });
            text.collect()
        };
        assert_eq!(text(0), [(3, "set=0".to_owned())]);
        assert_eq!(text(1), [(4, "in=0,1".to_owned()), (5, "out=".to_owned())]);
        assert_eq!(text(2), [(6, "flush=1".to_owned())]);
        let labelled = ["lane=256", "in=", "out=1"].map(str::to_owned);
        assert_eq!(text(3), Vec::from_iter((7..).zip(labelled)));
        assert_eq!(text(4), [(10, "final=1".to_owned())]);
    }
}
