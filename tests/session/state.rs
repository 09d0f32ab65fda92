//! What a session's storage must say after a list of calls: from the reference model, or from the
//! answers that the oracle gave in text; and the comparison with storage.
//!
//! Of the storage everything is compared that document 01 fixes. It leaves free the layout inside the
//! waiting storage and the pool; they are read as docs/DECISIONS.md ("Storage") lays them out, and must
//! give the lists of the accepted adds, who waits under which place, and which places are taken. Of
//! the spans it leaves free which row a span has, and the slots past its length.

use crate::buffers::Buffers;
use crate::layout::{self, SPANS};
use crate::model;
use crate::summary::{self, Numbers, COUNTS, THOUSANDS};
use crate::{lane_of, Call};

/// What storage must say. Vectors of tuples have the numbers in the order of oracle/FORMAT.md; where lanes were told, the
/// last number of an entry and of a row has the lane in it, as in storage.
#[derive(Default)]
pub struct State {
    /// Whether lanes were told. Where they were not, as by the oracle, storage is compared less the lanes.
    labelled: bool,
    pub order: Vec<[u64; layout::ENTRY]>,
    /// One for each registration; all other rows are zeros.
    pub rows: Vec<[u64; layout::ROW]>,
    /// Place, mark, span, position of the places that are tracked, ascending.
    pub places: Vec<[u64; 4]>,
    /// The mark plus 1, or 0 where there is none.
    pub leading: u64,
    /// Places under which some wait, ascending, with the registrations that do.
    pub waiting: Vec<(u64, Vec<u64>)>,
    /// Parallelism and count, where that is not 0.
    pub tally: Vec<(u64, u64)>,
    /// The summary of the tally; nothing, where none was told.
    pub summary: Option<Numbers>,
    /// The lengths of the window's spans.
    pub lengths: Vec<u64>,
    /// Value, added, accepted and 0, the parallelism still, of the entries in the window, span by span.
    pub held: Vec<[u64; layout::ENTRY]>,
}

impl State {
    pub fn of_model(session: &model::Session) -> Self {
        let window = &session.window;
        let tracked = session
            .places
            .iter()
            .enumerate()
            .filter(|(_, place)| place.mark != 0);
        let counted = window
            .tally
            .iter()
            .enumerate()
            .filter(|(_, count)| **count != 0);
        Self {
            labelled: true,
            order: window.order.iter().map(model::Entry::numbers).collect(),
            rows: session.rows.iter().map(model::Row::numbers).collect(),
            places: tracked
                .map(|(i, place)| {
                    let location = place.location;
                    [
                        i as u64,
                        place.mark.into(),
                        location.span,
                        location.position,
                    ]
                })
                .collect(),
            leading: session.leading,
            waiting: session
                .waiting
                .iter()
                .map(|(place, registrations)| (*place, registrations.clone()))
                .collect(),
            tally: counted.map(|(i, count)| (i as u64, *count)).collect(),
            summary: Some(numbers_of(&model::Summary::of(&window.tally))),
            lengths: window.spans.iter().map(|span| span.len() as u64).collect(),
            held: window
                .spans
                .iter()
                .flatten()
                .map(model::Entry::numbers)
                .collect(),
        }
    }

    /// Puts lanes into the last numbers of tuples, one for each.
    pub fn label<const N: usize>(
        &mut self,
        tuples: impl Fn(&mut Self) -> &mut Vec<[u64; N]>,
        lanes: &[u64],
    ) -> Result<(), String> {
        self.labelled = true;
        let tuples = tuples(self);
        if tuples.len() != lanes.len() {
            let (told, wanted) = (lanes.len(), tuples.len());
            return Err(format!("{told} lanes are told of {wanted}"));
        }
        for (tuple, lane) in tuples.iter_mut().zip(lanes) {
            tuple[N - 1] += u64::from(layout::LANE_RADIX) * lane;
        }
        Ok(())
    }

    /// The numbers of an entry or a row in storage, without the lane where none was told.
    fn found<const N: usize>(&self, numbers: &[u32]) -> [u64; N] {
        let mut found = std::array::from_fn(|i| numbers[i].into());
        if !self.labelled {
            found[N - 1] %= u64::from(layout::LANE_RADIX);
        }
        found
    }

    /// Compares an accepted replay's storage, after calls with these numbers.
    pub fn compare(
        &self,
        buffers: &Buffers,
        p: u64,
        calls: &[Call],
        codes: &[u64],
    ) -> Result<(), String> {
        self.compare_results(buffers, p, codes)?;
        self.compare_waiting(buffers)?;
        let list_numbers = compare_lists(buffers, calls, codes)?;
        buffers.check_frame(self.order.len(), list_numbers)
    }

    /// The same of the slices that an ascending session has too: all but the waiting storage and the pool.
    pub fn compare_results(&self, buffers: &Buffers, p: u64, codes: &[u64]) -> Result<(), String> {
        let entries = buffers
            .returned
            .map_err(|code| format!("the replay is refused with {code}"))?;
        for (i, (found, wanted)) in buffers.answers.needed().iter().zip(codes).enumerate() {
            same(|| format!("the number of call {i}"), *found, *wanted)?;
        }
        let what = || "the order's length".to_owned();
        same(what, entries as u64, self.order.len() as u64)?;
        self.compare_order(buffers)?;
        self.compare_rows(buffers)?;
        self.compare_places(buffers)?;
        self.compare_tally(buffers)?;
        self.compare_summary(buffers)?;
        self.compare_spans(buffers, p)
    }

    fn compare_order(&self, buffers: &Buffers) -> Result<(), String> {
        let entries = buffers.order.needed().chunks_exact(layout::ENTRY);
        for (i, (found, wanted)) in entries.zip(&self.order).enumerate() {
            same_tuple("order entry", i, self.found(found), *wanted)?;
        }
        Ok(())
    }

    fn compare_rows(&self, buffers: &Buffers) -> Result<(), String> {
        let wanted = self.rows.iter().copied().chain(std::iter::repeat([0; layout::ROW]));
        for (i, (found, wanted)) in buffers
            .rows
            .needed()
            .chunks_exact(layout::ROW)
            .zip(wanted)
            .enumerate()
        {
            same_tuple("row", i, self.found(found), wanted)?;
        }
        Ok(())
    }

    fn compare_places(&self, buffers: &Buffers) -> Result<(), String> {
        let mut tracked = self.places.iter().peekable();
        let found = buffers
            .marks
            .needed()
            .iter()
            .zip(buffers.locations.needed());
        for (i, (&mark, &location)) in found.enumerate() {
            let wanted = tracked.next_if(|place| place[0] == i as u64);
            let [_, wanted_mark, span, position] = wanted.copied().unwrap_or_default();
            if u64::from(mark) != wanted_mark || location != (span << 32) + position {
                return Err(format!(
                    "place {i} has mark {mark} and location {},{}, not {wanted_mark} and {span},{position}",
                    location >> 32,
                    location & 0xFFFF_FFFF
                ));
            }
        }
        let what = || "the count of leading tracked places".to_owned();
        same(what, leading(buffers), self.leading)
    }

    fn compare_tally(&self, buffers: &Buffers) -> Result<(), String> {
        let found = buffers.tally.needed().iter().enumerate();
        let found = found.filter(|(_, count)| **count != 0);
        let found: Vec<(u64, u64)> = found
            .map(|(i, count)| (i as u64, (*count).into()))
            .collect();
        match found == self.tally {
            true => Ok(()),
            false => Err(format!("the tally is {found:?}, not {:?}", self.tally)),
        }
    }

    /// The summary of the tally, bit for bit.
    fn compare_summary(&self, buffers: &Buffers) -> Result<(), String> {
        let Some(wanted) = self.summary else {
            return Ok(());
        };
        let found = summary::of_tally(buffers.tally.needed())?;
        for (i, (found, wanted)) in found.into_iter().zip(wanted).enumerate() {
            let what = || format!("number {i} of the summary");
            same(what, found.into(), wanted.into())?;
        }
        Ok(())
    }

    /// Each span that holds entries has a row of its own that begins with them.
    fn compare_spans(&self, buffers: &Buffers, p: u64) -> Result<(), String> {
        let row_numbers = layout::ENTRY * (p as usize + 1);
        let rows: Vec<&[u32]> = buffers.spans.needed().chunks_exact(row_numbers).collect();
        let mut taken = [false; SPANS];
        let mut entries = &self.held[..];
        for (i, &length) in self
            .lengths
            .iter()
            .enumerate()
            .filter(|(_, length)| **length != 0)
        {
            let (span, rest) = entries.split_at(length as usize);
            entries = rest;
            let begins = |row: &[u32]| {
                let entries = row.chunks_exact(layout::ENTRY);
                let mut both = entries.zip(span);
                both.all(|(found, wanted)| self.found(found) == *wanted)
            };
            match (0..SPANS).find(|&row| !taken[row] && begins(rows[row])) {
                Some(row) => taken[row] = true,
                None => return Err(format!("no row of the spans has the entries of span {i}")),
            }
        }
        Ok(())
    }

    /// The chains of the places from the mark on: those who wait, the newest first.
    fn compare_waiting(&self, buffers: &Buffers) -> Result<(), String> {
        let v = buffers.marks.needed().len() as u64;
        let mut wanted = self.waiting.iter().peekable();
        for place in self.leading..v {
            let wanted = wanted.next_if(|(under, _)| *under == place);
            let wanted = wanted.map_or(&[][..], |(_, registrations)| registrations);
            let mut found = chain(buffers, place)?;
            found.reverse();
            if found != wanted {
                return Err(format!(
                    "under place {place} wait {found:?}, not {wanted:?}"
                ));
            }
        }
        match wanted.next() {
            None => Ok(()),
            Some((place, _)) => Err(format!(
                "under place {place}, at or below the mark, some wait"
            )),
        }
    }
}

/// Who waits under a place, as the waiting storage chains them.
fn chain(buffers: &Buffers, place: u64) -> Result<Vec<u64>, String> {
    let waiting = buffers.waiting.needed();
    let v = waiting.len() / layout::WAITING;
    let (heads, links) = (&waiting[..v], &waiting[v..2 * v]);
    let mut found = Vec::new();
    let mut link = heads[place as usize];
    while link != 0 {
        if link > v as u64 || found.len() == v {
            return Err(format!(
                "the chain under place {place} is broken or too long"
            ));
        }
        found.push(link - 1);
        link = links[link as usize - 1];
    }
    Ok(found)
}

/// How many places from 0 on are tracked, by the stored marks.
fn leading(buffers: &Buffers) -> u64 {
    let marks = buffers.marks.needed().iter();
    marks.take_while(|mark| **mark != 0).count() as u64
}

/// How many wait, by the stored marks and chains.
pub fn count_waiting(buffers: &Buffers) -> Result<usize, String> {
    let places = leading(buffers)..buffers.marks.needed().len() as u64;
    let counts = places.map(|place| Ok(chain(buffers, place)?.len()));
    counts.sum()
}

/// The model's summary, laid out as `order_summary` lays it out.
fn numbers_of(summary: &model::Summary) -> Numbers {
    let mut numbers = [0; 195];
    numbers[0] = summary.average;
    numbers[1] = summary.median as u32;
    for (i, count) in summary.low.iter().enumerate() {
        numbers[COUNTS + i] = *count as u32;
    }
    for (i, sum) in summary.thousands.iter().enumerate() {
        numbers[THOUSANDS + i] = *sum as u32;
    }
    numbers
}

/// The lists and lanes of the accepted adds, read from pool and waiting storage, and the places taken by
/// them and by the accepted sets. Gives the count of list numbers.
fn compare_lists(buffers: &Buffers, calls: &[Call], codes: &[u64]) -> Result<usize, String> {
    let waiting = buffers.waiting.needed();
    let v = waiting.len() / layout::WAITING;
    let (lists, flags) = (&waiting[2 * v..3 * v], &waiting[3 * v..]);
    let pool = buffers.pool.needed();
    let mut taken = vec![false; v];
    let (mut registration, mut used) = (0, 0);
    for call in calls
        .iter()
        .zip(codes)
        .filter(|(_, code)| **code == 0)
        .map(|(call, _)| call)
    {
        match call {
            Call::Set(place) => taken[*place as usize] = true,
            Call::Add(inputs, outputs) | Call::AddInLane(_, inputs, outputs) => {
                let wanted = ((used as u64) << 24) + ((inputs.len() as u64) << 8) + lane_of(call);
                same(
                    || format!("the cell of registration {registration}"),
                    lists[registration],
                    wanted,
                )?;
                let length = inputs.len() + outputs.len();
                let found = pool[used..used + length]
                    .iter()
                    .map(|number| u64::from(*number));
                if !found.eq(inputs.iter().chain(outputs).copied()) {
                    return Err(format!("the lists of registration {registration} differ"));
                }
                outputs
                    .iter()
                    .for_each(|place| taken[*place as usize] = true);
                used += length;
                registration += 1;
            }
            Call::Flush | Call::Final => {}
        }
    }
    for (place, (flag, taken)) in flags.iter().zip(taken).enumerate() {
        same(|| format!("the flag of place {place}"), *flag, taken.into())?;
    }
    Ok(used)
}

fn same(what: impl Fn() -> String, found: u64, wanted: u64) -> Result<(), String> {
    match found == wanted {
        true => Ok(()),
        false => Err(format!("{} is {found}, not {wanted}", what())),
    }
}

fn same_tuple<const N: usize>(
    what: &str,
    i: usize,
    found: [u64; N],
    wanted: [u64; N],
) -> Result<(), String> {
    match found == wanted {
        true => Ok(()),
        false => Err(format!("{what} {i} is {found:?}, not {wanted:?}")),
    }
}
