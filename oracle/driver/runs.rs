//! Runs made on the Rust: the recording sorter (`Session`), the guide alone (`Guide`) and the older
//! position guide (`Spans`). Each makes calls and says what it holds, in the words of FORMAT.md.

use std::cell::Cell;
use std::fmt::{Display, Write};
use std::sync::atomic::{AtomicBool, AtomicIsize};
use std::sync::Arc;

use crate::config::{DontPerformRuntimeAsserts, Resolver};
use crate::cs::Place;
use crate::dag::guide::{BufferGuide, GuideLoc, GuideMetadata, GuideOrder, OrderInfo, SpansGuide};
use crate::dag::primitives::ResolverIx;
use crate::dag::resolvers::mt::sorters::sorter_live::{
    LiveRecordingResolverSorter, NullRecordWriter,
};
use crate::dag::resolvers::mt::sorters::{sorter_playback, ResolverSortingMode};
use crate::dag::resolvers::mt::{ResolverCommonData, ResolverComms};
use crate::dag::CircuitResolverOpts;
use crate::field::{Element, SmallField};
use crate::utils::UnsafeCellEx;
use crate::Call;

type Config = Resolver<DontPerformRuntimeAsserts>;

pub trait Run {
    /// Makes the call and says how things stand after it.
    fn call(&mut self, call: &Call) -> String;

    /// Says everything at the end, one answer a line.
    fn end(self) -> Vec<String>;
}

// ---- the recording sorter

pub struct Session {
    sorter: LiveRecordingResolverSorter<Element, Config, NullRecordWriter>,
    common: Arc<ResolverCommonData<Element, GuideLoc>>,
    /// The lists of each registration, as they were given.
    given: Vec<(Vec<Place>, Vec<Place>)>,
    closed: bool,
}

impl Session {
    pub fn new(parallelism: u32, places: usize) -> Self {
        let options = CircuitResolverOpts {
            max_variables: places,
            desired_parallelism: parallelism,
        };
        let comms = Arc::new(ResolverComms {
            exec_order_buffer_hint: AtomicIsize::new(0),
            registration_complete: AtomicBool::new(false),
            rw_panicked: AtomicBool::new(false),
            rw_panic: Cell::new(None),
        });
        let (sorter, common) =
            LiveRecordingResolverSorter::new((options, NullRecordWriter()), comms, &[]);
        Self {
            sorter,
            common,
            given: Vec::new(),
            closed: false,
        }
    }

    /// The registration behind a resolver index, once its lists have come back as they were given.
    fn registration(&self, index: ResolverIx) -> u32 {
        let resolver = unsafe { self.common.resolvers.u_deref().get(index) };
        let (inputs, outputs) = &self.given[resolver.added_at() as usize];
        assert!(
            resolver.inputs() == inputs && resolver.outputs() == outputs,
            "a list was changed"
        );
        resolver.added_at()
    }

    fn mark(&self) -> String {
        match unsafe { self.common.values.u_deref().max_tracked } {
            -1 => "-".to_owned(),
            mark => mark.to_string(),
        }
    }

    fn rows(&mut self) -> String {
        let rows = sorter_playback::rows(self.sorter.retrieve_sequence());
        let (rows, beyond) = rows.split_at(self.given.len());
        let untouched = sorter_playback::Row {
            added: 0,
            accepted: 0,
            written: 0,
            index: 0,
            parallelism: 0,
        };
        assert!(
            beyond.iter().all(|row| *row == untouched),
            "a row of no registration was written"
        );
        line(
            "rows",
            rows.iter().map(|row| {
                let sorter_playback::Row {
                    added,
                    accepted,
                    written,
                    index,
                    parallelism,
                } = row;
                format!("{added},{accepted},{written},{index},{parallelism}")
            }),
        )
    }

    fn places(&self) -> String {
        let values = unsafe { self.common.values.u_deref() };
        let tracked = (0..values.variables.len()).filter_map(|place| {
            let (_, metadata) = values.get_item_ref(Place(place as u64));
            let mark = (metadata.is_tracked() as u16) << 15 | (metadata.is_resolved() as u16) << 14;
            let (span, position) = (metadata.tracker.span(), metadata.tracker.position());
            let zero = mark == 0 && span == 0 && position == 0;
            (!zero).then(|| format!("{place},{mark},{span},{position}"))
        });
        line("places", tracked)
    }

    fn waiting(&self) -> String {
        let mut chains: Vec<_> = self.sorter.registrar.peek_vars().iter().collect();
        chains.sort_by_key(|(place, _)| place.0);
        line(
            "waiting",
            chains.iter().map(|(place, indices)| {
                let registrations = indices
                    .iter()
                    .map(|index| self.registration(*index).to_string());
                format!(
                    "{},{}",
                    place.0,
                    registrations.collect::<Vec<_>>().join(",")
                )
            }),
        )
    }
}

impl Run for Session {
    fn call(&mut self, call: &Call) -> String {
        match call {
            Call::Set(place) => self
                .sorter
                .set_value(Place(*place), Element::from_u64_unchecked(1)),
            Call::Add(inputs, outputs) => {
                let places = |list: &[u64]| list.iter().map(|n| Place(*n)).collect::<Vec<_>>();
                let (inputs, outputs) = (places(inputs), places(outputs));
                self.given.push((inputs.clone(), outputs.clone()));
                // The closure is never run; its size, 0, is a multiple of 4 as the box asks.
                self.sorter.add_resolution(&inputs, &outputs, |_, _| ())
            }
            Call::Flush => self.sorter.flush(),
            Call::Final => {
                self.sorter.final_flush();
                self.closed = true;
            }
            _ => unreachable!("no call of a session"),
        }
        let length = self.common.exec_order.lock().unwrap().size;
        format!("{length} {} {}", self.mark(), window(&self.sorter.guide))
    }

    fn end(mut self) -> Vec<String> {
        let order = self.common.exec_order.lock().unwrap().items.clone();
        let mut answers = vec![
            line(
                "order",
                order
                    .iter()
                    .map(|item| entry(self.registration(item.value), &item.metadata)),
            ),
            self.rows(),
            self.places(),
            format!("mark {}", self.mark()),
            self.waiting(),
            tally(&self.sorter.guide),
            format!("window {}", window(&self.sorter.guide)),
            held(&self.sorter.guide, |index| self.registration(index)),
        ];
        if self.closed {
            let record = self.sorter.retrieve_sequence();
            answers.push(format!(
                "final {} {}",
                record.registrations_count, record.values_count
            ));
            // The sorter itself does this only in paranoia mode.
            let stats = &mut self.sorter.guide.stats;
            stats.finalize();
            answers.push(format!("average {}", stats.average().to_bits()));
            answers.push(format!("median {}", stats.median()));
            answers.push(counts("low", stats.low()));
            answers.push(counts("thousands", &stats.parallelism));
            assert!(
                stats.low().len() == 128 && stats.parallelism.len() == 65,
                "summary lengths"
            );
        }
        answers
    }
}

// ---- the guide alone

pub struct Guide {
    guide: BufferGuide<u32, Element, Config>,
    order: Vec<OrderInfo<u32>>,
    locations: Vec<GuideLoc>,
}

impl Guide {
    pub fn new(parallelism: u32) -> Self {
        Self {
            guide: BufferGuide::new(parallelism),
            order: Vec::new(),
            locations: Vec::new(),
        }
    }

    /// Appends what the order holds, as the sorter does.
    fn append<'a>(target: &mut Vec<OrderInfo<u32>>, order: impl GuideOrder<'a, u32>) {
        let blank = OrderInfo::new(0, GuideMetadata::new(0, 0, 0));
        target.resize(target.len() + order.size(), blank);
        order.write(target);
    }
}

impl Run for Guide {
    fn call(&mut self, call: &Call) -> String {
        let location = match call {
            Call::Push {
                value,
                added,
                accepted,
                after,
            } => {
                let after = after
                    .map(|(span, position)| GuideLoc::from((span as u64) << 32 | position as u64));
                let (location, order) = self.guide.push(*value, after, *added, *accepted);
                Self::append(&mut self.order, order);
                self.locations.push(location);
                format!("{},{}", location.span(), location.position())
            }
            Call::Flush => {
                Self::append(&mut self.order, self.guide.flush());
                "-".to_owned()
            }
            _ => unreachable!("no call of the guide alone"),
        };
        format!("{location} {} {}", self.order.len(), window(&self.guide))
    }

    fn end(self) -> Vec<String> {
        vec![
            line(
                "locations",
                self.locations
                    .iter()
                    .map(|location| format!("{},{}", location.span(), location.position())),
            ),
            line(
                "order",
                self.order
                    .iter()
                    .map(|item| entry(item.value, &item.metadata)),
            ),
            tally(&self.guide),
            format!("window {}", window(&self.guide)),
            held(&self.guide, |value| value),
        ]
    }
}

// ---- the older position guide

pub struct Spans {
    guide: SpansGuide<Element, Config>,
    acquired: Vec<String>,
    jumps: Vec<String>,
}

impl Spans {
    pub fn new(parallelism: u32) -> Self {
        Self {
            guide: SpansGuide::new(parallelism as usize),
            acquired: Vec::new(),
            jumps: Vec::new(),
        }
    }
}

impl Run for Spans {
    fn call(&mut self, call: &Call) -> String {
        let pair = |(a, b)| format!("{},{}", u32::from(a), u32::from(b));
        let answer = match call {
            Call::Acquire(after) => {
                let (position, jump) = self.guide.acquire_position(after.map(|n| n.into()));
                let position = u32::from(position);
                let answer = match jump {
                    Some(jump) => format!("{position},{}", pair(jump)),
                    None => position.to_string(),
                };
                self.acquired.push(answer.clone());
                answer
            }
            Call::Finalize => {
                self.jumps.push(line(
                    "jumps",
                    self.guide.finalize().iter().map(|j| pair(*j)),
                ));
                "-".to_owned()
            }
            _ => unreachable!("no call of the older guide"),
        };
        format!("{answer} {}", u32::from(self.guide.end))
    }

    fn end(self) -> Vec<String> {
        let mut answers = vec![line("acquired", self.acquired.iter())];
        answers.extend(self.jumps);
        answers.push(format!("reached {}", u32::from(self.guide.end)));
        answers.push(line(
            "spans",
            self.guide
                .window()
                .iter()
                .map(|(origin, next)| format!("{},{}", u32::from(*origin), u32::from(*next))),
        ));
        answers
    }
}

// ---- words that the runs share

fn line<T: Display>(word: &str, items: impl Iterator<Item = T>) -> String {
    let mut text = word.to_owned();
    for item in items {
        write!(text, " {item}").expect("writing to a string");
    }
    text
}

/// An entry of the order: value, added, accepted and parallelism.
fn entry(value: u32, metadata: &GuideMetadata) -> String {
    let (added, accepted) = (metadata.added_at(), metadata.accepted_at());
    format!("{value},{added},{accepted},{}", metadata.parallelism())
}

/// The first span number and the lengths up to the last that is not 0. The other 31 numbers follow
/// the first by ones, which is looked at here.
fn window<T: Copy + std::fmt::Debug>(guide: &BufferGuide<T, Element, Config>) -> String {
    let spans: Vec<(u32, usize)> = guide
        .window()
        .map(|(number, entries)| (number, entries.len()))
        .collect();
    let first = spans[0].0;
    assert!(spans.len() == 32, "the window has 32 spans");
    for (i, (number, _)) in spans.iter().enumerate() {
        assert!(
            *number == first + i as u32,
            "span numbers follow each other"
        );
    }
    let filled = spans
        .iter()
        .rposition(|(_, length)| *length > 0)
        .map_or(0, |i| i + 1);
    line(
        &first.to_string(),
        spans[..filled].iter().map(|(_, length)| length),
    )
}

/// The window's entries, span by span; their parallelism is not yet known.
fn held<T: Copy + std::fmt::Debug>(
    guide: &BufferGuide<T, Element, Config>,
    number: impl Fn(T) -> u32,
) -> String {
    let entries = guide.window().flat_map(|(_, entries)| entries);
    line(
        "held",
        entries.map(|item| {
            let (added, accepted) = (item.metadata.added_at(), item.metadata.accepted_at());
            format!("{},{added},{accepted}", number(item.value))
        }),
    )
}

fn tally<T>(guide: &BufferGuide<T, Element, Config>) -> String {
    counts("tally", &guide.stats.parallelism)
}

/// The counts that are not 0, each with its index.
fn counts(word: &str, counts: &[u32]) -> String {
    let some = counts.iter().enumerate().filter(|(_, count)| **count != 0);
    line(word, some.map(|(i, count)| format!("{i},{count}")))
}
