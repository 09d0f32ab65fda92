//! Host code, not proved: the Rust's recording sorter as a side of the benchmark. Lists of places are
//! made before the clock starts, so that what is measured is the sorter's own work.

use std::cell::Cell;
use std::sync::atomic::{AtomicBool, AtomicIsize};
use std::sync::Arc;

use crate::config::{DontPerformRuntimeAsserts, Resolver};
use crate::cs::Place;
use crate::dag::guide::GuideLoc;
use crate::dag::resolvers::mt::sorters::sorter_live::{
    LiveRecordingResolverSorter, NullRecordWriter,
};
use crate::dag::resolvers::mt::sorters::{sorter_playback, ResolverSortingMode};
use crate::dag::resolvers::mt::{ResolverCommonData, ResolverComms};
use crate::dag::CircuitResolverOpts;
use crate::field::{Element, SmallField};

type Config = Resolver<DontPerformRuntimeAsserts>;

enum Call {
    Set(Place),
    /// The inputs lie in `lists` from the first number on to the second, the outputs from there on to
    /// the third.
    Add(usize, usize, usize),
    Flush,
    Final,
}

/// A list of calls as the sorter takes them.
pub struct Calls {
    calls: Vec<Call>,
    lists: Vec<Place>,
}

impl Calls {
    /// Reads calls encoded as docs/REPLAY.md says; the list must be well formed. Lanes are left out.
    pub fn decoded(numbers: &[u64]) -> Self {
        let mut read = Self { calls: Vec::new(), lists: Vec::new() };
        let mut numbers = numbers.iter().copied();
        while let Some(tag) = numbers.next() {
            let call = match tag {
                1 => Call::Set(Place(numbers.next().expect("a place"))),
                2 | 5 => {
                    skip_lane(tag, &mut numbers);
                    let inputs = read.lists.len();
                    let outputs = read.counted(&mut numbers);
                    Call::Add(inputs, outputs, read.counted(&mut numbers))
                }
                3 => Call::Flush,
                4 => Call::Final,
                _ => panic!("{tag} starts no call"),
            };
            read.calls.push(call);
        }
        read
    }

    fn counted(&mut self, numbers: &mut impl Iterator<Item = u64>) -> usize {
        let count = numbers.next().expect("a count") as usize;
        self.lists.extend(numbers.take(count).map(Place));
        self.lists.len()
    }
}

/// Passes over the lane of an add that has one: the Rust knows no lanes.
fn skip_lane(tag: u64, numbers: &mut impl Iterator<Item = u64>) {
    if tag == 5 {
        numbers.next().expect("a lane");
    }
}

pub struct Sorter {
    parallelism: usize,
    sorter: LiveRecordingResolverSorter<Element, Config, NullRecordWriter>,
    common: Arc<ResolverCommonData<Element, GuideLoc>>,
}

impl Sorter {
    pub fn open(parallelism: u32, places: usize) -> Self {
        let options =
            CircuitResolverOpts { max_variables: places, desired_parallelism: parallelism };
        let comms = Arc::new(ResolverComms {
            exec_order_buffer_hint: AtomicIsize::new(0),
            registration_complete: AtomicBool::new(false),
            rw_panicked: AtomicBool::new(false),
            rw_panic: Cell::new(None),
        });
        let (sorter, common) =
            LiveRecordingResolverSorter::new((options, NullRecordWriter()), comms, &[]);
        Self { parallelism: parallelism as usize, sorter, common }
    }

    pub fn run(&mut self, calls: &Calls) {
        for call in &calls.calls {
            match *call {
                Call::Set(place) => self.sorter.set_value(place, Element::from_u64_unchecked(1)),
                Call::Add(inputs, outputs, end) => {
                    let lists = (&calls.lists[inputs..outputs], &calls.lists[outputs..end]);
                    // The closure is never run; its size, 0, is a multiple of 4 as the box asks.
                    self.sorter.add_resolution(lists.0, lists.1, |_, _| ())
                }
                Call::Flush => self.sorter.flush(),
                Call::Final => self.sorter.final_flush(),
            }
        }
    }

    /// Makes calls encoded as docs/REPLAY.md says, each as it is read; the list must be well formed. Lanes
    /// are left out.
    pub fn run_encoded(&mut self, numbers: &[u64]) {
        let (mut inputs, mut outputs) = (Vec::new(), Vec::new());
        let mut numbers = numbers.iter().copied();
        while let Some(tag) = numbers.next() {
            match tag {
                1 => {
                    let place = Place(numbers.next().expect("a place"));
                    self.sorter.set_value(place, Element::from_u64_unchecked(1))
                }
                2 | 5 => {
                    skip_lane(tag, &mut numbers);
                    for list in [&mut inputs, &mut outputs] {
                        let count = numbers.next().expect("a count") as usize;
                        list.clear();
                        list.extend(numbers.by_ref().take(count).map(Place));
                    }
                    self.sorter.add_resolution(&inputs, &outputs, |_, _| ())
                }
                3 => self.sorter.flush(),
                _ => self.sorter.final_flush(),
            }
        }
    }

    /// After the final: tells the order's length, the places as final fixed them, the floor and the
    /// median, and then of each entry its added, accepted and parallelism and its row's written. The
    /// Rust knows no floor: it is taken from the order, over all entries but the last parallelism - 1.
    pub fn tell(
        &mut self,
        head: impl FnOnce(usize, usize, u32, usize),
        mut entry: impl FnMut(u32, u32, u32, u32),
    ) {
        let stats = &mut self.sorter.guide.stats;
        stats.finalize();
        let median = stats.median();
        let record = self.sorter.retrieve_sequence();
        let order = self.common.exec_order.lock().unwrap();
        let items = &order.items[..order.size];
        let counted = &items[..(items.len() + 1).saturating_sub(self.parallelism)];
        let floor = counted.iter().map(|item| item.metadata.parallelism()).min().unwrap_or(0);
        head(items.len(), record.values_count, floor as u32, median);
        for item in items {
            let metadata = item.metadata;
            let added = metadata.added_at();
            let written = sorter_playback::written(record, added as usize);
            entry(added, metadata.accepted_at(), metadata.parallelism() as u32, written as u32);
        }
    }

    /// Each entry's added, accepted and parallelism, in the order.
    pub fn order(&self) -> impl Iterator<Item = (u32, u32, u32)> {
        let items = self.common.exec_order.lock().unwrap().items.clone();
        items.into_iter().map(|item| {
            let metadata = item.metadata;
            (metadata.added_at(), metadata.accepted_at(), metadata.parallelism() as u32)
        })
    }
}
