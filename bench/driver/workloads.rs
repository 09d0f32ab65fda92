//! Host code, not proved: the workloads, lists of calls that are encoded as docs/REPLAY.md says, made by
//! a fixed generator. The same name and sizes always give the same list. bench/README.md says what each one is like.

/// A list of calls with what has to be known to open a session for it.
pub struct Workload {
    pub calls: Vec<u64>,
    pub places: usize,
    pub registrations: usize,
    /// How many numbers the lists of all registrations have.
    pub pooled: usize,
    /// Whether all calls are in the ascending profile (docs/REPLAY.md).
    pub ascending: bool,
}

impl Workload {
    /// V for it: the count of places is also the greatest count of registrations.
    pub fn capacity(&self) -> usize {
        self.places.max(self.registrations)
    }
}

/// How large a workload is to be.
#[derive(Clone, Copy)]
pub struct Size {
    /// The count of places to fill; in `delayed` the count of registrations placed meanwhile.
    pub places: usize,
    /// How many registrations wait, where the workload has such.
    pub waiting: usize,
}

pub const NAMES: [&str; 7] =
    ["forward", "poseidon", "chain", "independent", "delayed", "one-place", "reversed"];

/// The workload of that name, or None where there is none.
pub fn workload(name: &str, size: Size) -> Option<Workload> {
    let mut list = List::new();
    match name {
        "forward" => forward(&mut list, size.places),
        "poseidon" => poseidon(&mut list, size.places),
        "chain" => chain(&mut list, size.places),
        "independent" => independent(&mut list, size.places),
        "delayed" => delayed(&mut list, size.waiting, size.places),
        "one-place" => one_place(&mut list, size.waiting),
        "reversed" => reversed(&mut list, size.waiting),
        _ => return None,
    }
    Some(list.ended())
}

/// A random circuit whose outputs are numbered as they are made: a 64th of the places is set, each
/// other is the one output of a registration that reads 1 to 4 places made before it, half of them
/// among the last 1,024.
fn forward(list: &mut List, places: usize) {
    let mut random = Random(1);
    let inputs = (places / 64).max(1) as u64;
    for place in 0..inputs {
        list.set(place);
    }
    for place in inputs..places as u64 {
        let mut ins = [0; 4];
        let count = 1 + random.below(4) as usize;
        for input in &mut ins[..count] {
            let near = random.below(2) == 0;
            *input = if near { place - 1 - random.below(place.min(1024)) } else { random.below(place) };
        }
        list.add(&ins[..count], &[place]);
    }
}

/// Sponges over a permutation like Poseidon's: a state of 12, 4 full rounds, 22 partial and 4 full; a
/// full round has 12 registrations of one input and one output, a partial one has 1, and each ends in
/// a registration that reads and writes the whole state. 16 sponges take turns; each takes in 8 places
/// that are set before every permutation.
fn poseidon(list: &mut List, places: usize) {
    const STATE: usize = 12;
    const RATE: usize = 8;
    const PLACES: usize = RATE + 8 * 2 * STATE + 22 * (STATE + 1);
    let mut next = 0..;
    let mut fresh = || next.next().expect("the numbers do not end");
    let mut sponges = [[None; STATE]; 16];
    // The first permutation of each sponge sets the rest of its state too.
    let first = sponges.len() * (STATE - RATE);
    for permutation in 0..(places.saturating_sub(first) / PLACES).max(1) {
        let sponge = &mut sponges[permutation % 16];
        let mut state = sponge.map(|place| place.unwrap_or(0));
        for (i, place) in state.iter_mut().enumerate() {
            if i < RATE || sponge[i].is_none() {
                *place = fresh();
                list.set(*place);
            }
        }
        for round in 0..30 {
            let full = !(4..26).contains(&round);
            for place in &mut state[..if full { STATE } else { 1 }] {
                let powered = fresh();
                list.add(&[*place], &[powered]);
                *place = powered;
            }
            let mixed = state.map(|_| fresh());
            list.add(&state, &mixed);
            state = mixed;
        }
        *sponge = state.map(Some);
    }
}

/// Each registration reads what the one before it wrote.
fn chain(list: &mut List, places: usize) {
    list.set(0);
    for place in 1..places as u64 {
        list.add(&[place - 1], &[place]);
    }
}

/// No registration reads anything.
fn independent(list: &mut List, places: usize) {
    for place in 0..places as u64 {
        list.add(&[], &[place]);
    }
}

/// `waiting` registrations wait, each under a place of its own, while `others` registrations that read
/// nothing are placed. Then few registrations write all the places waited for, the lowest last, so
/// that all waiting ones come off at once.
fn delayed(list: &mut List, waiting: usize, others: usize) {
    let (waiting, others) = (waiting as u64, others as u64);
    for i in 0..waiting {
        list.add(&[others + i], &[others + waiting + i]);
    }
    for place in 0..others {
        list.add(&[], &[place]);
    }
    let awaited: Vec<u64> = (others..others + waiting).collect();
    for part in awaited.chunks(50_000).rev() {
        list.add(&[], part);
    }
}

/// All registrations wait under place 0, which is set last.
fn one_place(list: &mut List, waiting: usize) {
    for i in 0..waiting as u64 {
        list.add(&[0], &[1 + i]);
    }
    list.set(0);
}

/// Registration by registration the one that makes the input of the one before: all wait, each under a
/// place of its own, until place 0 is set; then each placing sets off the next.
fn reversed(list: &mut List, waiting: usize) {
    for place in (0..waiting as u64).rev() {
        list.add(&[place], &[place + 1]);
    }
    list.set(0);
}

/// Calls as numbers, with what is counted on the way.
struct List {
    calls: Vec<u64>,
    places: u64,
    registrations: usize,
    pooled: usize,
    /// While all calls are in the ascending profile: the lowest place that is neither set nor written.
    lowest: Option<u64>,
}

impl List {
    fn new() -> Self {
        Self { calls: Vec::new(), places: 0, registrations: 0, pooled: 0, lowest: Some(0) }
    }

    fn set(&mut self, place: u64) {
        self.places = self.places.max(place + 1);
        self.calls.extend([1, place]);
        self.ascend(&[], &[place]);
    }

    fn add(&mut self, inputs: &[u64], outputs: &[u64]) {
        self.calls.extend([2, inputs.len() as u64]);
        self.calls.extend(inputs);
        self.calls.push(outputs.len() as u64);
        self.calls.extend(outputs);
        let most = inputs.iter().chain(outputs).max().map_or(0, |place| place + 1);
        self.places = self.places.max(most);
        self.registrations += 1;
        self.pooled += inputs.len() + outputs.len();
        self.ascend(inputs, outputs);
    }

    /// The lowest place after a call that reads and sets or writes these, if it was in the profile.
    fn ascend(&mut self, inputs: &[u64], made: &[u64]) {
        let in_profile = |lowest: &u64| {
            inputs.iter().all(|input| input < lowest) && (*lowest..).zip(made).all(|(place, made)| *made == place)
        };
        self.lowest = self.lowest.filter(in_profile).map(|lowest| lowest + made.len() as u64);
    }

    fn ended(mut self) -> Workload {
        self.calls.push(4);
        Workload {
            calls: self.calls,
            places: self.places as usize,
            registrations: self.registrations,
            pooled: self.pooled,
            ascending: self.lowest.is_some(),
        }
    }
}

/// SplitMix64.
struct Random(u64);

impl Random {
    fn next(&mut self) -> u64 {
        self.0 = self.0.wrapping_add(0x9e3779b97f4a7c15);
        let mut z = self.0;
        z = (z ^ (z >> 30)).wrapping_mul(0xbf58476d1ce4e5b9);
        z = (z ^ (z >> 27)).wrapping_mul(0x94d049bb133111eb);
        z ^ (z >> 31)
    }

    /// A number below `bound`, which is small enough that the bias does not matter here.
    fn below(&mut self, bound: u64) -> u64 {
        self.next() % bound
    }
}
