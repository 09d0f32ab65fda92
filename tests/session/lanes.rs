//! Lists of calls as numbers, with lanes, and what they leave in storage: all worked out by hand, and not by the model.
//! An add is 2 and its lists, or 5, its lane and its lists; an entry's fourth number and a row's fifth are parallelism +
//! 65,536 · lane, and a registration's cell is where its lists start · 2^24 + its inputs · 2^8 + its lane.

use crate::buffers::{Buffers, Lent, Short};
use crate::layout::{ENTRY, ROW, WAITING};

const P: u64 = 2;
const V: u64 = 6;
/// The pool's length.
const W: usize = 8;

/// J1 of document 01 in lanes 3, 255, 0 (by an add without a lane) and 7. Its final is the last number.
const J1: &[u64] = &[
    1, 0, 5, 3, 1, 0, 1, 1, 5, 255, 1, 1, 1, 2, 2, 1, 0, 1, 3, 5, 7, 0, 1, 4, 4,
];
/// J1 in lane 0, by adds without a lane and by adds with one.
const PLAIN: &[u64] = &[
    1, 0, 2, 1, 0, 1, 1, 2, 1, 1, 1, 2, 2, 1, 0, 1, 3, 2, 0, 1, 4, 4,
];
const IN_LANE_0: &[u64] = &[
    1, 0, 5, 0, 1, 0, 1, 1, 5, 0, 1, 1, 1, 2, 5, 0, 1, 0, 1, 3, 5, 0, 0, 1, 4, 4,
];

/// A list and what must come of it.
struct Worked {
    what: &'static str,
    list: &'static [u64],
    answers: &'static [u64],
    order: &'static [[u32; ENTRY]],
    /// The rows of all registrations; the others are zeros.
    rows: &'static [[u32; ROW]],
    /// Entries of one span, with which a row of the spans begins.
    held: &'static [[u32; ENTRY]],
    /// The cells of all registrations.
    cells: &'static [u64],
}

const WORKED: [Worked; 6] = [
    Worked {
        what: "J1 in lanes",
        list: J1,
        answers: &[0; 6],
        order: &[
            [0, 0, 0, 196_610],
            [2, 2, 2, 2],
            [1, 1, 1, 16_711_682],
            [3, 3, 3, 458_753],
        ],
        rows: &[
            [0, 0, 0, 0, 196_610],
            [1, 1, 0, 2, 16_711_682],
            [2, 2, 0, 1, 2],
            [3, 3, 4, 3, 458_753],
        ],
        held: &[],
        cells: &[259, 33_554_943, 67_109_120, 100_663_303],
    },
    Worked {
        what: "J1 in lanes without its final: two entries are held, and their rows have no lane",
        list: J1.split_at(J1.len() - 1).0,
        answers: &[0; 5],
        order: &[[0, 0, 0, 196_610], [2, 2, 2, 2]],
        rows: &[
            [0, 0, 0, 0, 196_610],
            [0; ROW],
            [2, 2, 0, 1, 2],
            [0, 0, 2, 0, 0],
        ],
        held: &[[1, 1, 1, 16_711_680], [3, 3, 3, 458_752]],
        cells: &[259, 33_554_943, 67_109_120, 100_663_303],
    },
    Worked {
        what: "one that waits: its lane is in its cell alone",
        list: &[5, 9, 1, 0, 1, 1],
        answers: &[0],
        order: &[],
        rows: &[],
        held: &[],
        cells: &[265],
    },
    Worked {
        what: "the same, come off and placed",
        list: &[5, 9, 1, 0, 1, 1, 1, 0],
        answers: &[0, 0],
        order: &[],
        rows: &[],
        held: &[[0, 0, 1, 589_824]],
        cells: &[265],
    },
    Worked {
        what: "a lane over 255 is refused, and the next registration is the first",
        list: &[5, 256, 0, 1, 1, 5, u64::MAX, 0, 0, 5, 255, 0, 1, 1, 4],
        answers: &[18, 18, 0, 0],
        order: &[[0, 0, 0, 16_711_681]],
        rows: &[[0, 0, 1, 0, 16_711_681]],
        held: &[],
        cells: &[255],
    },
    Worked {
        what: "after final",
        list: &[4, 5, 256, 0, 0, 5, 255, 0, 0],
        answers: &[0, 7, 7],
        order: &[],
        rows: &[],
        held: &[],
        cells: &[],
    },
];

pub fn check() -> Result<String, String> {
    let mut buffers = Buffers::new();
    for worked in &WORKED {
        check_worked(worked, &mut buffers)
            .map_err(|message| format!("{}: {message}", worked.what))?;
    }
    check_lane_0(&mut buffers)?;
    Ok(format!(
        "  {} lists as numbers, worked out by hand: answers, order, rows, held entries and cells; J1 in lane 0 by either \
         kind of add leaves the same",
        WORKED.len()
    ))
}

fn replay(buffers: &mut Buffers, list: &[u64], calls: usize) {
    let lent = Lent {
        p: P,
        v: V,
        w: W,
        calls,
        slack: 1,
        short: Short::Nothing,
        whole: true,
    };
    buffers.replay(&lent, list);
}

fn check_worked(worked: &Worked, buffers: &mut Buffers) -> Result<(), String> {
    replay(buffers, worked.list, worked.answers.len());
    same(
        "what is returned",
        &buffers.returned,
        &Ok(worked.order.len()),
    )?;
    same("the answers", buffers.answers.needed(), worked.answers)?;
    let order = worked.order.concat();
    same(
        "the order",
        &buffers.order.needed()[..order.len()],
        &order[..],
    )?;
    let mut rows = worked.rows.concat();
    rows.resize(ROW * V as usize, 0);
    same("the rows", buffers.rows.needed(), &rows[..])?;
    let v = buffers.waiting.needed().len() / WAITING;
    let cells = &buffers.waiting.needed()[2 * v..][..worked.cells.len()];
    same("the cells", cells, worked.cells)?;
    let held = worked.held.concat();
    let mut spans = buffers
        .spans
        .needed()
        .chunks_exact(ENTRY * (P as usize + 1));
    match spans.any(|row| row.starts_with(&held)) {
        true => Ok(()),
        false => Err(format!("no row of the spans begins with {held:?}")),
    }
}

/// An add without a lane is one in lane 0.
fn check_lane_0(buffers: &mut Buffers) -> Result<(), String> {
    let mut others = Buffers::new();
    replay(buffers, PLAIN, 6);
    replay(&mut others, IN_LANE_0, 6);
    same("J1's length in lane 0", &buffers.returned, &others.returned)?;
    let at = |message| format!("J1 by adds without a lane and in lane 0: {message}");
    buffers.check_same_written(&others).map_err(at)
}

fn same<T: PartialEq + std::fmt::Debug + ?Sized>(
    what: &str,
    found: &T,
    wanted: &T,
) -> Result<(), String> {
    match found == wanted {
        true => Ok(()),
        false => Err(format!("{what}: {found:?}, not {wanted:?}")),
    }
}
