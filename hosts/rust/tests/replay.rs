//! Host code, not proved: lists of calls, the guide alone and the order as structs, by the safe
//! interface.

use std::process::Command;

use witness_order::entries::{append_new, OrderInfo};
use witness_order::guide::{self, Request};
use witness_order::replay::Place;
use witness_order::{held, replay, Calls, Location, Refusal, Storage, StorageError, Summary};

/// J1 of document 01.
fn j1() -> Calls {
    let calls = Calls::new().set(0).add(&[0], &[1]).add(&[1], &[2]);
    calls.add(&[0], &[3]).add(&[], &[4]).finish()
}

#[test]
fn j1_has_the_order_of_document_01() {
    let calls = j1();
    let mut storage = Storage::new(2, 6, calls.list_numbers()).unwrap();
    let done = replay(&mut storage, &calls).unwrap();
    assert_eq!(done.numbers(), [0; 6]);
    let entries: Vec<_> = done.entries().collect();
    let numbers = entries.iter().map(|e| {
        (
            e.value,
            e.added,
            e.accepted,
            e.parallelism,
            done.written(e.added),
        )
    });
    let wanted = [
        (0, 0, 0, 2, 0),
        (2, 2, 2, 2, 0),
        (1, 1, 1, 2, 0),
        (3, 3, 3, 1, 4),
    ];
    assert_eq!(numbers.collect::<Vec<_>>(), wanted);
    assert_eq!((done.len(), done.floor(), done.leading_places()), (4, 2, 5));
    assert_eq!(done.tally(), [0, 1, 3]);

    let rows: Vec<_> = done.rows().collect();
    assert_eq!(rows.len(), 4);
    for (i, entry) in entries.iter().enumerate() {
        let row = rows[entry.added as usize];
        assert_eq!((row.added, row.accepted), (entry.added, entry.accepted));
        assert_eq!(
            (row.order_index as usize, row.parallelism),
            (i, entry.parallelism)
        );
    }

    assert_eq!(done.place(0), Place::Set);
    assert_eq!(
        done.place(1),
        Place::Written(Location {
            span: 1,
            position: 0
        })
    );
    assert_eq!(done.place(5), Place::Untracked);

    let summary = done.summary();
    assert_eq!((summary.median, summary.average), (2, 4.0 / 65_000.0));
    assert_eq!(
        (summary.counts[1], summary.counts[2], summary.counts[3]),
        (1, 3, 0)
    );
    assert_eq!((summary.thousands[0], summary.thousands[1]), (4, 0));
}

#[test]
fn storage_serves_one_list_after_another() {
    let mut storage = Storage::new(2, 6, 16).unwrap();
    let (first, other) = (j1(), Calls::new().add(&[], &[0]));
    let before: Vec<_> = replay(&mut storage, &first).unwrap().entries().collect();
    assert!(
        replay(&mut storage, &other).unwrap().is_empty(),
        "nothing is released yet"
    );
    let again: Vec<_> = replay(&mut storage, &first).unwrap().entries().collect();
    assert_eq!(before, again);
}

#[test]
fn a_refused_call_changes_nothing_and_the_next_one_runs() {
    let calls = Calls::new()
        .set(0)
        .set(0)
        .add(&[9], &[1])
        .add(&[0], &[1, 1])
        .add(&[0], &[1])
        .set(1 << 62)
        .add(&[5], &[])
        .finish()
        .set(5);
    let mut storage = Storage::new(3, 9, 5).unwrap();
    let done = replay(&mut storage, &calls).unwrap();
    assert_eq!(done.numbers(), [0, 8, 5, 6, 0, 4, 0, 12, 0]);
    assert_eq!(done.first_refused(), Some((1, Refusal::TakenPlace)));
    assert_eq!((done.registrations(), done.rows().len()), (2, 2));
    assert!(done.is_empty());
}

/// Registrations 1 and 2 wait until 3 writes place 1.
#[test]
fn lanes_come_with_entries_and_rows() {
    let calls = Calls::new()
        .add_in_lane(3, &[], &[0])
        .add_in_lane(255, &[1], &[2])
        .add_in_lane(256, &[], &[1])
        .add_in_lane(9, &[2], &[3])
        .add(&[], &[1])
        .finish();
    let mut storage = Storage::new(2, 6, calls.list_numbers()).unwrap();
    let done = replay(&mut storage, &calls).unwrap();
    assert_eq!(done.numbers(), [0, 0, 18, 0, 0, 0]);
    assert_eq!(done.first_refused(), Some((2, Refusal::UnknownLane)));
    let lanes = [3, 255, 9, 0];
    assert_eq!(done.len(), lanes.len());
    for entry in done.entries() {
        assert_eq!(entry.lane, lanes[entry.added as usize]);
    }
    let rows: Vec<u32> = done.rows().map(|row| row.lane).collect();
    assert_eq!(rows, lanes);
}

/// J1 by its beginnings: the third registration fills a span, and an empty one is released; the fourth
/// fills the next, and two entries come into the order.
#[test]
fn the_window_holds_what_is_placed_and_not_yet_in_the_order() {
    let mut storage = Storage::new(2, 6, 16).unwrap();
    let mut calls = Calls::new();
    let mut found = vec![held(&mut storage, &calls).unwrap()];
    for call in &j1() {
        calls.push(&call);
        let holds = held(&mut storage, &calls).unwrap();
        let done = replay(&mut storage, &calls).unwrap();
        assert_eq!(done.registrations(), done.len() + holds, "none waits");
        found.push(holds);
    }
    assert_eq!(found, [0, 0, 1, 2, 3, 2, 0]);
}

#[test]
fn the_pool_bounds_the_lists() {
    let calls = Calls::new()
        .set(0)
        .add(&[0, 0], &[1])
        .add(&[], &[2])
        .add(&[], &[]);
    for (pool, numbers) in [
        (4, [0, 0, 0, 0]),
        (3, [0, 0, 10, 0]),
        (2, [0, 10, 0, 0]),
        (0, [0, 10, 10, 0]),
    ] {
        let mut storage = Storage::new(1, 4, pool).unwrap();
        assert_eq!(
            replay(&mut storage, &calls).unwrap().numbers(),
            numbers,
            "a pool of {pool}"
        );
    }
}

#[test]
fn storage_out_of_range_is_refused_before_it_is_allocated() {
    let refused = StorageError::Refused(Refusal::OutOfRange);
    for (p, v) in [
        (0, 1),
        (65_000, 1),
        (1, 0),
        (1, 16_777_217),
        (u64::MAX, u64::MAX),
        (1 << 32 | 1, 1),
    ] {
        assert_eq!(
            Storage::new(p, v, usize::MAX).unwrap_err(),
            refused,
            "p {p}, v {v}"
        );
    }
    for (p, v) in [(1, 1), (64_999, 1), (1, 70_000)] {
        let storage = Storage::new(p, v, 0).unwrap();
        assert_eq!(
            (storage.parallelism(), storage.places(), storage.pool()),
            (p, v, 0)
        );
    }
}

#[test]
fn too_much_memory_is_an_error() {
    let error = Storage::new(1, 1, usize::MAX / 4).unwrap_err();
    assert!(matches!(error, StorageError::Memory(_)), "{error:?}");
    assert!(
        error.to_string().contains("bytes of memory are needed"),
        "{error}"
    );
    let mut storage = Storage::new(1, 1, 0).unwrap();
    assert!(storage.reserve_calls(usize::MAX / 16).is_err());
    assert_eq!(
        replay(&mut storage, &Calls::new().finish())
            .unwrap()
            .numbers(),
        [0]
    );
}

#[test]
fn the_bytes_of_storage_are_said_before() {
    // 78 bytes a place, 516 for each of P + 1, 4 for each number of the pool (docs/PERFORMANCE.md).
    assert_eq!(
        Storage::bytes(7, 1000, 50),
        Ok(78 * 1000 + 516 * 8 + 4 * 50)
    );
    assert_eq!(Storage::bytes(0, 1000, 50), Err(Refusal::OutOfRange));
}

#[test]
fn the_guide_alone_takes_v_pushes() {
    let push = |after| Request::Push {
        value: 5,
        added: 6,
        accepted: 7,
        after,
    };
    let done = guide::replay(1, 2, &[push(None), push(None), push(None), Request::Flush]).unwrap();
    let results: Vec<_> = done.answers().map(|answer| answer.result).collect();
    let at = |span| Ok(Some(Location { span, position: 0 }));
    assert_eq!(
        results,
        [at(1), at(2), Err(Refusal::GuideExhausted), Ok(None)]
    );
    let entry = done.entries().next().unwrap();
    assert_eq!(
        (entry.value, entry.added, entry.accepted, entry.parallelism),
        (5, 6, 7, 1)
    );
    assert_eq!((done.entries().len(), done.tally()), (2, &[0, 2][..]));
    assert_eq!(done.answers().last().unwrap().written, 2);
    for (p, v) in [
        (0, 1),
        (65_000, 1),
        (1, 0),
        (1, 16_777_217),
        (1 << 32 | 1, 1),
        (1, 1 << 32 | 1),
    ] {
        let refused = guide::replay(p, v, &[]).err();
        let wanted = StorageError::Refused(Refusal::OutOfRange);
        assert_eq!(refused, Some(wanted), "p {p}, v {v}");
    }
    assert_eq!(guide::replay(3, 3, &[]).unwrap().entries().len(), 0);
}

/// The call is made in a process of its own, which has little memory. `prlimit` is a part of util-linux.
#[cfg(target_os = "linux")]
#[test]
fn a_guide_without_memory_is_an_error() {
    if std::env::var_os("LITTLE_MEMORY").is_none() {
        let mut child = Command::new("prlimit");
        child.arg("--as=200000000");
        child.arg(std::env::current_exe().unwrap());
        child.args(["--exact", "a_guide_without_memory_is_an_error"]);
        let output = child.env("LITTLE_MEMORY", "1").output().unwrap();
        let said = String::from_utf8_lossy(&output.stdout);
        assert!(
            output.status.success() && said.contains("1 passed"),
            "{said}"
        );
        return;
    }
    let error = guide::replay(64_999, 16_777_216, &[]).unwrap_err();
    let bytes = 4 * (128 * 65_000 + 4 * 16_777_216 + 65_000);
    assert_eq!(error, StorageError::Memory(bytes));
}

#[test]
#[should_panic(expected = "place 6 of 6")]
fn no_place_is_past_the_last() {
    let (mut storage, calls) = (Storage::new(2, 6, 16).unwrap(), j1());
    let done = replay(&mut storage, &calls).unwrap();
    assert_eq!(done.place(5), Place::Untracked);
    done.place(6);
}

#[test]
#[should_panic(expected = "registration 6 of at most 6")]
fn no_registration_is_past_the_last() {
    let (mut storage, calls) = (Storage::new(2, 6, 16).unwrap(), j1());
    let done = replay(&mut storage, &calls).unwrap();
    assert_eq!(done.written(5), 0);
    done.written(6);
}

#[test]
fn the_order_as_structs() {
    let calls = Calls::new().set(0).add_in_lane(255, &[0], &[1]);
    let calls = calls.add(&[1], &[2]).add_in_lane(7, &[0], &[3]);
    let calls = calls.add(&[], &[4]).finish();
    let mut storage = Storage::new(2, 6, 16).unwrap();
    let done = replay(&mut storage, &calls).unwrap();
    assert_eq!(std::mem::size_of::<OrderInfo>(), 16);
    let mut order = vec![OrderInfo::default(); done.len()];
    append_new(&mut order, done.flat_order(), 0, 2).unwrap();
    append_new(&mut order, done.flat_order(), 2, 4).unwrap();
    for (info, entry) in order.iter().zip(done.entries()) {
        assert_eq!(
            (info.value, info.added, info.accepted),
            (entry.value, entry.added, entry.accepted)
        );
        assert_eq!(u32::from(info.parallelism), entry.parallelism);
        assert_eq!(u32::from(info.lane), entry.lane);
    }
    let before = order.clone();
    for (from, to) in [(3, 2), (0, 5), (usize::MAX, usize::MAX)] {
        assert_eq!(
            append_new(&mut order, done.flat_order(), from, to),
            Err(Refusal::TooShort)
        );
    }
    assert_eq!(
        append_new(&mut order, &[0, 0, 0, 1 << 24], 0, 1),
        Err(Refusal::TooShort)
    );
    assert_eq!(order, before);
}

#[test]
fn summaries_of_tallies() {
    let empty = Summary::of(&[]).unwrap();
    assert_eq!((empty.median, empty.average), (0, 0.0));
    let mut tally = vec![0; 65_000];
    (tally[127], tally[128], tally[64_999]) = (1, 1, 16_777_214);
    let full = Summary::of(&tally).unwrap();
    assert_eq!(
        (
            full.median,
            full.counts[127],
            full.thousands[0],
            full.thousands[64]
        ),
        (64_999, 1, 2, 16_777_214)
    );
    tally[0] = 1;
    assert_eq!(Summary::of(&tally), Err(Refusal::OutOfRange));
}
