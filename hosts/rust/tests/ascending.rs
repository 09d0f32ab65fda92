//! Host code, not proved: lists of calls on an ascending session, by the safe interface.

use witness_order::replay::Place;
use witness_order::{
    replay, replay_ascending, AscendingStorage, Calls, Refusal, Replayed, Storage, StorageError,
};

/// J1 of document 01, in lanes.
fn j1() -> Calls {
    let calls = Calls::new().set(0).add(&[0], &[1]).add(&[1], &[2]);
    let calls = calls.add_in_lane(255, &[0], &[3]);
    calls.add_in_lane(7, &[], &[4]).finish()
}

/// All that can be read of two runs is the same.
fn assert_same(one: &Replayed, other: &Replayed, places: usize) {
    assert!(one.entries().eq(other.entries()));
    assert!(one.rows().eq(other.rows()));
    assert_eq!(one.tally(), other.tally());
    assert_eq!(one.floor(), other.floor());
    assert_eq!(one.leading_places(), other.leading_places());
    assert_eq!(one.summary(), other.summary());
    for place in 0..places {
        assert_eq!(one.place(place), other.place(place), "place {place}");
    }
}

#[test]
fn j1_has_the_order_of_every_session() {
    let calls = j1();
    let numbers = calls.list_numbers();
    let (mut ascending, mut ordinary) = (
        AscendingStorage::new(2, 6, numbers as u64).unwrap(),
        Storage::new(2, 6, numbers).unwrap(),
    );
    let done = replay_ascending(&mut ascending, &calls).unwrap();
    assert_eq!(done.numbers(), [0; 6]);
    assert_eq!((done.len(), done.registrations()), (4, 4));
    assert_eq!(done.place(0), Place::Set);
    assert_eq!(done.place(5), Place::Untracked);
    assert_eq!(done.first_waiting(), None);
    assert_same(&done, &replay(&mut ordinary, &calls).unwrap(), 6);
}

#[test]
fn a_breach_is_refused_and_changes_nothing() {
    let breaches = Calls::new()
        .set(1)
        .set(0)
        .set(0)
        .add(&[], &[2])
        .add(&[1], &[1])
        .add(&[0], &[1, 2])
        .add(&[3], &[])
        .add(&[2], &[])
        .finish();
    let accepted = Calls::new()
        .set(0)
        .add(&[0], &[1, 2])
        .add(&[2], &[])
        .finish();
    let (mut one, mut other) = (
        AscendingStorage::new(2, 9, 4).unwrap(),
        AscendingStorage::new(2, 9, u64::MAX).unwrap(),
    );
    let done = replay_ascending(&mut one, &breaches).unwrap();
    assert_eq!(done.numbers(), [21, 0, 21, 21, 21, 0, 21, 0, 0]);
    assert_eq!(done.first_refused(), Some((0, Refusal::ProfileBreach)));
    assert_same(&done, &replay_ascending(&mut other, &accepted).unwrap(), 9);
}

#[test]
fn list_numbers_are_counted_and_not_kept() {
    let calls = j1();
    for (w, last) in [(7, 0), (6, 10), (u64::MAX, 0)] {
        let mut storage = AscendingStorage::new(2, 6, w).unwrap();
        assert_eq!(storage.most_list_numbers(), w);
        assert_eq!((storage.parallelism(), storage.places()), (2, 6));
        storage.reserve_calls(calls.len()).unwrap();
        let done = replay_ascending(&mut storage, &calls).unwrap();
        assert_eq!(done.numbers()[4], last, "w is {w}");
    }
}

#[test]
fn storage_out_of_range_is_refused() {
    let out_of_range = StorageError::Refused(Refusal::OutOfRange);
    for (p, v) in [
        (0, 1),
        (65_000, 1),
        (1, 0),
        (1, 16_777_217),
        (u64::MAX, u64::MAX),
    ] {
        assert_eq!(AscendingStorage::new(p, v, 0).unwrap_err(), out_of_range);
        assert_eq!(AscendingStorage::bytes(p, v), Err(Refusal::OutOfRange));
    }
    let each = AscendingStorage::bytes(1, 2).unwrap() - AscendingStorage::bytes(1, 1).unwrap();
    assert_eq!(each, 46);
}
