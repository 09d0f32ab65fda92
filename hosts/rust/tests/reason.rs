//! Host code, not proved: why registrations wait, after lists of calls and after the jobs of the same calls.

use witness_order::job::Rejected;
use witness_order::reason::NoReason;
use witness_order::{Calls, Reason, Refusal, Storage};

const NEVER: NoReason = NoReason::Registration(Refusal::NeverAccepted);
const PLACED: NoReason = NoReason::Registration(Refusal::NotWaiting);

fn because(input: u64, place: u64) -> Result<Reason, NoReason> {
    Ok(Reason { input, place })
}

fn refused(refusal: Refusal, line: u64) -> Result<Reason, NoReason> {
    Err(NoReason::Job(Rejected { refusal, line }))
}

/// A job over 6 places with P = 4.
fn of_job(calls: &str, registration: u64) -> Result<Reason, NoReason> {
    let job = format!("parallelism=4\nplaces=6\n{}\n", calls.replace(' ', "\n"));
    Reason::of_job(job.as_bytes(), registration)
}

/// The same calls as a list.
fn after(calls: &Calls, registration: u64) -> Result<Reason, NoReason> {
    let mut storage = Storage::new(4, 6, calls.list_numbers()).expect("in range");
    Reason::after(&mut storage, calls, registration).map_err(NoReason::Registration)
}

#[test]
fn jobs_and_lists_say_the_same() {
    let waits = Calls::new().set(2).add(&[2], &[]).finish();
    let promised = Calls::new().add(&[3], &[0]).add(&[1], &[2]).finish();
    let above = Calls::new().set(0).set(3).set(4).add(&[0, 4, 3], &[]);
    let above = above.finish();
    let own = Calls::new().add(&[0], &[0]).finish();
    let mixed = Calls::new().add(&[], &[0]).add(&[3], &[4]).add(&[0], &[1]);
    let mixed = mixed.finish();
    for (words, list, told) in [
        ("set=2 in=2 out= final=1", waits, vec![because(2, 0)]),
        (
            "in=3 out=0 in=1 out=2 final=1",
            promised,
            vec![because(3, 0), because(1, 0)],
        ),
        (
            "set=0 set=3 set=4 in=0,4,3 out= final=1",
            above,
            vec![because(4, 1)],
        ),
        ("in=0 out=0 final=1", own, vec![because(0, 0)]),
        (
            "in= out=0 in=3 out=4 in=0 out=1 final=1",
            mixed,
            vec![Err(PLACED), because(3, 2), Err(PLACED)],
        ),
    ] {
        for (r, answer) in (0..).zip(&told) {
            assert_eq!(of_job(words, r), *answer, "{words}: {r}");
            assert_eq!(after(&list, r), *answer, "{words}: {r} after the calls");
        }
        for r in [told.len() as u64, 6, 1 << 32, u64::MAX] {
            assert_eq!(of_job(words, r), Err(NEVER), "{words}: {r}");
            assert_eq!(after(&list, r), Err(NEVER), "{words}: {r} after the calls");
        }
    }
}

#[test]
fn a_job_that_is_refused_otherwise_has_its_line() {
    assert_eq!(
        of_job("set=9 final=1", 0),
        refused(Refusal::UnknownPlace, 3)
    );
    assert_eq!(of_job("in=0 out=1", 0), refused(Refusal::Malformed, 5));
    assert_eq!(Reason::of_job(b"", 0), refused(Refusal::Malformed, 1));
    let long = vec![b'x'; 65_537];
    assert_eq!(Reason::of_job(&long, 0), refused(Refusal::LongJob, 1));
    // what follows a final that is refused changes nothing
    assert_eq!(of_job("in=0 out=1 final=1 set=0", 0), because(0, 0));
    let message = of_job("in=0 out=1", 0).unwrap_err().to_string();
    assert!(message.starts_with("line 5: a line is malformed"));
    let message = of_job("final=1", 0).unwrap_err().to_string();
    assert_eq!(message, "no registration of this number was accepted");
}

/// Two wait, with one that is placed between them, until place 0 is set.
#[test]
fn the_first_that_waits_is_found() {
    let calls = Calls::new()
        .add(&[0], &[1])
        .add(&[], &[4])
        .add(&[1], &[2])
        .set(5);
    let mut storage = Storage::new(2, 6, calls.list_numbers()).expect("in range");
    let first = |storage: &mut Storage, calls: &Calls| {
        let done = witness_order::replay(storage, calls).expect("accepted");
        done.first_waiting()
    };
    assert_eq!(first(&mut storage, &calls), Some(0));
    assert_eq!(after(&calls, 0), because(0, 0));
    assert_eq!(after(&calls, 1), Err(PLACED));
    assert_eq!(after(&calls, 2), because(1, 0));
    let calls = calls.set(0);
    assert_eq!(first(&mut storage, &calls), None);
    assert_eq!(after(&calls, 2), Err(PLACED));
}
