//! Host code, not proved: jobs by the safe interface.

use witness_order::{job, Refusal};

const J1: &[u8] =
    b"parallelism=2\nplaces=6\nset=0\nin=0\nout=1\nin=1\nout=2\nin=0\nout=3\nin=\nout=4\nfinal=1\n";
const J1_LISTING: &str = "\
status=0
entries=4
places=5
floor=2
median=2
order=0 added=0 accepted=0 parallelism=2 written=0 lane=0
order=1 added=2 accepted=2 parallelism=2 written=0 lane=0
order=2 added=1 accepted=1 parallelism=2 written=0 lane=0
order=3 added=3 accepted=3 parallelism=1 written=4 lane=0
";

#[test]
fn j1_is_as_document_01_prints_it() {
    assert_eq!(job::run(J1).unwrap(), J1_LISTING);
}

#[test]
fn a_listing_one_byte_short_is_refused_and_untouched() {
    let mut listing = vec![7; J1_LISTING.len() + 1];
    let length = J1_LISTING.len();
    let rejected = job::run_into(J1, &mut listing[..length - 1]).unwrap_err();
    assert_eq!((rejected.refusal, rejected.line), (Refusal::LongListing, 1));
    assert!(listing.iter().all(|byte| *byte == 7));
    assert_eq!(job::run_into(J1, &mut listing), Ok(length));
    assert_eq!(
        (&listing[..length], listing[length]),
        (J1_LISTING.as_bytes(), 7)
    );
}

#[test]
fn a_refused_job_says_its_line() {
    let refused: [(&[u8], u64, u64); 8] = [
        (b"", 15, 1),
        (b"parallelism=0\nplaces=6\n", 1, 2),
        (b"parallelism=65\nplaces=6\n", 2, 2),
        (b"parallelism=2\nplaces=6\nset=6\n", 5, 3),
        (b"parallelism=2\nplaces=6\nin=\nout=1,1\n", 6, 4),
        (b"parallelism=2\nplaces=6\nlane=256\nin=\nout=1\n", 18, 5),
        (b"parallelism=2\nplaces=6\nlane=255\nset=0\n", 15, 4),
        (&[b'\n'; 65_537], 16, 1),
    ];
    for (text, number, line) in refused {
        let rejected = job::run(text).unwrap_err();
        assert_eq!((rejected.refusal.number(), rejected.line), (number, line));
        assert_eq!(
            rejected.to_string(),
            format!("line {line}: {}", rejected.refusal)
        );
    }
}
