//! Host code, not proved: line ends by the safe interface, beside a search of one byte after another.

use witness_order::line_end;

const J1: &[u8] =
    b"parallelism=2\nplaces=6\nset=0\nin=0\nout=1\nin=1\nout=2\nin=0\nout=3\nin=\nout=4\nfinal=1\n";

/// Every place, and starts past the bytes.
fn starts(job: &[u8]) -> impl Iterator<Item = usize> {
    (0..job.len() + 3).chain([usize::MAX / 2 + 1, usize::MAX - 1, usize::MAX])
}

fn searched(job: &[u8], from: usize) -> Option<usize> {
    (from..job.len()).find(|&place| job[place] == b'\n')
}

fn compare(job: &[u8]) {
    for from in starts(job) {
        assert_eq!(line_end(job, from), searched(job, from), "{job:?}, {from}");
    }
}

#[test]
fn the_lines_of_j1_end_where_they_are_counted_to_end() {
    let mut start = 0;
    for counted in [13, 22, 28, 33, 39, 44, 50, 55, 61, 65, 71, 79] {
        assert_eq!(line_end(J1, start), Some(counted));
        start = counted + 1;
    }
    assert_eq!((line_end(J1, start), start), (None, J1.len()));
}

#[test]
fn one_two_and_no_line_end_from_every_start() {
    for length in 0..20 {
        compare(&vec![11; length]);
        for first in 0..length {
            for second in first..length {
                let mut job = vec![11; length];
                job[first] = b'\n';
                job[second] = b'\n';
                compare(&job);
            }
        }
    }
}

#[test]
fn bytes_10_around_what_is_lent_are_not_found() {
    for start in 0..J1.len() {
        for end in start..=J1.len() {
            compare(&J1[start..end]);
        }
    }
}

#[test]
fn texts_longer_than_a_job() {
    let mut long = vec![b'0'; 1_000_003];
    assert_eq!(line_end(&long, 0), None);
    long[1_000_002] = b'\n';
    for from in [0, 1, 65_537, 1_000_002] {
        assert_eq!(line_end(&long, from), Some(1_000_002));
    }
    assert_eq!(line_end(&long, 1_000_003), None);
}
