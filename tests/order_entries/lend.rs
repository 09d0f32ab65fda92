//! An order of structs kept beside the flat order of a session, as a host in Rust would: after each
//! call the new entries are copied.

#[repr(C)]
#[derive(Clone, Copy, PartialEq, Debug)]
struct OrderInfo {
    value: u32,
    added: u32,
    accepted: u32,
    parallelism: u16,
    lane: u8,
}

extern "C" {
    // Copies entries `from` to `to` - 1 of the flat order (four numbers an entry) to the same indices of
    // the order and returns 0. It returns 2, with the order as it was, unless from <= to <= order_length,
    // 4 * to <= flat_length and each fourth number, parallelism + 65,536 * lane, is below 2^24. A slice goes
    // as a pointer and a length.
    fn order_append_new(
        order: *mut OrderInfo,
        order_length: usize,
        flat: *const u32,
        flat_length: usize,
        from: usize,
        to: usize,
    ) -> u64;
}

fn append_new(order: &mut [OrderInfo], flat: &[u32], from: usize, to: usize) -> u64 {
    // SAFETY: pointers and lengths are those of whole slices; the function asks nothing else.
    unsafe { order_append_new(order.as_mut_ptr(), order.len(), flat.as_ptr(), flat.len(), from, to) }
}

fn main() {
    const ENTRIES: usize = 1000;
    let old = OrderInfo { value: 7, added: 7, accepted: 7, parallelism: 7, lane: 7 };
    assert_eq!(std::mem::size_of::<OrderInfo>(), 16);
    let mut order = vec![old; ENTRIES];
    let mut flat = vec![0u32; 4 * ENTRIES];
    let (mut written, mut calls) = (0, 0);
    while written < ENTRIES {
        // A call of the session appends a few entries, at times none.
        let now = (written + calls * 37 % 11).min(ENTRIES);
        for (i, number) in flat.iter_mut().enumerate().take(4 * now).skip(4 * written) {
            let i = i as u32;
            *number = if i % 4 == 3 { 65_535 - i % 1000 + 65_536 * (255 - i / 4 % 256) } else { 4_000_000_000 + i };
        }
        assert_eq!(append_new(&mut order, &flat, written, now), 0, "call {calls} is accepted");
        written = now;
        calls += 1;
        for (k, (entry, numbers)) in order.iter().zip(flat.chunks_exact(4)).enumerate() {
            let wanted = if k < written { copied(numbers) } else { old };
            assert!(*entry == wanted, "call {calls}: entry {k} is {entry:?}, not {wanted:?}");
        }
    }
    // Refusals leave every struct as it was.
    let mut order = vec![old; 10];
    let refused = [(6, 5, 40), (0, 11, 44), (0, 10, 39), (usize::MAX, usize::MAX, 40), (0, usize::MAX, 40)];
    for (from, to, numbers) in refused {
        assert_eq!(append_new(&mut order, &flat[..numbers], from, to), 2, "{from} to {to} of {numbers} numbers");
    }
    for wide in [1 << 24, u32::MAX] {
        flat[4 * 5 + 3] = wide;
        assert_eq!(append_new(&mut order, &flat, 0, 10), 2, "a fourth number of more than 24 bits, {wide}");
    }
    assert!(order.iter().all(|entry| *entry == old));
    // What is not copied is not looked at.
    assert_eq!(append_new(&mut order, &flat, 6, 10), 0);
    // The ends of parallelism and lane.
    let ends = [(0, 0, 0), (65_535, 65_535, 0), (65_536, 0, 1), (64_999 + 65_536 * 255, 64_999, 255), ((1 << 24) - 1, 65_535, 255)];
    for (number, parallelism, lane) in ends {
        flat[4 * 5 + 3] = number;
        assert_eq!(append_new(&mut order, &flat, 5, 6), 0, "{number}");
        assert_eq!((order[5].parallelism, order[5].lane), (parallelism, lane), "{number}");
    }
    println!("tests/order_entries: Rust: {ENTRIES} entries in {calls} calls, as in the flat order; seven refusals");
}

/// The struct of an entry's four numbers.
fn copied(numbers: &[u32]) -> OrderInfo {
    let [value, added, accepted, last] = numbers.try_into().expect("four numbers");
    let (parallelism, lane) = ((last % 65_536) as u16, (last / 65_536) as u8);
    OrderInfo { value, added, accepted, parallelism, lane }
}
