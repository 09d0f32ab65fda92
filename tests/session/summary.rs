//! The summary of a tally by the exported `order_summary` of crate `summary`.

extern "C" {
    fn order_summary(
        tally: *const u32,
        tally_count: usize,
        summary: *mut u32,
        summary_count: usize,
    ) -> u64;
}

/// The average's 32 bits, the median, 128 counts, 65 sums of thousands.
pub type Numbers = [u32; 195];

/// Where the counts and the sums begin.
pub const COUNTS: usize = 2;
pub const THOUSANDS: usize = 130;

/// Numbers past the summary, which must stay.
const PAST: u32 = 0xA5C3_96E1;

/// The call itself: its number.
pub fn lend(tally: &[u32], summary: &mut [u32]) -> u64 {
    // Each pointer and length is a slice that is borrowed for the call, exclusively where it is written.
    unsafe {
        order_summary(
            tally.as_ptr(),
            tally.len(),
            summary.as_mut_ptr(),
            summary.len(),
        )
    }
}

/// The summary of a tally.
pub fn of_tally(tally: &[u32]) -> Result<Numbers, String> {
    let mut lent = [PAST; 200];
    let number = lend(tally, &mut lent);
    if number != 0 {
        return Err(format!("the summary is refused with {number}"));
    }
    if lent[195..] != [PAST; 5] {
        return Err("a number past the summary is written".to_owned());
    }
    let mut numbers = [0; 195];
    numbers.copy_from_slice(&lent[..195]);
    Ok(numbers)
}
