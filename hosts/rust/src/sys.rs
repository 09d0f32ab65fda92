//! Host code, not proved: the exported calls, declared, each with a safe function over slices. What a
//! call promises stands with its crate; all other modules go through these functions.

// A slice goes as a pointer and a length.
extern "C" {
    fn order_job(job: *const u8, job_length: usize, listing: *mut u8, listing_length: usize)
        -> u64;

    fn job_needs(job: *const u8, job_length: usize, needs: *mut [u64; 4]) -> u64;

    fn order_reason(job: *const u8, job_length: usize, registration: u64) -> u64;

    fn job_line_end(job: *const u8, job_length: usize, from: usize) -> usize;

    fn guide_replay(
        p: u64,
        v: u64,
        requests: *const u32,
        requests_length: usize,
        spans: *mut u32,
        spans_length: usize,
        order: *mut u32,
        order_length: usize,
        tally: *mut u32,
        tally_length: usize,
        answers: *mut u32,
        answers_length: usize,
    ) -> u32;

    fn order_summary(
        tally: *const u32,
        tally_length: usize,
        summary: *mut u32,
        summary_length: usize,
    ) -> u64;

    fn order_append_new(
        order: *mut OrderInfo,
        order_length: usize,
        flat: *const u32,
        flat_length: usize,
        from: usize,
        to: usize,
    ) -> u64;

    fn replay_ascending(
        spans: *mut u32,
        spans_length: usize,
        order: *mut u32,
        order_length: usize,
        tally: *mut u32,
        tally_length: usize,
        rows: *mut u32,
        rows_length: usize,
        marks: *mut u16,
        marks_length: usize,
        locations: *mut u64,
        locations_length: usize,
        answers: *mut u64,
        answers_length: usize,
        calls: *const u64,
        calls_length: usize,
        p: u64,
        v: u64,
        w: u64,
    ) -> u64;
}

/// Declares exported calls that all have the arguments of `replay_calls`, and after them their own.
macro_rules! replay_functions {
    ($($name:ident($($own:ident),*)),*) => {
        extern "C" {
            $(fn $name(
                spans: *mut u32,
                spans_length: usize,
                order: *mut u32,
                order_length: usize,
                tally: *mut u32,
                tally_length: usize,
                rows: *mut u32,
                rows_length: usize,
                marks: *mut u16,
                marks_length: usize,
                locations: *mut u64,
                locations_length: usize,
                waiting: *mut u64,
                waiting_length: usize,
                pool: *mut u32,
                pool_length: usize,
                answers: *mut u64,
                answers_length: usize,
                calls: *const u64,
                calls_length: usize,
                p: u64,
                v: u64,
                $($own: u64),*
            ) -> u64;)*
        }
    };
}

replay_functions!(replay_calls(), replay_held(), replay_reason(registration));

// SAFETY, for every call below: each pointer and length is a whole slice, and the needs are a whole array,
// borrowed for the call, exclusively where it is written, so that no two overlap and none is null. The
// calls ask nothing else.

/// Runs a job: 64 times the listing's length, or for a refusal 64 times the line plus its number.
pub fn job(job: &[u8], listing: &mut [u8]) -> u64 {
    unsafe { order_job(job.as_ptr(), job.len(), listing.as_mut_ptr(), listing.len()) }
}

/// Fills `needs` with what a job needs: 0, or for a refusal 64 times the line plus its number.
pub fn needs(job: &[u8], needs: &mut [u64; 4]) -> u64 {
    unsafe { job_needs(job.as_ptr(), job.len(), needs) }
}

/// The place of the first byte 10 at or after `from`, or the job's length.
pub fn line_end(job: &[u8], from: usize) -> usize {
    unsafe { job_line_end(job.as_ptr(), job.len(), from) }
}

/// What a session works on.
pub struct Slices<'a> {
    pub spans: &'a mut [u32],
    pub order: &'a mut [u32],
    pub tally: &'a mut [u32],
    pub rows: &'a mut [u32],
    pub marks: &'a mut [u16],
    pub locations: &'a mut [u64],
    pub waiting: &'a mut [u64],
    pub pool: &'a mut [u32],
}

/// What is counted of a session after its calls.
#[derive(Clone, Copy, Debug)]
pub enum Count {
    /// The order's entries.
    Written,
    /// The entries in the window's spans.
    Held,
}

/// Calls one of them on whole slices, with the numbers after these.
macro_rules! call_replay {
    ($function:expr, $slices:expr, $answers:expr, $calls:expr, $($number:expr),*) => {
        $function(
            $slices.spans.as_mut_ptr(),
            $slices.spans.len(),
            $slices.order.as_mut_ptr(),
            $slices.order.len(),
            $slices.tally.as_mut_ptr(),
            $slices.tally.len(),
            $slices.rows.as_mut_ptr(),
            $slices.rows.len(),
            $slices.marks.as_mut_ptr(),
            $slices.marks.len(),
            $slices.locations.as_mut_ptr(),
            $slices.locations.len(),
            $slices.waiting.as_mut_ptr(),
            $slices.waiting.len(),
            $slices.pool.as_mut_ptr(),
            $slices.pool.len(),
            $answers.as_mut_ptr(),
            $answers.len(),
            $calls.as_ptr(),
            $calls.len(),
            $($number),*
        )
    };
}

/// Makes all calls on a fresh session: 64 times the count, or the number of a refusal.
pub fn replay(
    count: Count,
    slices: Slices,
    answers: &mut [u64],
    calls: &[u64],
    p: u64,
    v: u64,
) -> u64 {
    let function = match count {
        Count::Written => replay_calls,
        Count::Held => replay_held,
    };
    unsafe { call_replay!(function, slices, answers, calls, p, v) }
}

/// Makes them too, and says why a registration waits then: 64 times (2^24 times its greatest input plus the
/// lowest untracked place), or the number of a refusal.
pub fn reason(
    slices: Slices,
    answers: &mut [u64],
    calls: &[u64],
    p: u64,
    v: u64,
    registration: u64,
) -> u64 {
    unsafe { call_replay!(replay_reason, slices, answers, calls, p, v, registration) }
}

/// What an ascending session works on.
pub struct AscendingSlices<'a> {
    pub spans: &'a mut [u32],
    pub order: &'a mut [u32],
    pub tally: &'a mut [u32],
    pub rows: &'a mut [u32],
    pub marks: &'a mut [u16],
    pub locations: &'a mut [u64],
}

/// Makes all calls on a fresh ascending session whose accepted adds have at most w list numbers: 64 times the order's
/// length, or the number of a refusal.
pub fn ascending(
    slices: AscendingSlices,
    answers: &mut [u64],
    calls: &[u64],
    p: u64,
    v: u64,
    w: u64,
) -> u64 {
    let AscendingSlices {
        spans,
        order,
        tally,
        rows,
        marks,
        locations,
    } = slices;
    unsafe {
        replay_ascending(
            spans.as_mut_ptr(),
            spans.len(),
            order.as_mut_ptr(),
            order.len(),
            tally.as_mut_ptr(),
            tally.len(),
            rows.as_mut_ptr(),
            rows.len(),
            marks.as_mut_ptr(),
            marks.len(),
            locations.as_mut_ptr(),
            locations.len(),
            answers.as_mut_ptr(),
            answers.len(),
            calls.as_ptr(),
            calls.len(),
            p,
            v,
            w,
        )
    }
}

/// Why a registration waits after a job: for one that is refused otherwise than with 12, 64 times the line plus its number.
pub fn job_reason(job: &[u8], registration: u64) -> u64 {
    unsafe { order_reason(job.as_ptr(), job.len(), registration) }
}

/// What a guide alone works on.
pub struct GuideSlices<'a> {
    pub spans: &'a mut [u32],
    pub order: &'a mut [u32],
    pub tally: &'a mut [u32],
}

/// Serves all requests by a fresh guide: 0, or the number with which the opening was refused.
pub fn guide(p: u64, v: u64, requests: &[u32], slices: GuideSlices, answers: &mut [u32]) -> u32 {
    let GuideSlices {
        spans,
        order,
        tally,
    } = slices;
    unsafe {
        guide_replay(
            p,
            v,
            requests.as_ptr(),
            requests.len(),
            spans.as_mut_ptr(),
            spans.len(),
            order.as_mut_ptr(),
            order.len(),
            tally.as_mut_ptr(),
            tally.len(),
            answers.as_mut_ptr(),
            answers.len(),
        )
    }
}

/// Fills `summary` with the summary of a tally: 0, or the number of a refusal.
pub fn summary(tally: &[u32], summary: &mut [u32]) -> u64 {
    unsafe {
        order_summary(
            tally.as_ptr(),
            tally.len(),
            summary.as_mut_ptr(),
            summary.len(),
        )
    }
}

/// An entry of the order as a struct; 16 bytes.
#[repr(C)]
#[derive(Clone, Copy, Debug, Default, PartialEq, Eq)]
pub struct OrderInfo {
    pub value: u32,
    pub added: u32,
    pub accepted: u32,
    pub parallelism: u16,
    pub lane: u8,
}

/// Copies entries `from` to `to` - 1 of a flat order: 0, or the number of a refusal.
pub fn append_new(order: &mut [OrderInfo], flat: &[u32], from: usize, to: usize) -> u64 {
    unsafe {
        order_append_new(
            order.as_mut_ptr(),
            order.len(),
            flat.as_ptr(),
            flat.len(),
            from,
            to,
        )
    }
}
