//! Host code, not proved: where a line of a job ends, by the proved `job_line_end`.

use crate::sys;

/// The place of the first byte 10 at or after `from`; None where there is none, or where `from` lies past
/// the bytes. Any bytes are taken, and any count of them.
///
/// The lines of a job one after another; what stands after the last byte 10 is no line:
///
/// ```
/// use witness_order::line_end;
/// let job = b"parallelism=2\nplaces=6\nfinal";
/// let (mut start, mut lines) = (0, Vec::new());
/// while let Some(end) = line_end(job, start) {
///     lines.push(&job[start..end]);
///     start = end + 1;
/// }
/// assert_eq!(lines, [&b"parallelism=2"[..], b"places=6"]);
/// assert_eq!(&job[start..], b"final");
/// ```
pub fn line_end(job: &[u8], from: usize) -> Option<usize> {
    let end = sys::line_end(job, from);
    (end < job.len()).then_some(end)
}
