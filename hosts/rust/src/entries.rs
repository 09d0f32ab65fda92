//! Host code, not proved: the order as a slice of structs, by the proved `order_append_new`.

use crate::refusal::Refusal;
use crate::sys;
pub use crate::sys::OrderInfo;

/// Copies entries `from` to `to` - 1 of a flat order (four numbers an entry) to the same indices of
/// `order`; every other struct stays. Refused, and then nothing is copied, where `from` is past `to`,
/// a slice is too short, or an entry's fourth number, parallelism + 65,536 · lane, has more than 24 bits.
///
/// ```
/// use witness_order::entries::{append_new, OrderInfo};
/// use witness_order::Refusal;
/// let flat = [7, 7, 5, 2 + 65_536 * 3];
/// let mut order = [OrderInfo::default()];
/// append_new(&mut order, &flat, 0, 1).unwrap();
/// let entry = OrderInfo { value: 7, added: 7, accepted: 5, parallelism: 2, lane: 3 };
/// assert_eq!(order[0], entry);
/// assert_eq!(append_new(&mut order, &flat, 0, 2), Err(Refusal::TooShort));
/// assert_eq!(append_new(&mut order, &[7, 7, 5, 65_536 * 256], 0, 1), Err(Refusal::TooShort));
/// ```
pub fn append_new(
    order: &mut [OrderInfo],
    flat: &[u32],
    from: usize,
    to: usize,
) -> Result<(), Refusal> {
    match sys::append_new(order, flat, from, to) {
        0 => Ok(()),
        number => Err(crate::refusal(number)),
    }
}
