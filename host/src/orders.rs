//! Column orders.

use crate::call::answer;
use crate::{Refusal, Word};

/// The reverse of the lowest `log_size` bits of `i`, or `i` itself for log size 0.
///
/// Refuses a log size above 64 with 6.
///
/// ```
/// assert_eq!(taripomune::bit_reverse_index(3, 3), Ok(6));
/// ```
pub fn bit_reverse_index(i: usize, log_size: u32) -> Result<usize, Refusal> {
    answer(call!(tari_bit_reverse_index(number i as u64, number log_size)))
}

/// Puts each word where the reverse of its position's bits says.
///
/// Refuses a length that isn't a power of two with 8.
///
/// ```
/// let mut column = [0, 1, 2, 3, 4, 5, 6, 7];
/// taripomune::bit_reverse(&mut column)?;
/// assert_eq!(column, [0, 4, 2, 6, 1, 5, 3, 7]);
/// # Ok::<(), taripomune::Refusal>(())
/// ```
pub fn bit_reverse<T: Word>(v: &mut [T]) -> Result<(), Refusal> {
    answer(call_with_slices!(tari_bit_reverse(write v)))
}

/// The position, in a column of log size `eval_log_size` in bit-reversed order, of the element `offset` steps of the
/// domain of log size `domain_log_size` away from that at `i`.
///
/// Refuses `eval_log_size` outside 1 to 30 or a `domain_log_size` that isn't below it with 6, an offset beyond ±2^31
/// with 11.
///
/// ```
/// assert_eq!(taripomune::offset_bit_reversed_circle_domain_index(0, 2, 3, -1), Ok(6));
/// ```
pub fn offset_bit_reversed_circle_domain_index(
    i: usize,
    domain_log_size: u32,
    eval_log_size: u32,
    offset: isize,
) -> Result<usize, Refusal> {
    answer(call!(tari_offset_bit_reversed_circle_domain_index(
        number i as u64, number domain_log_size, number eval_log_size, number offset as i64
    )))
}

/// [`offset_bit_reversed_circle_domain_index`] with offset -1.
///
/// ```
/// assert_eq!(taripomune::previous_bit_reversed_circle_domain_index(0, 2, 3), Ok(6));
/// ```
pub fn previous_bit_reversed_circle_domain_index(
    i: usize,
    domain_log_size: u32,
    eval_log_size: u32,
) -> Result<usize, Refusal> {
    answer(call!(tari_previous_bit_reversed_circle_domain_index(
        number i as u64, number domain_log_size, number eval_log_size
    )))
}

/// Where the element at a position of the canonic coset stands in its circle domain.
///
/// Refuses a log size above 31 with 6, a position from 2^`log_domain_size` on with 4.
///
/// ```
/// assert_eq!(taripomune::coset_index_to_circle_domain_index(1, 3), Ok(7));
/// ```
pub fn coset_index_to_circle_domain_index(coset_index: usize, log_domain_size: u32) -> Result<usize, Refusal> {
    answer(call!(tari_coset_index_to_circle_domain_index(number coset_index as u64, number log_domain_size)))
}

/// From the order of the canonic coset to the circle domain's in bit-reversed order, and back.
///
/// Refuses a length that isn't a power of two with 8.
///
/// ```
/// let mut column = [0, 1, 2, 3, 4, 5, 6, 7];
/// taripomune::bit_reverse_coset_to_circle_domain_order(&mut column)?;
/// assert_eq!(column, [0, 7, 4, 3, 2, 5, 6, 1]);
/// # Ok::<(), taripomune::Refusal>(())
/// ```
pub fn bit_reverse_coset_to_circle_domain_order<T: Word>(v: &mut [T]) -> Result<(), Refusal> {
    answer(call_with_slices!(tari_bit_reverse_coset_to_circle_domain_order(write v)))
}

/// Writes a column in the order of the canonic coset to `dst` in the order of its circle domain. The words of a longer
/// `dst` past these stay.
///
/// Refuses an odd length or a shorter `dst` with 8.
///
/// ```
/// let mut dst = [0; 6];
/// taripomune::coset_order_to_circle_domain_order(&[1, 2, 3, 4], &mut dst)?;
/// assert_eq!(dst, [1, 3, 4, 2, 0, 0]);
/// # Ok::<(), taripomune::Refusal>(())
/// ```
pub fn coset_order_to_circle_domain_order<T: Word>(values: &[T], dst: &mut [T]) -> Result<(), Refusal> {
    answer(call_with_slices!(tari_coset_order_to_circle_domain_order(read values, write dst)))
}

/// Undoes [`coset_order_to_circle_domain_order`], and refuses as it does.
///
/// ```
/// let mut dst = [0; 4];
/// taripomune::circle_domain_order_to_coset_order(&[1, 3, 4, 2], &mut dst)?;
/// assert_eq!(dst, [1, 2, 3, 4]);
/// # Ok::<(), taripomune::Refusal>(())
/// ```
pub fn circle_domain_order_to_coset_order<T: Word>(values: &[T], dst: &mut [T]) -> Result<(), Refusal> {
    answer(call_with_slices!(tari_circle_domain_order_to_coset_order(read values, write dst)))
}
