//! The transform between the values of a column and its coefficients.

use crate::call::answer;
use crate::{Refusal, Word};

/// Rewrites a column of 2^`log_size` coefficients as their values. Position p then holds the value at element
/// `bit_reverse_index(p, log_size)` of the canonic circle domain. The first 2^`log_size` words of scratch end as
/// anything; what they held isn't looked at.
///
/// Refuses a log size outside 1 to 30 with 6, a column of another length or a shorter scratch with 8, a word that isn't
/// below P with 1 and its position.
///
/// ```
/// let mut column = [7, 0, 0, 0];
/// taripomune::evaluate(2, &mut column, &mut [0; 4])?;
/// assert_eq!(column, [7, 7, 7, 7]);
/// # Ok::<(), taripomune::Refusal>(())
/// ```
pub fn evaluate<T: Word>(log_size: u32, column: &mut [T], scratch: &mut [u32]) -> Result<(), Refusal> {
    answer(call_with_slices!(tari_evaluate(number log_size, write column, write scratch)))
}

/// Rewrites a column of 2^`log_size` values, in the order of [`evaluate`], as the coefficients that give them: there is
/// exactly one list of these.
///
/// Refuses as [`evaluate`] does.
///
/// ```
/// let mut column = [7, 7, 7, 7];
/// taripomune::interpolate(2, &mut column, &mut [0; 4])?;
/// assert_eq!(column, [7, 0, 0, 0]);
/// # Ok::<(), taripomune::Refusal>(())
/// ```
pub fn interpolate<T: Word>(log_size: u32, column: &mut [T], scratch: &mut [u32]) -> Result<(), Refusal> {
    answer(call_with_slices!(tari_interpolate(number log_size, write column, write scratch)))
}
