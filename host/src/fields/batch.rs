//! Batch inversion.

use super::{CM31, Field, M31, QM31};
use crate::Refusal;
use crate::call::{Answer, answer};
use taripomune_sys::tari_batch_reply;

/// What the passes of a batch inversion made, an inversion's own products left out. A pass over n elements makes 3n - 3
/// multiplications and one inversion; where n is above 4 and a multiple of 4, it goes in four lanes and makes 3n + 1
/// and one; over none it makes nothing.
#[derive(Clone, Copy, Debug, Default, PartialEq, Eq)]
pub struct BatchCounts {
    /// Multiplications of elements.
    pub multiplications: u64,
    /// Inversions, one a pass.
    pub inversions: u64,
}

impl Answer for BatchCounts {
    type Reply = tari_batch_reply;

    fn of(tari_batch_reply { multiplications, inversions, .. }: tari_batch_reply) -> BatchCounts {
        BatchCounts { multiplications, inversions }
    }
}

/// The two functions of a field. Its elements have the layout of their words, so that a slice of them is lent as it is.
pub trait Batch: Sized {
    fn in_place(column: &[Self], dst: &mut [Self]) -> tari_batch_reply;
    fn chunked(column: &[Self], dst: &mut [Self], chunk_size: u64) -> tari_batch_reply;
}

macro_rules! impl_batch {
    ($field:ident, $in_place:ident, $chunked:ident) => {
        impl Batch for $field {
            fn in_place(column: &[$field], dst: &mut [$field]) -> tari_batch_reply {
                call_with_slices!($in_place(read column, write dst))
            }

            fn chunked(column: &[$field], dst: &mut [$field], chunk_size: u64) -> tari_batch_reply {
                call_with_slices!($chunked(read column, write dst, number chunk_size))
            }
        }
    };
}

impl_batch!(M31, tari_m31_batch_inverse_in_place, tari_m31_batch_inverse_chunked);
impl_batch!(CM31, tari_cm31_batch_inverse_in_place, tari_cm31_batch_inverse_chunked);
impl_batch!(QM31, tari_qm31_batch_inverse_in_place, tari_qm31_batch_inverse_chunked);

/// Element k of `dst` becomes the inverse of element k of `column`, by one pass, whose counts are answered. Elements of
/// a longer `dst` past these stay.
///
/// Refuses a shorter `dst` with 8, a zero with 3 and its position.
///
/// ```
/// use taripomune::{BatchCounts, M31, Refusal, batch_inverse_in_place};
///
/// let (column, mut dst) = ([1, 2, 0].map(M31::from), [7; 3].map(M31::from));
/// assert_eq!(batch_inverse_in_place(&column, &mut dst), Err(Refusal::Inverse(2)));
/// let counts = batch_inverse_in_place(&column[..2], &mut dst)?;
/// assert_eq!(dst, [1, 1073741824, 7].map(M31::from));
/// assert_eq!(counts, BatchCounts { multiplications: 3, inversions: 1 });
/// # Ok::<(), Refusal>(())
/// ```
pub fn batch_inverse_in_place<F: Field>(column: &[F], dst: &mut [F]) -> Result<BatchCounts, Refusal> {
    answer(F::in_place(column, dst))
}

/// The same, by one pass over each `chunk_size` elements; the counts are those of all passes together.
///
/// Refuses as [`batch_inverse_in_place`], and chunk size 0 with 9.
///
/// ```
/// use taripomune::{Field, QM31, Refusal, batch_inverse_chunked};
///
/// let (column, mut dst) = ([1, 2, 3].map(QM31::from), [QM31::zero(); 3]);
/// let counts = batch_inverse_chunked(&column, &mut dst, 2)?;
/// assert_eq!(dst[2] * column[2], QM31::one());
/// assert_eq!(counts.inversions, 2);
/// assert_eq!(batch_inverse_chunked(&column, &mut dst, 0), Err(Refusal::Chunk));
/// # Ok::<(), Refusal>(())
/// ```
pub fn batch_inverse_chunked<F: Field>(column: &[F], dst: &mut [F], chunk_size: usize) -> Result<BatchCounts, Refusal> {
    answer(F::chunked(column, dst, chunk_size as u64))
}

/// The inverses of a column.
///
/// Refuses a zero with 3 and its position.
///
/// ```
/// use taripomune::{CM31, Field, M31, batch_inverse};
///
/// let i = CM31::from_m31(M31::zero(), M31::one());
/// assert_eq!(batch_inverse(&[i, -i]), Ok(vec![-i, i]));
/// ```
pub fn batch_inverse<F: Field>(column: &[F]) -> Result<Vec<F>, Refusal> {
    let mut dst = vec![F::default(); column.len()];
    batch_inverse_in_place(column, &mut dst)?;
    Ok(dst)
}
