//! The inverses of many elements in one call, and what is refused.
//!
//!     cargo run --example batch_inverse

use taripomune::{Field, M31, QM31, Refusal, batch_inverse, batch_inverse_in_place};

fn main() -> Result<(), Refusal> {
    // Any of the three fields.
    let column: Vec<M31> = (1..=6).map(M31::from).collect();
    let inverses = batch_inverse(&column)?;
    println!("inverses: {}", inverses.iter().map(M31::to_string).collect::<Vec<_>>().join(" "));
    assert!(column.iter().zip(&inverses).all(|(element, inverse)| *element * *inverse == M31::one()));

    // What was made for them: 6 is no multiple of 4, so a pass takes 3 times 6 less 3 multiplications and one inversion.
    let counts = batch_inverse_in_place(&column, &mut [M31::zero(); 6])?;
    println!("made:     {} multiplications, {} inversion", counts.multiplications, counts.inversions);
    assert_eq!((counts.multiplications, counts.inversions), (15, 1));

    let secure = [QM31::from(7), QM31::from_u32_unchecked(1, 2, 3, 4)?];
    assert_eq!(batch_inverse(&secure)?[1] * secure[1], QM31::one());

    // Zero has no inverse: the refusal has its number and the position of the first zero, and nothing is written.
    let with_zeros = [5, 3, 0, 0].map(M31::from);
    let mut destination = [M31::one(); 4];
    let refusal = batch_inverse_in_place(&with_zeros, &mut destination).unwrap_err();
    println!("refused:  {refusal}");
    assert_eq!((refusal.number(), refusal.position()), (3, 2));
    assert_eq!(destination, [M31::one(); 4]);

    // A destination that is too short is refused before any element is looked at.
    assert_eq!(batch_inverse_in_place(&with_zeros, &mut destination[..3]), Err(Refusal::Length));
    Ok(())
}
