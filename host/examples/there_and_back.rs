//! The values of a column become coefficients, and values again.
//!
//!     cargo run --example there_and_back

use taripomune::{P, Refusal, evaluate, interpolate};

fn main() -> Result<(), Refusal> {
    // 2^3 words below P. The scratch may hold anything, and ends as anything.
    let values = [1250, 0, 730, 2020, 5, 81, 0, 99];
    let mut column = values;
    let mut scratch = [0; 8];

    interpolate(3, &mut column, &mut scratch)?;
    println!("coefficients: {column:?}");
    evaluate(3, &mut column, &mut scratch)?;
    println!("values:       {column:?}");
    assert_eq!(column, values);

    // A refused call says what is wrong and where, and leaves the column as it was.
    column[6] = P;
    let refusal = interpolate(3, &mut column, &mut scratch).unwrap_err();
    println!("refused:      {refusal}");
    assert_eq!(refusal, Refusal::Word(6));
    assert_eq!(column[..6], values[..6]);
    Ok(())
}
