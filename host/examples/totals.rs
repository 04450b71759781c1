//! The total of a column from its coefficient 0: all values together are 2^n times coefficient 0, modulo P.
//!
//!     cargo run --example totals

use taripomune::{Field, M31, P, Refusal, interpolate};

/// The total of 2^`log_size` balances modulo P.
fn total(log_size: u32, balances: &[M31]) -> Result<M31, Refusal> {
    let mut column = balances.to_vec();
    interpolate(log_size, &mut column, &mut vec![0; balances.len()])?;
    Ok(column[0] * M31::from(2).pow(log_size.into()))
}

fn main() -> Result<(), Refusal> {
    // Each below 2^11, so that the total of 2^10 of them is below P: it is the total itself.
    let balances: Vec<u32> = (0..1024).map(|card| card * card % 2048).collect();
    let sum: u32 = balances.iter().sum();
    assert!(sum < P);

    let elements: Vec<M31> = balances.into_iter().map(M31::from).collect();
    let total = u32::from(total(10, &elements)?);
    println!("added up: {sum}, by coefficient 0: {total}");
    assert_eq!(total, sum);
    Ok(())
}
