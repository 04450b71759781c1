//! The points that the positions of a column belong to: those of the canonic circle domain, in bit-reversed order.
//!
//!     cargo run --example domain_points

use taripomune::{CanonicCoset, CirclePoint, Field, M31, Refusal, bit_reverse_index, evaluate};

/// The point of each position of a column of 2^`log_size` values.
fn points(log_size: u32) -> Result<Vec<CirclePoint<M31>>, Refusal> {
    let domain = CanonicCoset::new(log_size)?.circle_domain();
    (0..domain.size()).map(|position| Ok(domain.at(bit_reverse_index(position, log_size)?))).collect()
}

fn main() -> Result<(), Refusal> {
    let points = points(3)?;
    for (position, point) in points.iter().enumerate() {
        println!("position {position}: ({}, {})", point.x, point.y);
        assert_eq!(point.x.square() + point.y.square(), M31::one());
    }

    // Coefficient 1 goes with y and coefficient 2 with x: such a coefficient alone has them as its values.
    let values = |coefficient: usize| {
        let mut column = [M31::zero(); 8];
        column[coefficient] = M31::one();
        evaluate(3, &mut column, &mut [0; 8]).map(|()| column)
    };
    assert!(points.iter().map(|point| point.y).eq(values(1)?));
    assert!(points.iter().map(|point| point.x).eq(values(2)?));
    Ok(())
}
