//! The transform between the values of a column and its coefficients. The Rust has no function of it: what is expected
//! is the sum that defines it, over the Rust's points.

use crate::circle_fft::Factors;
use crate::entry::{entry, Entry};
use crate::transform_kinds::COLUMN_AND_SCRATCH;
use common::args::Args;
use common::element::words_of;
use num_traits::{One, Zero};
use stwo::core::circle::CirclePoint;
use stwo::core::fields::m31::M31;
use stwo::core::poly::circle::CanonicCoset;
use stwo::core::utils::bit_reverse_index;

pub const ENTRIES: &[Entry] = &[transform("evaluate", evaluated), transform("interpolate", interpolated)];

/// The same beside the fast Rust alone, for columns too long for the sum.
pub const LONG_ENTRIES: &[Entry] = &[
    transform("evaluate", |a| fast(a, Factors::evaluate)),
    transform("interpolate", |a| fast(a, Factors::interpolate)),
];

/// The free values are the first words of scratch, as many as the column has.
const fn transform(name: &'static str, rust: fn(&mut Args) -> Vec<u64>) -> Entry {
    let scratch = |numbers: &[i128]| {
        let size = 1 << numbers[0];
        size..2 * size
    };
    Entry { free: Some(scratch), ..entry(name, &[COLUMN_AND_SCRATCH], rust) }
}

/// The fast Rust, which the long columns are compared with, must give the sum too.
fn evaluated(a: &mut Args) -> Vec<u64> {
    let (log_size, coefficients, scratch) = (a.take(), a.column(), a.column());
    let values = sums(log_size, &coefficients);
    assert_eq!(Factors::new(log_size).evaluate(&coefficients), values, "the fast Rust differs from the sum");
    left(&values, &scratch)
}

/// The coefficients are those of the fast Rust, and their sums the values.
fn interpolated(a: &mut Args) -> Vec<u64> {
    let (log_size, values, scratch) = (a.take(), a.column(), a.column());
    let coefficients = Factors::new(log_size).interpolate(&values);
    assert_eq!(sums(log_size, &coefficients), values, "the sum doesn't give the values back");
    left(&coefficients, &scratch)
}

fn fast(a: &mut Args, rust: fn(&Factors, &[M31]) -> Vec<M31>) -> Vec<u64> {
    let (log_size, column, scratch) = (a.take(), a.column(), a.column());
    left(&rust(&Factors::new(log_size), &column), &scratch)
}

/// What a call leaves in the column and in scratch.
fn left(column: &[M31], scratch: &[M31]) -> Vec<u64> {
    words_of(&[column, scratch].concat()).into_iter().map(u64::from).collect()
}

/// The sum at each position of a value column.
fn sums(log_size: u32, coefficients: &[M31]) -> Vec<M31> {
    let domain = CanonicCoset::new(log_size).circle_domain();
    let point = |position| domain.at(bit_reverse_index(position, log_size));
    (0..1 << log_size).map(|position| sum(coefficients, &products(log_size, point(position)))).collect()
}

fn sum(coefficients: &[M31], products: &[M31]) -> M31 {
    coefficients.iter().zip(products).fold(M31::zero(), |sum, (coefficient, product)| sum + *coefficient * *product)
}

/// What each coefficient goes with at a point: y, x and x doubled again and again, by the bits of its number.
fn products(log_size: u32, point: CirclePoint<M31>) -> Vec<M31> {
    let mut products = vec![M31::one()];
    let mut factor = point.y;
    for bit in 0..log_size {
        let with_factor: Vec<M31> = products.iter().map(|product| *product * factor).collect();
        products.extend(with_factor);
        factor = if bit == 0 { point.x } else { CirclePoint::double_x(factor) };
    }
    products
}
