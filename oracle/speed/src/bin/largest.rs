//! Evaluates and interpolates one column of 2^30 words, the longest that the transform takes.

use common::library::{tari_evaluate, tari_interpolate, tari_write_reply};
use common::memory;
use common::random::Random;
use std::process::ExitCode;
use std::time::Instant;
use stwo::core::circle::CirclePoint;
use stwo::core::fields::m31::{M31, P};
use stwo::core::poly::circle::CanonicCoset;
use stwo::core::utils::bit_reverse_index;

const LOG_SIZE: u32 = 30;

/// So many positions, the first and the last among them, are compared with the sum that defines the value.
const POSITIONS: usize = 20;

/// The coefficients are summed in chunks of 2^10, where the low bits of their numbers go with the same products.
const LOW_BITS: usize = 10;

type Transform = unsafe extern "C" fn(u32, *mut u32, u64, *mut u32, u64) -> tari_write_reply;

fn main() -> ExitCode {
    let mut column: Vec<u32> = words().collect();
    let mut scratch = vec![1; column.len()];
    let sums = positions().map(|position| sum(&column, position));

    let evaluated = call("evaluate", tari_evaluate, &mut column, &mut scratch);
    let equal = positions().into_iter().zip(sums).all(|(position, sum)| column[position] == sum.0);
    let interpolated = call("interpolate", tari_interpolate, &mut column, &mut scratch);
    let back = column.into_iter().eq(words());

    println!("peak memory of the process: {} MiB", memory::peak());
    let accepted = evaluated && interpolated;
    println!(
        "accepted: {accepted}, {POSITIONS} values are the sums: {equal}, interpolation gives the column back: {back}"
    );
    if accepted && equal && back {
        ExitCode::SUCCESS
    } else {
        ExitCode::FAILURE
    }
}

/// The words of the column, which aren't kept.
fn words() -> impl Iterator<Item = u32> {
    let mut random = Random::new(1, "largest");
    (0..1 << LOG_SIZE).map(move |_| random.below(P.into()) as u32)
}

fn positions() -> [usize; POSITIONS] {
    let mut random = Random::new(1, "positions");
    let mut positions = [0; POSITIONS].map(|_| random.below(1 << LOG_SIZE) as usize);
    (positions[0], positions[1]) = (0, (1 << LOG_SIZE) - 1);
    positions
}

/// Whether the library accepts the call; prints how long it took.
fn call(name: &str, transform: Transform, column: &mut [u32], scratch: &mut [u32]) -> bool {
    let length = column.len() as u64;
    let start = Instant::now();
    let reply = unsafe { transform(LOG_SIZE, column.as_mut_ptr(), length, scratch.as_mut_ptr(), length) };
    println!("{name}, 2^{LOG_SIZE} words: {:.1} seconds", start.elapsed().as_secs_f64());
    reply.number == 0
}

/// The sum that defines the value at a position of the column.
fn sum(coefficients: &[u32], position: usize) -> M31 {
    let factors = factors(CanonicCoset::new(LOG_SIZE).circle_domain().at(bit_reverse_index(position, LOG_SIZE)));
    let (low, high) = (products(&factors[..LOW_BITS]), products(&factors[LOW_BITS..]));
    let chunks = coefficients.chunks_exact(low.len()).zip(high);
    chunks.fold(M31(0), |sum, (chunk, product)| sum + chunk_sum(chunk, &low) * product)
}

fn chunk_sum(chunk: &[u32], products: &[M31]) -> M31 {
    let terms = chunk.iter().zip(products).map(|(coefficient, product)| M31(*coefficient) * *product);
    M31::reduce(terms.map(|term| u64::from(term.0)).sum())
}

/// What the bits of a coefficient's number stand for at a point: y, x, and x doubled again and again.
fn factors(point: CirclePoint<M31>) -> Vec<M31> {
    let doubled = |x: &M31| Some(CirclePoint::double_x(*x));
    [point.y].into_iter().chain(std::iter::successors(Some(point.x), doubled)).take(LOG_SIZE as usize).collect()
}

/// The product of the factors whose bits are set, for each number of so many bits.
fn products(factors: &[M31]) -> Vec<M31> {
    let with_factor = |mut products: Vec<M31>, factor: &M31| {
        let others: Vec<M31> = products.iter().map(|product| *product * *factor).collect();
        products.extend(others);
        products
    };
    factors.iter().fold(vec![M31(1)], with_factor)
}
