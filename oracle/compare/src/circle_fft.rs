//! A fast transform, which takes the lowest bit of the coefficient number first: f(x, y) = f0(x) + y f1(x) with f0 of
//! the even coefficients and f1 of the odd ones, and each of these is g0(2x^2 - 1) + x g1(2x^2 - 1) in the same way,
//! until one coefficient is left. It works in the order of the domain, where the points with -y, and those with -x, are
//! the second half of the list.

use num_traits::Zero;
use stwo::core::circle::CirclePoint;
use stwo::core::fields::batch_inverse;
use stwo::core::fields::m31::M31;
use stwo::core::poly::circle::CanonicCoset;
use stwo::core::utils::bit_reverse_index;

/// The inverse of 2.
const HALF: M31 = M31(1 << 30);

/// What the odd part is multiplied by at each depth: y, x, then x doubled again and again, over the first half of the
/// points of that depth.
pub struct Factors {
    log_size: u32,
    factors: Vec<Vec<M31>>,
    /// The inverses of twice these.
    inverses: Vec<Vec<M31>>,
}

impl Factors {
    pub fn new(log_size: u32) -> Factors {
        let points: Vec<CirclePoint<M31>> = CanonicCoset::new(log_size).circle_domain().half_coset.iter().collect();
        let mut factors = vec![points.iter().map(|point| point.y).collect()];
        let mut line: Vec<M31> = points.iter().map(|point| point.x).collect();
        while line.len() > 1 {
            line.truncate(line.len() / 2);
            factors.push(line.clone());
            line.iter_mut().for_each(|x| *x = CirclePoint::double_x(*x));
        }
        let twice = |list: &Vec<M31>| list.iter().map(|factor| *factor + *factor).collect::<Vec<M31>>();
        let inverses = factors.iter().map(|list| batch_inverse(&twice(list))).collect();
        Factors { log_size, factors, inverses }
    }

    /// The value column of a coefficient column.
    pub fn evaluate(&self, coefficients: &[M31]) -> Vec<M31> {
        let mut values = vec![M31::zero(); coefficients.len()];
        evaluate(coefficients, Part { start: 0, step: 1 }, &self.factors, &mut values);
        self.reversed(&values)
    }

    /// The coefficient column of a value column.
    pub fn interpolate(&self, values: &[M31]) -> Vec<M31> {
        let mut coefficients = vec![M31::zero(); values.len()];
        interpolate(&mut self.reversed(values), Part { start: 0, step: 1 }, &self.inverses, &mut coefficients);
        coefficients
    }

    /// From the order of the domain to that of a value column, or back.
    fn reversed(&self, values: &[M31]) -> Vec<M31> {
        (0..values.len()).map(|position| values[bit_reverse_index(position, self.log_size)]).collect()
    }
}

/// The coefficients `start`, `start + step` and so on.
struct Part {
    start: usize,
    step: usize,
}

impl Part {
    fn even(&self) -> Part {
        Part { start: self.start, step: 2 * self.step }
    }

    fn odd(&self) -> Part {
        Part { start: self.start + self.step, step: 2 * self.step }
    }
}

fn evaluate(coefficients: &[M31], part: Part, factors: &[Vec<M31>], values: &mut [M31]) {
    let [factors, deeper @ ..] = factors else {
        values[0] = coefficients[part.start];
        return;
    };
    let (even, odd) = values.split_at_mut(factors.len());
    evaluate(coefficients, part.even(), deeper, even);
    evaluate(coefficients, part.odd(), deeper, odd);
    for ((even, odd), factor) in even.iter_mut().zip(odd).zip(factors) {
        let product = *factor * *odd;
        (*even, *odd) = (*even + product, *even - product);
    }
}

fn interpolate(values: &mut [M31], part: Part, inverses: &[Vec<M31>], coefficients: &mut [M31]) {
    let [inverses, deeper @ ..] = inverses else {
        coefficients[part.start] = values[0];
        return;
    };
    let (even, odd) = values.split_at_mut(inverses.len());
    for ((even, odd), inverse) in even.iter_mut().zip(&mut *odd).zip(inverses) {
        (*even, *odd) = ((*even + *odd) * HALF, (*even - *odd) * *inverse);
    }
    interpolate(even, part.even(), deeper, coefficients);
    interpolate(odd, part.odd(), deeper, coefficients);
}
