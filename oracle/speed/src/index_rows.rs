//! Rows of the calls that find the points of indices.

use crate::measure::{best, Row};
use common::library::{
    tari_coset_at, tari_coset_conjugate, tari_coset_index_at, tari_coset_is_doubling_of, tari_coset_reply,
    tari_coset_shift, tari_index_to_point, tari_point_reply,
};
use common::random::Random;
use std::hint::black_box;
use stwo::core::circle::{CirclePoint, CirclePointIndex, Coset};
use stwo::core::fields::m31::M31;

/// The library has a table where the Rust doubles and adds.
const LIMIT: f64 = 0.50;

/// Here it also looks up both points of the record, to see that they are its indices'.
const LIMIT_OF_COSETS: f64 = 1.10;

/// The points of indices below 2^31.
pub fn to_point(what: &'static str, n: usize) -> Row {
    let mut random = Random::new(1, what);
    let indices = (0..n).map(|_| random.below(1 << 31)).collect();
    each(what, LIMIT, indices, |k| index(*k).to_point(), |k| point_of(tari_index_to_point(*k)))
}

/// The Rust only multiplies and adds indices.
pub fn coset_index_at(what: &'static str, n: usize) -> Row {
    of_cosets(
        what,
        f64::INFINITY,
        n,
        |coset, k| coset.index_at(k as usize).0 as u64,
        |(initial, x, y, step, z, w, log_size), k| tari_coset_index_at(initial, x, y, step, z, w, log_size, k).index,
    )
}

/// A coset of log size 20 and its tenth doubling.
pub fn coset_is_doubling_of(what: &'static str, n: usize) -> Row {
    let mut random = Random::new(1, what);
    let coset = |_| Coset::new(index(random.below(1 << 31)), 20);
    let inputs = (0..n).map(coset).map(|coset| (coset.repeated_double(10), coset)).collect();
    each(
        what,
        f64::INFINITY,
        inputs,
        |(doubled, coset)| doubled.is_doubling_of(*coset),
        |(doubled, coset)| {
            let (i, x, y, j, z, w, n) = words(doubled);
            let (k, a, b, l, c, d, m) = words(coset);
            tari_coset_is_doubling_of(i, x, y, j, z, w, n, k, a, b, l, c, d, m).value == 1
        },
    )
}

pub fn coset_at(what: &'static str, n: usize) -> Row {
    of_cosets(
        what,
        LIMIT_OF_COSETS,
        n,
        |coset, k| coset.at(k as usize),
        |(initial, x, y, step, z, w, log_size), k| point_of(tari_coset_at(initial, x, y, step, z, w, log_size, k)),
    )
}

pub fn coset_shift(what: &'static str, n: usize) -> Row {
    of_cosets(
        what,
        LIMIT_OF_COSETS,
        n,
        |coset, k| coset.shift(index(k)),
        |(initial, x, y, step, z, w, log_size), k| coset_of(tari_coset_shift(initial, x, y, step, z, w, log_size, k)),
    )
}

pub fn coset_conjugate(what: &'static str, n: usize) -> Row {
    of_cosets(
        what,
        LIMIT_OF_COSETS,
        n,
        |coset, _| coset.conjugate(),
        |(initial, x, y, step, z, w, log_size), _| coset_of(tari_coset_conjugate(initial, x, y, step, z, w, log_size)),
    )
}

/// A coset in the words of the C interface: initial index and point, step index and point, log size.
type Words = (u64, u32, u32, u64, u32, u32, u32);

/// A call a coset of log size 20 with a drawn initial index, and an index below 2^31 for the calls that take one.
fn of_cosets<T: Copy + PartialEq>(
    what: &'static str,
    limit: f64,
    n: usize,
    rust_call: impl Fn(&Coset, u64) -> T,
    call: impl Fn(Words, u64) -> T,
) -> Row {
    let mut random = Random::new(1, what);
    let inputs = (0..n).map(|_| (Coset::new(index(random.below(1 << 31)), 20), random.below(1 << 31))).collect();
    each(what, limit, inputs, |(coset, k)| rust_call(coset, *k), |(coset, k)| call(words(coset), *k))
}

/// A call an input; the answers are kept and compared.
fn each<I, T: Copy + PartialEq>(
    what: &'static str,
    limit: f64,
    inputs: Vec<I>,
    rust_call: impl Fn(&I) -> T,
    call: impl Fn(&I) -> T,
) -> Row {
    let mut rust_answers = vec![None; inputs.len()];
    let mut answers = rust_answers.clone();
    let (rust, library) = best(
        inputs.len(),
        || {
            for (input, answer) in black_box(&inputs).iter().zip(black_box(&mut rust_answers)) {
                *answer = Some(rust_call(input));
            }
        },
        || {
            for (input, answer) in black_box(&inputs).iter().zip(black_box(&mut answers)) {
                *answer = Some(call(input));
            }
        },
    );
    Row { what, rust, library, limit, equal: rust_answers == answers, work: None }
}

fn index(k: u64) -> CirclePointIndex {
    CirclePointIndex(k as usize)
}

fn point_of(reply: tari_point_reply) -> CirclePoint<M31> {
    CirclePoint { x: M31(reply.x), y: M31(reply.y) }
}

fn words(coset: &Coset) -> Words {
    let (a, b) = (coset.initial, coset.step);
    (coset.initial_index.0 as u64, a.x.0, a.y.0, coset.step_size.0 as u64, b.x.0, b.y.0, coset.log_size)
}

fn coset_of(reply: tari_coset_reply) -> Coset {
    Coset {
        initial_index: index(reply.initial_index),
        initial: CirclePoint { x: M31(reply.initial_x), y: M31(reply.initial_y) },
        step_size: index(reply.step_index),
        step: CirclePoint { x: M31(reply.step_x), y: M31(reply.step_y) },
        log_size: reply.log_size,
    }
}
