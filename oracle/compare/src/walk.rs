//! Whole walks: the library's iterators from their start until they are done, beside the Rust's. The entries compare
//! steps one by one; here a step starts from what the one before it left.

use crate::check::{call, Tally};
use crate::coset_records::{draw_made, numbers};
use crate::kinds::ORDER;
use common::random::Random;
use stwo::core::circle::{CirclePointIndex, Coset};
use stwo::core::poly::circle::CircleDomain;

/// So many records of each log size are walked.
const RECORDS: usize = 60;

const MOST_LOG_SIZE: u32 = 8;

/// An iterator of the library: what makes it, what takes a step, and the Rust's indices.
pub struct Walk {
    pub name: &'static str,
    start: &'static str,
    next: &'static str,
    rust: fn(&Coset) -> Vec<i128>,
}

pub const WALKS: [Walk; 2] = [
    Walk {
        name: "walks of a coset",
        start: "coset_iter_indices",
        next: "coset_iterator_next",
        rust: |coset| indices(coset.iter_indices()),
    },
    Walk {
        name: "walks of a circle domain",
        start: "circle_domain_iter_indices",
        next: "circle_domain_index_iterator_next",
        rust: |half_coset| indices(CircleDomain::new(*half_coset).iter_indices()),
    },
];

/// The Rust's indices, read modulo 2^31.
fn indices(iterator: impl Iterator<Item = CirclePointIndex>) -> Vec<i128> {
    iterator.map(|index| index.0 as i128 % ORDER).collect()
}

pub fn check_walk(walk: &Walk, seed: u64) -> Tally {
    let mut random = Random::new(seed, walk.name);
    let mut tally = Tally::default();
    for coset in (0..=MOST_LOG_SIZE).flat_map(|log_size| records(log_size, &mut random)) {
        let expected = (walk.rust)(&coset);
        tally.compared += 1;
        if walked(walk, &coset, expected.len() + 1) != expected {
            tally.different += 1;
            println!("{}: the indices differ on {:?}", walk.name, numbers(&coset));
        }
    }
    tally
}

/// Records as the Rust makes them, and others whose log size belongs to another step.
fn records(log_size: u32, random: &mut Random) -> Vec<Coset> {
    let drawn = |place: usize| match place {
        0 => Coset::odds(log_size),
        1 => Coset::half_odds(log_size),
        2..20 => Coset::new(draw_made(random).initial_index, log_size),
        _ => Coset { log_size, ..draw_made(random) },
    };
    (0..RECORDS).map(drawn).collect()
}

/// The indices of the library until it is done, `most` of them at most.
fn walked(walk: &Walk, coset: &Coset, most: usize) -> Vec<i128> {
    let mut iterator = call(walk.start, &numbers(coset));
    let mut indices = Vec::new();
    while indices.len() < most {
        let step = call(walk.next, &iterator);
        if step[0] == 1 {
            break;
        }
        indices.push(step[1]);
        iterator = step[2..].to_vec();
    }
    indices
}
