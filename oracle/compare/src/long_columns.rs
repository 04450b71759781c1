//! Columns too long for the sum that defines their values, beside the fast Rust of `circle_fft.rs`, and back again by
//! the library.

use crate::check::Tally;
use crate::circle_fft::Factors;
use common::args::Answer;
use common::element::{elements, words_of};
use common::lent::Lent;
use common::library::{tari_evaluate, tari_interpolate, tari_write_reply};
use common::random::Random;
use std::ops::RangeInclusive;
use stwo::core::fields::m31::{M31, P};

const LOG_SIZES: RangeInclusive<u32> = 11..=22;

/// Scratch has so many words more than the column.
const MORE: usize = 5;

type Transform = unsafe extern "C" fn(u32, *mut u32, u64, *mut u32, u64) -> tari_write_reply;

/// A transform of the library, the one that undoes it, and the fast Rust.
pub struct Direction {
    pub name: &'static str,
    call: Transform,
    back: Transform,
    rust: fn(&Factors, &[M31]) -> Vec<M31>,
}

pub const DIRECTIONS: [Direction; 2] = [
    Direction {
        name: "evaluate on long columns, and back",
        call: tari_evaluate,
        back: tari_interpolate,
        rust: Factors::evaluate,
    },
    Direction {
        name: "interpolate on long columns, and back",
        call: tari_interpolate,
        back: tari_evaluate,
        rust: Factors::interpolate,
    },
];

pub fn check_long_columns(direction: &Direction, seed: u64) -> Tally {
    let mut random = Random::new(seed, direction.name);
    let mut tally = Tally::default();
    for log_size in LOG_SIZES {
        let factors = Factors::new(log_size);
        let mut compare = |expected: Answer, library: Answer| {
            tally.compared += 1;
            tally.refused += u64::from(expected.number != 0);
            if library != expected {
                tally.different += 1;
                println!("{}, 2^{log_size} words: {}", direction.name, difference(&expected, &library));
            }
        };
        for column in columns(log_size, &mut random) {
            let expected = words_of(&(direction.rust)(&factors, &elements(&column)));
            compare(written(&expected), called(direction.call, log_size, &column, true));
            compare(written(&column), called(direction.back, log_size, &expected, true));
        }
        let (column, position) = damaged(log_size, &mut random);
        compare(refused(&column, position), called(direction.call, log_size, &column, false));
    }
    tally
}

/// How the answers differ, without their many words.
fn difference(expected: &Answer, library: &Answer) -> String {
    let shown = |answer: &Answer| format!("number {}, position {}", answer.number, answer.position);
    let place = expected.values.iter().zip(&library.values).position(|(one, other)| one != other);
    format!("expected {}, library {}, first word that differs {place:?}", shown(expected), shown(library))
}

/// Any words, the same word everywhere, and a one at several places.
fn columns(log_size: u32, random: &mut Random) -> Vec<Vec<u32>> {
    let size = 1 << log_size;
    let places = [0, size - 1, random.below(size as u64) as usize];
    let ones = places.map(|one| (0..size).map(|place| u32::from(place == one)).collect());
    [vec![drawn(size, random), vec![P - 1; size], vec![0; size]], ones.to_vec()].concat()
}

fn drawn(size: usize, random: &mut Random) -> Vec<u32> {
    (0..size).map(|_| random.below(P.into()) as u32).collect()
}

/// A column with two words from P on, and the position of the lower one.
fn damaged(log_size: u32, random: &mut Random) -> (Vec<u32>, usize) {
    let size = 1 << log_size;
    let mut column = drawn(size, random);
    let position = random.below(size as u64 - 1) as usize;
    column[position] = P;
    column[size - 1] = u32::MAX;
    (column, position)
}

fn scratch(size: usize) -> Vec<u32> {
    vec![u32::MAX; size + MORE]
}

/// The answer that leaves this column, and scratch as it was past the free words.
fn written(column: &[u32]) -> Answer {
    Answer { number: 0, position: 0, values: numbers(&[column, &scratch(0)].concat()) }
}

/// The refusal of a word, which leaves everything as it was.
fn refused(column: &[u32], position: usize) -> Answer {
    let values = numbers(&[column, &scratch(column.len())].concat());
    Answer { number: 1, position: position as u64, values }
}

fn numbers(words: &[u32]) -> Vec<u64> {
    words.iter().map(|word| u64::from(*word)).collect()
}

/// The library's answer: its values are the words of the column, then those of scratch, without the free ones if the
/// call should be accepted.
fn called(call: Transform, log_size: u32, column: &[u32], accepted: bool) -> Answer {
    let (mut lent, mut scratch) = (Lent::new(column.to_vec()), Lent::new(scratch(column.len())));
    let reply = unsafe { call(log_size, lent.pointer(), lent.len() as u64, scratch.pointer(), scratch.len() as u64) };
    let free = if accepted { column.len() } else { 0 };
    let values = [&lent.written()[..], &scratch.written()[free..]].concat();
    Answer { number: reply.number, position: reply.position, values }
}
