//! Calls both sides on an input and counts.

use crate::entry::Entry;
use crate::inputs::{combinations, draw, Input};
use crate::kinds::{first_refusal, ORDER};
use common::args::{Answer, Args};
use common::library::{Function, FUNCTIONS};
use common::random::Random;
use std::fmt::Debug;
use std::ops::Range;
use std::panic::{catch_unwind, AssertUnwindSafe};
use std::process::exit;

/// So many differing inputs of a function are printed.
const SHOWN: usize = 5;

/// So many numbers of an input or of an answer are printed.
const NUMBERS: usize = 500;

#[derive(Default)]
pub struct Tally {
    pub compared: u64,
    pub refused: u64,
    pub different: u64,
    shown: Vec<Vec<i128>>,
}

/// Both answers on one input.
pub struct Pair {
    pub numbers: Vec<i128>,
    pub expected: Answer,
    pub library: Answer,
}

/// Compares a function on its limits and on `count` drawn inputs.
pub fn check(entry: &Entry, function: &Function, seed: u64, count: u64) -> Tally {
    let mut random = Random::new(seed, entry.name);
    let mut tally = Tally::default();
    for input in combinations(entry.takes, &mut random) {
        tally.add(entry, &answers(entry, function, &input));
    }
    let drawn = if entry.takes.is_empty() { 0 } else { count };
    for _ in 0..drawn {
        let input = draw(entry.takes, &mut random);
        tally.add(entry, &answers(entry, function, &input));
    }
    tally
}

impl Tally {
    fn add(&mut self, entry: &Entry, pair: &Pair) {
        self.compared += 1;
        self.refused += u64::from(pair.expected.number != 0);
        if pair.library != pair.expected {
            self.different += 1;
            if self.shown.len() < SHOWN && !self.shown.contains(&pair.numbers) {
                self.shown.push(pair.numbers.clone());
                println!("{} differs on {}", entry.name, start(&pair.numbers));
                println!("    expected {}", shown(&pair.expected));
                println!("    library  {}", shown(&pair.library));
            }
        }
    }
}

fn shown(Answer { number, position, values }: &Answer) -> String {
    format!("number {number}, position {position}, values {}", start(values))
}

/// A list, or where it is long its start.
fn start<T: Debug>(list: &[T]) -> String {
    match list.len().saturating_sub(NUMBERS) {
        0 => format!("{list:?}"),
        more => format!("{:?} and {more} more", &list[..NUMBERS]),
    }
}

/// The library's answer, and the refusal of the table or else the answer that is expected.
pub fn answers(entry: &Entry, function: &Function, input: &Input) -> Pair {
    let numbers = input.concat();
    let expected = match first_refusal(entry.takes, input) {
        Some(refusal) => {
            Answer { number: refusal.number, position: refusal.position, values: with_all(&numbers, function.refused) }
        }
        None => Answer { number: 0, position: 0, values: accepted(entry, function, &numbers) },
    };
    let mut library = with_all(&numbers, function.call);
    if let (Some(free), 0) = (entry.free, expected.number) {
        put_back(&mut library.values, &expected.values, free(&numbers));
    }
    Pair { numbers, expected, library }
}

/// Puts back what free words held. Lists of different lengths differ anyway.
fn put_back(values: &mut [u64], expected: &[u64], free: Range<usize>) {
    if values.len() == expected.len() {
        values[free.clone()].copy_from_slice(&expected[free]);
    }
}

/// The Rust's values, its indices read modulo 2^31, or what stands instead of them.
fn accepted(entry: &Entry, function: &Function, numbers: &[i128]) -> Vec<u64> {
    if let Some(values) = entry.instead.and_then(|instead| with_all(numbers, instead)) {
        return values;
    }
    let mut values = rust(entry, numbers);
    for place in function.indices {
        values[*place] %= ORDER as u64;
    }
    values
}

fn rust(entry: &Entry, numbers: &[i128]) -> Vec<u64> {
    catch_unwind(AssertUnwindSafe(|| with_all(numbers, entry.rust))).unwrap_or_else(|_| {
        println!("{}: the Rust panics on {}, which the entry's kinds accept", entry.name, start(numbers));
        exit(1)
    })
}

/// The values of the library's function of this name, which must accept the numbers.
pub fn call(name: &str, numbers: &[i128]) -> Vec<i128> {
    let function = FUNCTIONS.iter().find(|function| function.name == name).expect("the header declares it");
    let answer = with_all(numbers, function.call);
    assert_eq!(answer.number, 0, "{name} refuses {numbers:?}");
    answer.values.into_iter().map(i128::from).collect()
}

/// Calls with the numbers and sees that all were taken.
pub fn with_all<T>(numbers: &[i128], call: fn(&mut Args) -> T) -> T {
    let mut args = Args(numbers.iter());
    let answer = call(&mut args);
    assert!(args.0.next().is_none(), "the entry's kinds give more numbers than are taken");
    answer
}
