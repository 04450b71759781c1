//! A function to compare.

use crate::kinds::Kind;
use common::args::Args;
use common::element::{point_words, Element};
use std::ops::Range;
use stwo::core::circle::{CirclePoint, CirclePointIndex};

/// A function to compare: how its arguments are drawn and refused, and what the Rust answers where they aren't.
pub struct Entry {
    pub name: &'static str,
    pub takes: &'static [Kind],
    /// The values, then the words of the slices lent for writing, as the call leaves them.
    pub rust: fn(&mut Args) -> Vec<u64>,
    /// If an accepted call leaves some words as anything, which of the values these are. `rust` gives what they held.
    pub free: Option<Free>,
    /// What an accepted call answers where that isn't compared with the Rust.
    pub instead: Option<Instead>,
}

/// Places of the values, by the numbers of the input.
pub type Free = fn(&[i128]) -> Range<usize>;

/// The values, or none where the Rust's are compared.
pub type Instead = fn(&mut Args) -> Option<Vec<u64>>;

pub const fn entry(name: &'static str, takes: &'static [Kind], rust: fn(&mut Args) -> Vec<u64>) -> Entry {
    Entry { name, takes, rust, free: None, instead: None }
}

impl Entry {
    pub const fn with_instead(self, instead: Instead) -> Entry {
        Entry { instead: Some(instead), ..self }
    }
}

/// The values of an answer that is one element.
pub fn words<T: Element>(element: T) -> Vec<u64> {
    element.words().into_iter().map(u64::from).collect()
}

/// The values of an answer that is a point.
pub fn coordinates<T: Element>(point: CirclePoint<T>) -> Vec<u64> {
    point_words(&point).into_iter().map(u64::from).collect()
}

/// The value of an answer that is a point index, as the Rust has it.
pub fn number(index: CirclePointIndex) -> Vec<u64> {
    vec![index.0 as u64]
}
