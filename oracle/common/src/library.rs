//! The library's functions with C linkage, and a list of them all, generated from `include/taripomune.h`.

#![allow(unused_variables, unused_mut)]

use crate::args::{Answer, Args};
use crate::lent::Lent;
pub use taripomune_sys::*;

/// A function of the header.
pub struct Function {
    /// Its name in the header without `tari_`.
    pub name: &'static str,
    /// A slice and its length are one.
    pub parameters: &'static [Parameter],
    /// Which of its values are point indices.
    pub indices: &'static [usize],
    /// Calls the library.
    pub call: fn(&mut Args) -> Answer,
    /// The values of a refused call: zeros, then the words of the slices lent for writing, as they were.
    pub refused: fn(&mut Args) -> Vec<u64>,
}

pub struct Parameter {
    pub name: &'static str,
    /// The least and the largest number of its type; none for a slice.
    pub range: Option<(i128, i128)>,
}

impl Function {
    /// Whether it takes a slice.
    pub fn slices(&self) -> bool {
        self.parameters.iter().any(|parameter| parameter.range.is_none())
    }
}

include!(concat!(env!("OUT_DIR"), "/functions.rs"));
