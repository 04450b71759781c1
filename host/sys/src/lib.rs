//! The C interface of Taripomune, as `include/taripomune.h` declares it. The crate `taripomune` has safe types over it.
//!
//! A function of numbers alone may be called with any numbers. One that takes a slice is `unsafe`: the pointer must be
//! good for so many words, and the slices of a call mustn't overlap.

#![allow(non_camel_case_types)]

/// What every function answers with.
pub trait Reply {
    /// The number, 0 where the call is accepted, and the position of the refusal.
    fn refusal(&self) -> (u32, u64);
}

include!(concat!(env!("OUT_DIR"), "/declarations.rs"));
