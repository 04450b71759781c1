//! Whole calls of the transform, beside the Rust of the same algorithm.

use crate::measure::{best, Row};
use crate::rows::drawn;
#[cfg(target_arch = "x86_64")]
use crate::transform::avx2;
use crate::transform::{partly_reduced, plain, Transform};
use common::library::{tari_evaluate, tari_interpolate, tari_write_reply};
use std::cell::RefCell;

pub static TRANSFORM_ROWS: &[fn() -> Row] = &[
    || evaluate("evaluate, 2^10 words", 10),
    || evaluate("evaluate, 2^16 words", 16),
    || evaluate("evaluate, 2^20 words", 20),
    || evaluate("evaluate, 2^24 words", 24),
    || evaluate("evaluate, 2^26 words", 26),
    || interpolate("interpolate, 2^10 words", 10),
    || interpolate("interpolate, 2^16 words", 16),
    || interpolate("interpolate, 2^20 words", 20),
    || interpolate("interpolate, 2^24 words", 24),
    || interpolate("interpolate, 2^26 words", 26),
];

/// The Rust that leaves P for 0 where the library does.
pub static PARTLY_ROWS: &[fn() -> Row] = &[
    || partly_evaluate("evaluate, 2^10 words, Rust that leaves P", 10),
    || partly_evaluate("evaluate, 2^16 words, Rust that leaves P", 16),
    || partly_evaluate("evaluate, 2^20 words, Rust that leaves P", 20),
    || partly_evaluate("evaluate, 2^24 words, Rust that leaves P", 24),
    || partly_evaluate("evaluate, 2^26 words, Rust that leaves P", 26),
    || partly_interpolate("interpolate, 2^10 words, Rust that leaves P", 10),
    || partly_interpolate("interpolate, 2^16 words, Rust that leaves P", 16),
    || partly_interpolate("interpolate, 2^20 words, Rust that leaves P", 20),
    || partly_interpolate("interpolate, 2^24 words, Rust that leaves P", 24),
    || partly_interpolate("interpolate, 2^26 words, Rust that leaves P", 26),
];

/// The Rust with instructions that the library is built without.
#[cfg(target_arch = "x86_64")]
const AVX2_ROWS: &[fn() -> Row] = &[
    || avx2_evaluate("evaluate, 2^10 words, Rust with AVX2", 10),
    || avx2_evaluate("evaluate, 2^16 words, Rust with AVX2", 16),
    || avx2_evaluate("evaluate, 2^20 words, Rust with AVX2", 20),
    || avx2_interpolate("interpolate, 2^10 words, Rust with AVX2", 10),
    || avx2_interpolate("interpolate, 2^16 words, Rust with AVX2", 16),
    || avx2_interpolate("interpolate, 2^20 words, Rust with AVX2", 20),
];

/// The rows with AVX2, where the machine has it.
pub fn avx2_rows() -> &'static [fn() -> Row] {
    #[cfg(target_arch = "x86_64")]
    if std::is_x86_feature_detected!("avx2") {
        return AVX2_ROWS;
    }
    &[]
}

/// The library may take no longer than the Rust.
const LIMIT: f64 = 1.0;

fn evaluate(what: &'static str, log_size: u32) -> Row {
    transform(what, log_size, LIMIT, plain::evaluate, tari_evaluate)
}

fn interpolate(what: &'static str, log_size: u32) -> Row {
    transform(what, log_size, LIMIT, plain::interpolate, tari_interpolate)
}

fn partly_evaluate(what: &'static str, log_size: u32) -> Row {
    transform(what, log_size, f64::INFINITY, partly_reduced::evaluate, tari_evaluate)
}

fn partly_interpolate(what: &'static str, log_size: u32) -> Row {
    transform(what, log_size, f64::INFINITY, partly_reduced::interpolate, tari_interpolate)
}

#[cfg(target_arch = "x86_64")]
fn avx2_evaluate(what: &'static str, log_size: u32) -> Row {
    // `avx2_rows` has asked for the instructions.
    let rust: Transform = |log_size, column, scratch| unsafe { avx2::evaluate(log_size, column, scratch) };
    transform(what, log_size, f64::INFINITY, rust, tari_evaluate)
}

#[cfg(target_arch = "x86_64")]
fn avx2_interpolate(what: &'static str, log_size: u32) -> Row {
    let rust: Transform = |log_size, column, scratch| unsafe { avx2::interpolate(log_size, column, scratch) };
    transform(what, log_size, f64::INFINITY, rust, tari_interpolate)
}

type Call = unsafe extern "C" fn(u32, *mut u32, u64, *mut u32, u64) -> tari_write_reply;

/// Both sides transform one column in one scratch, in turn, so that where their memory lies doesn't decide. Before that
/// each transforms a copy, for the answers to be compared.
fn transform(what: &'static str, log_size: u32, limit: f64, rust_transform: Transform, call: Call) -> Row {
    let n = 1 << log_size;
    let library = |column: &mut [u32], scratch: &mut [u32]| {
        let reply = unsafe { call(log_size, column.as_mut_ptr(), n as u64, scratch.as_mut_ptr(), n as u64) };
        reply.number == 0
    };
    let (mut column, mut scratch) = (drawn(what, n), vec![1; n]);
    let mut other = column.clone();
    let accepted = rust_transform(log_size, &mut column, &mut scratch) && library(&mut other, &mut scratch);
    let equal = column == other;
    drop(other);
    let shared = RefCell::new((column, scratch, accepted));
    let (rust, library) = best(
        n,
        || {
            let (column, scratch, accepted) = &mut *shared.borrow_mut();
            *accepted &= rust_transform(log_size, column, scratch);
        },
        || {
            let (column, scratch, accepted) = &mut *shared.borrow_mut();
            *accepted &= library(column, scratch);
        },
    );
    let (_, _, accepted) = shared.into_inner();
    Row { what, rust, library, limit, equal: equal && accepted, work: None }
}
