//! Batch inversion of the three fields: `fields/mod.rs`.

use crate::columns::{chunked, in_place};
use crate::entry::{entry, Entry};
use common::args::Args;
use common::element::{words_of, Element};
use stwo::core::fields::cm31::CM31;
use stwo::core::fields::m31::M31;
use stwo::core::fields::qm31::QM31;
use stwo::core::fields::{batch_inverse_chunked, batch_inverse_in_place};

pub const ENTRIES: &[Entry] = &[
    entry("m31_batch_inverse_in_place", &[in_place::<1>()], rust_in_place::<M31>),
    entry("m31_batch_inverse_chunked", &[chunked::<1>()], rust_chunked::<M31>),
    entry("cm31_batch_inverse_in_place", &[in_place::<2>()], rust_in_place::<CM31>),
    entry("cm31_batch_inverse_chunked", &[chunked::<2>()], rust_chunked::<CM31>),
    entry("qm31_batch_inverse_in_place", &[in_place::<4>()], rust_in_place::<QM31>),
    entry("qm31_batch_inverse_chunked", &[chunked::<4>()], rust_chunked::<QM31>),
];

fn rust_in_place<T: Element>(a: &mut Args) -> Vec<u64> {
    let (column, mut dst) = (a.column::<T>(), a.column());
    if panics(&column, &dst) {
        invert_each(&column, &mut dst);
    } else {
        batch_inverse_in_place(&column, &mut dst);
    }
    values(&dst)
}

fn rust_chunked<T: Element>(a: &mut Args) -> Vec<u64> {
    let (column, mut dst, chunk_size) = (a.column::<T>(), a.column(), a.take());
    if column.chunks(chunk_size).zip(dst.chunks(chunk_size)).any(|(column, dst)| panics(column, dst)) {
        invert_each(&column, &mut dst);
    } else {
        batch_inverse_chunked(&column, &mut dst, chunk_size);
    }
    values(&dst)
}

/// Whether the Rust's pass of four lanes meets a longer destination, where it panics.
fn panics<T>(column: &[T], dst: &[T]) -> bool {
    column.len() > 4 && column.len() % 4 == 0 && dst.len() > column.len()
}

/// What is expected where the Rust's batch would panic: it isn't called there, only the inverse of each element.
fn invert_each<T: Element>(column: &[T], dst: &mut [T]) {
    for (element, place) in column.iter().zip(dst) {
        *place = element.inverse();
    }
}

fn values<T: Element>(dst: &[T]) -> Vec<u64> {
    words_of(dst).into_iter().map(u64::from).collect()
}
