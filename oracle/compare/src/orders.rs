//! Column orders: `utils.rs`.

use crate::entry::{entry, Entry};
use crate::orders_kinds::{COPIED, COSET_POSITION, DOMAIN_AND_EVAL, OFFSET, PERMUTED, POSITION, REVERSED};
use common::args::Args;
use common::element::words_of;
use stwo::circle_domain_order_to_coset_order;
use stwo::core::fields::m31::M31;
use stwo::core::utils::{
    bit_reverse, bit_reverse_coset_to_circle_domain_order, bit_reverse_index, coset_index_to_circle_domain_index,
    coset_order_to_circle_domain_order, offset_bit_reversed_circle_domain_index,
    previous_bit_reversed_circle_domain_index,
};

pub const ENTRIES: &[Entry] = &[
    entry("bit_reverse_index", &[REVERSED], |a| position(bit_reverse_index(a.take(), a.take()))),
    entry("bit_reverse", &[PERMUTED], |a| permuted(a, bit_reverse)),
    entry("offset_bit_reversed_circle_domain_index", &[POSITION, DOMAIN_AND_EVAL, OFFSET], |a| {
        position(offset_bit_reversed_circle_domain_index(a.take(), a.take(), a.take(), a.take()))
    }),
    entry("previous_bit_reversed_circle_domain_index", &[POSITION, DOMAIN_AND_EVAL], |a| {
        position(previous_bit_reversed_circle_domain_index(a.take(), a.take(), a.take()))
    }),
    entry("coset_index_to_circle_domain_index", &[COSET_POSITION], |a| {
        position(coset_index_to_circle_domain_index(a.take(), a.take()))
    }),
    entry("bit_reverse_coset_to_circle_domain_order", &[PERMUTED], |a| {
        permuted(a, bit_reverse_coset_to_circle_domain_order)
    }),
    entry("coset_order_to_circle_domain_order", &[COPIED], |a| copied(a, coset_order_to_circle_domain_order)),
    entry("circle_domain_order_to_coset_order", &[COPIED], |a| copied(a, circle_domain_order_to_coset_order)),
];

fn position(position: usize) -> Vec<u64> {
    vec![position as u64]
}

fn permuted(a: &mut Args, permute: fn(&mut [u32])) -> Vec<u64> {
    let mut v = a.slice();
    permute(&mut v);
    numbers(v)
}

/// The Rust answers with a column of its own, here written over the start of the destination. It takes elements of M31
/// and computes nothing with them, so they carry words from P on too.
fn copied(a: &mut Args, reorder: fn(&[M31]) -> Vec<M31>) -> Vec<u64> {
    let (values, mut dst) = (a.column(), a.column());
    let reordered = reorder(&values);
    dst[..reordered.len()].copy_from_slice(&reordered);
    numbers(words_of(&dst))
}

fn numbers(words: Vec<u32>) -> Vec<u64> {
    words.into_iter().map(u64::from).collect()
}
