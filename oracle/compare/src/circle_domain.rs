//! Circle domains and the iterator over their indices: `domain.rs`.

use crate::coset::{iterator, record, step};
use crate::coset_kinds::{COSET, COSET_AND_POSITION, COSET_AND_SHIFT, COSET_ASKED, ITERATOR, SPLIT};
use crate::entry::{coordinates, entry, number, Entry};
use common::args::Args;
use stwo::core::poly::circle::CircleDomain;

pub const ENTRIES: &[Entry] = &[
    entry("circle_domain_new", &[COSET], |a| record(&domain(a).half_coset)),
    entry("circle_domain_iter_indices", &[COSET], |a| {
        // The Rust chains these two, and its chain doesn't show them.
        let half = domain(a).half_coset;
        [iterator(&half.iter_indices()), iterator(&half.conjugate().iter_indices())].concat()
    }),
    entry("circle_domain_size", &[COSET], |a| vec![domain(a).size() as u64]),
    entry("circle_domain_log_size", &[COSET], |a| vec![domain(a).log_size().into()]),
    entry("circle_domain_at", &[COSET_AND_POSITION], |a| coordinates(domain(a).at(a.take()))),
    entry("circle_domain_index_at", &[COSET_AND_POSITION], |a| number(domain(a).index_at(a.take()))),
    entry("circle_domain_is_canonic", &[COSET_ASKED], |a| vec![domain(a).is_canonic().into()])
        .with_instead(is_canonic_with_step_0),
    entry("circle_domain_split", &[SPLIT], split),
    entry("circle_domain_shift", &[COSET_AND_SHIFT], |a| record(&domain(a).shift(a.index()).half_coset)),
    entry("circle_domain_index_iterator_next", &[ITERATOR, ITERATOR], |a| {
        let (mut first, mut second) = (a.coset_iterator(), a.coset_iterator());
        let index = first.next().or_else(|| second.next());
        step(index, &[first, second])
    }),
];

fn domain(a: &mut Args) -> CircleDomain {
    CircleDomain::new(a.coset())
}

/// Where the step is 0: only the initial indices 2^29 and 3 times 2^29 are canonic.
fn is_canonic_with_step_0(a: &mut Args) -> Option<Vec<u64>> {
    let half = a.coset();
    (half.step_size.0 == 0).then(|| vec![[1 << 29, 3 << 29].contains(&half.initial_index.0).into()])
}

/// The Rust answers with a list of shifts, here written over the start of the destination.
fn split(a: &mut Args) -> Vec<u64> {
    let (part, shifts) = domain(a).split(a.take());
    let mut dst: Vec<u64> = a.slice();
    for (word, shift) in dst.iter_mut().zip(&shifts) {
        *word = shift.0 as u64;
    }
    [record(&part.half_coset), dst].concat()
}
