//! Cosets and the iterator over their indices: `circle.rs`.

use crate::circle_kinds::INDEX;
use crate::coset_kinds::{
    COSET, COSET_AND_COUNT, COSET_AND_POSITION, COSET_AND_SHIFT, COSET_DOUBLED, DOUBLING_AND_COSET, HALF_ODDS_LOG_SIZE,
    ITERATOR, ODDS_LOG_SIZE, RECORD_LOG_SIZE,
};
use crate::entry::{coordinates, entry, number, Entry};
use crate::kinds::ORDER;
use common::args::Args;
use common::element::point_words;
use stwo::core::circle::{CirclePointIndex, Coset, CosetIterator};

pub const ENTRIES: &[Entry] = &[
    entry("coset_new", &[INDEX, RECORD_LOG_SIZE], |a| record(&Coset::new(a.index(), a.take()))),
    entry("coset_subgroup", &[RECORD_LOG_SIZE], |a| record(&Coset::subgroup(a.take()))),
    entry("coset_odds", &[ODDS_LOG_SIZE], |a| record(&Coset::odds(a.take()))),
    entry("coset_half_odds", &[HALF_ODDS_LOG_SIZE], |a| record(&Coset::half_odds(a.take()))),
    entry("coset_size", &[COSET], |a| vec![a.coset().size() as u64]),
    entry("coset_log_size", &[COSET], |a| vec![a.coset().log_size().into()]),
    entry("coset_iter_indices", &[COSET], |a| iterator(&a.coset().iter_indices())),
    entry("coset_double", &[COSET_DOUBLED], |a| record(&a.coset().double())),
    entry("coset_repeated_double", &[COSET_AND_COUNT], |a| record(&a.coset().repeated_double(a.take()))),
    entry("coset_is_doubling_of", &[DOUBLING_AND_COSET], |a| vec![a.coset().is_doubling_of(a.coset()).into()])
        .with_instead(is_doubling_with_step_0),
    entry("coset_initial", &[COSET], |a| coordinates(a.coset().initial())),
    entry("coset_index_at", &[COSET_AND_POSITION], |a| number(a.coset().index_at(a.take()))),
    entry("coset_at", &[COSET_AND_POSITION], |a| coordinates(a.coset().at(a.take()))),
    entry("coset_shift", &[COSET_AND_SHIFT], |a| record(&a.coset().shift(a.index()))),
    entry("coset_conjugate", &[COSET], |a| record(&a.coset().conjugate())),
    entry("coset_iterator_next", &[ITERATOR], |a| {
        let mut it = a.coset_iterator();
        let index = it.next();
        step(index, &[it])
    }),
];

/// Where a step is 0: whether the first coset's numbers are those of the other, doubled as often as their log sizes
/// differ, its indices modulo 2^31.
fn is_doubling_with_step_0(a: &mut Args) -> Option<Vec<u64>> {
    let (coset, other) = (a.coset(), a.coset());
    if coset.step_size.0 != 0 && other.step_size.0 != 0 {
        return None;
    }
    let doubled = |n: u32| {
        let index = |index: CirclePointIndex| CirclePointIndex((index.0 << n) % ORDER as usize);
        record(&Coset {
            initial_index: index(other.initial_index),
            initial: other.initial.repeated_double(n),
            step_size: index(other.step_size),
            step: other.step.repeated_double(n),
            log_size: coset.log_size,
        })
    };
    let equal = other.log_size.checked_sub(coset.log_size).is_some_and(|n| doubled(n) == record(&coset));
    Some(vec![equal.into()])
}

/// The seven numbers of a coset, as the Rust has them.
pub fn record(coset: &Coset) -> Vec<u64> {
    let index_and_point = |index, point| [number(index), point_words(point).into_iter().map(u64::from).collect()];
    let initial = index_and_point(coset.initial_index, &coset.initial);
    let step = index_and_point(coset.step_size, &coset.step);
    [initial.concat(), step.concat(), vec![coset.log_size.into()]].concat()
}

/// The three numbers of an iterator, as the Rust has them.
pub fn iterator(it: &CosetIterator<CirclePointIndex>) -> Vec<u64> {
    [it.cur.0, it.step.0, it.remaining].map(|number| number as u64).to_vec()
}

/// What a step handed back, and the iterators after it.
pub fn step(index: Option<CirclePointIndex>, after: &[CosetIterator<CirclePointIndex>]) -> Vec<u64> {
    let done_and_index = index.map_or([1, 0], |index| [0, index.0 as u64]);
    done_and_index.into_iter().chain(after.iter().flat_map(iterator)).collect()
}
