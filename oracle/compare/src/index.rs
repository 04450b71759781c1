//! Point indices: `circle.rs`.

use crate::circle_kinds::{COUNT, EVEN_INDEX, INDEX, LOG_SIZE};
use crate::entry::{coordinates, entry, number, Entry};
use stwo::core::circle::CirclePointIndex;

pub const ENTRIES: &[Entry] = &[
    entry("index_zero", &[], |_| number(CirclePointIndex::zero())),
    entry("index_generator", &[], |_| number(CirclePointIndex::generator())),
    entry("index_reduce", &[INDEX], |a| number(a.index().reduce())),
    entry("index_subgroup_gen", &[LOG_SIZE], |a| number(CirclePointIndex::subgroup_gen(a.take()))),
    entry("index_to_point", &[INDEX], |a| coordinates(a.index().to_point())),
    entry("index_half", &[EVEN_INDEX], |a| number(a.index().half())),
    entry("index_add", &[INDEX, INDEX], |a| number(a.index() + a.index())),
    entry("index_sub", &[INDEX, INDEX], |a| number(a.index() - a.index())),
    entry("index_neg", &[INDEX], |a| number(-a.index())),
    entry("index_mul", &[INDEX, COUNT], |a| number(a.index() * a.take::<usize>())),
];
