//! Canonic cosets: `canonic.rs`.

use crate::coset::record;
use crate::coset_kinds::{CANONIC, CANONIC_AND_POSITION, CANONIC_LOG_SIZE};
use crate::entry::{coordinates, entry, number, Entry};
use common::args::Args;
use stwo::core::poly::circle::CanonicCoset;

pub const ENTRIES: &[Entry] = &[
    entry("canonic_coset_try_new", &[CANONIC_LOG_SIZE], |a| record(&CanonicCoset::try_new(a.take()).unwrap().coset)),
    entry("canonic_coset_new", &[CANONIC_LOG_SIZE], |a| record(&CanonicCoset::new(a.take()).coset)),
    entry("canonic_coset_coset", &[CANONIC], |a| record(&canonic(a).coset())),
    entry("canonic_coset_half_coset", &[CANONIC], |a| record(&canonic(a).half_coset())),
    entry("canonic_coset_circle_domain", &[CANONIC], |a| record(&canonic(a).circle_domain().half_coset)),
    entry("canonic_coset_log_size", &[CANONIC], |a| vec![canonic(a).log_size().into()]),
    entry("canonic_coset_size", &[CANONIC], |a| vec![canonic(a).size() as u64]),
    entry("canonic_coset_initial_index", &[CANONIC], |a| number(canonic(a).initial_index())),
    entry("canonic_coset_step_size", &[CANONIC], |a| number(canonic(a).step_size())),
    entry("canonic_coset_step", &[CANONIC], |a| coordinates(canonic(a).step())),
    entry("canonic_coset_index_at", &[CANONIC_AND_POSITION], |a| number(canonic(a).index_at(a.take()))),
    entry("canonic_coset_at", &[CANONIC_AND_POSITION], |a| coordinates(canonic(a).at(a.take()))),
];

fn canonic(a: &mut Args) -> CanonicCoset {
    CanonicCoset { coset: a.coset() }
}
