//! The functions of the library's C interface, each with the inputs that it refuses and the Rust that it is compared
//! with.

mod batch;
mod canonic_coset;
pub mod check;
mod circle_domain;
mod circle_fft;
pub mod circle_kinds;
mod cm31;
mod columns;
pub mod coset;
mod coset_kinds;
mod coset_records;
pub mod entry;
mod index;
pub mod inputs;
pub mod kinds;
pub mod long_columns;
mod m31;
mod orders;
mod orders_kinds;
mod point;
mod qm31;
pub mod record;
pub mod record_long;
mod secure_point;
mod transform;
mod transform_kinds;
mod version;
pub mod walk;

use common::library::{Function, FUNCTIONS};
use entry::Entry;

/// The entries, by the file that each module's answers are recorded in, and about how many bytes of each function's
/// answers are recorded at most.
pub const MODULES: &[(&str, &[Entry], usize)] = &[
    ("version", version::ENTRIES, 100),
    ("m31", m31::ENTRIES, 3_000),
    ("cm31", cm31::ENTRIES, 3_000),
    ("qm31", qm31::ENTRIES, 1_900),
    ("batch", batch::ENTRIES, 12_000),
    ("point", point::ENTRIES, 4_200),
    ("secure_point", secure_point::ENTRIES, 6_000),
    ("index", index::ENTRIES, 4_200),
    ("orders", orders::ENTRIES, 8_000),
    ("coset", coset::ENTRIES, 4_200),
    ("canonic_coset", canonic_coset::ENTRIES, 5_000),
    ("circle_domain", circle_domain::ENTRIES, 6_000),
    ("transform", transform::ENTRIES, 16_000),
];

/// The entries whose answers on long slices are recorded too.
pub const ON_LONG_SLICES: &[&[Entry]] = &[batch::ENTRIES, orders::ENTRIES, transform::LONG_ENTRIES];

/// Every function of the header has one entry.
pub fn check_names() -> Result<(), String> {
    for Function { name, .. } in FUNCTIONS {
        let entries = MODULES.iter().flat_map(|(_, entries, _)| *entries);
        match entries.filter(|entry| entry.name == *name).count() {
            1 => {}
            count => return Err(format!("tari_{name} of the header has {count} entries")),
        }
    }
    Ok(())
}

pub fn function(entry: &Entry) -> Result<&'static Function, String> {
    let found = FUNCTIONS.iter().find(|function| function.name == entry.name);
    found.ok_or_else(|| format!("the entry {} has no function in the header", entry.name))
}
