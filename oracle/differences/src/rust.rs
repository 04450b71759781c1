//! What the Rust does on an input, as the text of a cell.

use crate::call::Call;
use common::args::Args;
use common::element::{elements, words_of, Element};
use compare::check::with_all;
use compare::coset::record;
use compare::entry::words;
use std::fmt::Debug;
use std::panic::{catch_unwind, AssertUnwindSafe};
use stwo::circle_domain_order_to_coset_order;
use stwo::core::fields::cm31::CM31;
use stwo::core::fields::m31::M31;
use stwo::core::fields::qm31::QM31;
use stwo::core::fields::{batch_inverse_chunked, batch_inverse_in_place};
use stwo::core::poly::circle::{CanonicCoset, CircleDomain};
use stwo::core::utils::coset_order_to_circle_domain_order;

/// Functions of which the Rust has none.
const ADDED: [&str; 2] = ["evaluate", "interpolate"];

/// Functions whose last argument is a destination that the Rust hasn't: it answers with a list of its own.
const OWN_LIST: [&str; 3] =
    ["coset_order_to_circle_domain_order", "circle_domain_order_to_coset_order", "circle_domain_split"];

/// Longer than any destination needs to be on the inputs of the document.
const LONG: usize = 1 << 12;

/// Calls the Rust with the numbers of an input.
type Called = fn(&mut Args) -> String;

/// What the Rust does where the entry in `compare` isn't just its call: it unwraps a `Result`, fits a list into a
/// destination, or doesn't call the Rust on every input.
const DIRECT: &[(&str, Called)] = &[
    ("cm31_try_into_m31", |a| tried(a.cm31().try_into().map(words::<M31>))),
    ("qm31_try_into_m31", |a| tried(a.qm31().try_into().map(words::<M31>))),
    ("m31_batch_inverse_in_place", |a| inverted::<M31>(a, false)),
    ("m31_batch_inverse_chunked", |a| inverted::<M31>(a, true)),
    ("cm31_batch_inverse_in_place", |a| inverted::<CM31>(a, false)),
    ("cm31_batch_inverse_chunked", |a| inverted::<CM31>(a, true)),
    ("qm31_batch_inverse_in_place", |a| inverted::<QM31>(a, false)),
    ("qm31_batch_inverse_chunked", |a| inverted::<QM31>(a, true)),
    ("coset_order_to_circle_domain_order", |a| copied(a, coset_order_to_circle_domain_order)),
    ("circle_domain_order_to_coset_order", |a| copied(a, circle_domain_order_to_coset_order)),
    ("canonic_coset_try_new", |a| tried(CanonicCoset::try_new(a.take()).map(|canonic| record(&canonic.coset)))),
    ("circle_domain_split", split),
];

pub fn cell(call: &Call, numbers: &[i128]) -> String {
    if ADDED.contains(&call.entry.name) {
        return "has no such function".to_string();
    }
    if OWN_LIST.contains(&call.entry.name) && only_destination_refused(call, numbers) {
        return "can't be expressed: it answers with a list of its own".to_string();
    }
    match DIRECT.iter().find(|(name, _)| *name == call.entry.name) {
        Some((_, direct)) => with_all(numbers, *direct),
        None => shown(&with_all(numbers, call.entry.rust)),
    }
}

/// Whether the input is refused, and with a longer destination accepted.
fn only_destination_refused(call: &Call, numbers: &[i128]) -> bool {
    let arguments = call.arguments(numbers);
    let destination = [vec![LONG as i128], vec![0; LONG]].concat();
    let longer = [&arguments[..arguments.len() - 1].concat()[..], &destination].concat();
    call.refusal(numbers).is_some() && call.refusal(&longer).is_none()
}

/// One value, or several in parentheses.
pub fn shown(values: &[u64]) -> String {
    match values {
        [value] => value.to_string(),
        _ => format!("({})", values.iter().map(u64::to_string).collect::<Vec<_>>().join(", ")),
    }
}

fn tried<E: Debug>(result: Result<Vec<u64>, E>) -> String {
    match result {
        Ok(values) => shown(&values),
        Err(error) => format!("an error: `{error:?}`"),
    }
}

/// A panic is caught here too: what it leaves in the destination is part of what the Rust does.
fn inverted<T: Element>(a: &mut Args, chunked: bool) -> String {
    let (column, dst) = (a.slice::<u32>(), a.slice::<u32>());
    let chunk_size = chunked.then(|| a.take());
    if column.len() % T::WIDTH != 0 || dst.len() % T::WIDTH != 0 {
        return "can't be expressed: its slices are of whole elements".to_string();
    }
    let (column, mut left) = (elements::<T>(&column), elements::<T>(&dst));
    let returned = catch_unwind(AssertUnwindSafe(|| match chunk_size {
        Some(chunk_size) => batch_inverse_chunked(&column, &mut left, chunk_size),
        None => batch_inverse_in_place(&column, &mut left),
    }));
    let left = words_of(&left);
    match returned {
        Ok(()) => format!("leaves `dst = {left:?}`"),
        Err(_) if left == dst => "panics".to_string(),
        Err(_) => format!("panics, leaves `dst = {left:?}`"),
    }
}

fn copied(a: &mut Args, reorder: fn(&[M31]) -> Vec<M31>) -> String {
    let (values, _) = (a.column(), a.slice::<u32>());
    format!("the list `{:?}`", words_of(&reorder(&values)))
}

fn split(a: &mut Args) -> String {
    let (part, shifts) = CircleDomain::new(a.coset()).split(a.take());
    a.slice::<u32>();
    let shifts: Vec<usize> = shifts.iter().map(|shift| shift.0).collect();
    format!("{} and the shifts `{shifts:?}`", shown(&record(&part.half_coset)))
}
