//! Circle columns over the Mersenne prime P = 2^31 - 1: safe types over the proved library `libtaripomune.a`.
//!
//! Names are those of the Rust of stwo, which the library ports. What every function answers is proved, refusals
//! included: the repository's `docs/CALLS.md` has the definitions. This crate only passes values on. A value that exists
//! is good, so a function refuses only what its type can't rule out, and then answers with a [`Refusal`]. Operators stand
//! where no refusal is possible.
//!
//! ```
//! use taripomune::{Refusal, evaluate, interpolate};
//!
//! // The balances of four cards, as values on the canonic circle domain of log size 2.
//! let mut column = [1250, 0, 730, 2020];
//! let mut scratch = [0; 4];
//! interpolate(2, &mut column, &mut scratch)?;
//! // Four times coefficient 0 is the total.
//! assert_eq!(4 * column[0], 1250 + 730 + 2020);
//! evaluate(2, &mut column, &mut scratch)?;
//! assert_eq!(column, [1250, 0, 730, 2020]);
//! # Ok::<(), Refusal>(())
//! ```
//!
//! The slices of a call can't overlap:
//!
//! ```compile_fail,E0499
//! let mut words = [7, 0, 0, 0];
//! let (column, scratch) = (&mut words[..], &mut words[..]);
//! taripomune::evaluate(2, column, scratch);
//! ```

#![deny(missing_docs)]

#[macro_use]
mod call;

mod canonic;
mod circle;
mod coset;
mod domain;
mod fields;
mod orders;
mod refusal;
mod transform;

pub use canonic::CanonicCoset;
pub use circle::{
    CircleField, CirclePoint, CirclePointIndex, M31_CIRCLE_GEN, M31_CIRCLE_LOG_ORDER, SECURE_FIELD_CIRCLE_GEN,
    SECURE_FIELD_CIRCLE_ORDER,
};
pub use coset::{Coset, CosetIterator};
pub use domain::{CircleDomain, CircleDomainIndexIterator, MAX_CIRCLE_DOMAIN_LOG_SIZE, MIN_CIRCLE_DOMAIN_LOG_SIZE};
pub use fields::{
    BaseField, BatchCounts, CM31, Field, M31, MODULUS_BITS, N_BYTES_FELT, P, P2, P4, QM31, R, SECURE_EXTENSION_DEGREE,
    SecureField, Word, batch_inverse, batch_inverse_chunked, batch_inverse_in_place,
};
pub use orders::{
    bit_reverse, bit_reverse_coset_to_circle_domain_order, bit_reverse_index, circle_domain_order_to_coset_order,
    coset_index_to_circle_domain_index, coset_order_to_circle_domain_order, offset_bit_reversed_circle_domain_index,
    previous_bit_reversed_circle_domain_index,
};
pub use refusal::Refusal;
pub use transform::{evaluate, interpolate};

/// The version of the library's C interface, `TARI_VERSION` of its header: it is raised with every change of the header
/// or of an answer.
pub fn version() -> u32 {
    call::accepted(call!(tari_version()))
}
