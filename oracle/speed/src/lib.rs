//! Measures the library against the Rust of stwo: lists of rows, and what measures them.
//!
//! The lists are statics, which are compiled here. The rows of a constant would be compiled in the program that uses it,
//! without inlining what they call, and a call takes longer than some of the work.

mod index_rows;
mod measure;
mod rows;
mod transform;
mod transform_rows;
mod twiddles;

pub use measure::{heading, measured, Row, Work};
pub use rows::{RECORD_ROWS, ROWS};
pub use transform_rows::{avx2_rows, PARTLY_ROWS, TRANSFORM_ROWS};
