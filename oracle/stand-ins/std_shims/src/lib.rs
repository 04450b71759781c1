//! Stands in for std_shims: the types of std.

pub use std::boxed::Box;
pub use std::vec::Vec;
