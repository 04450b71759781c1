//! Stands in for hashbrown: the set of std.

pub use std::collections::HashSet;
