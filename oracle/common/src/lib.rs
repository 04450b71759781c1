//! What the comparison and the measurements share: the library's functions, and numbers and elements to call them with.

pub mod args;
pub mod element;
pub mod lent;
pub mod library;
pub mod memory;
pub mod random;
