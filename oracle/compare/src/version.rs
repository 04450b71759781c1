//! The version of the C interface: that of the header, since stwo has none.

use crate::entry::{entry, Entry};
use common::library::VERSION;

pub const ENTRIES: &[Entry] = &[entry("version", &[], |_| vec![VERSION.into()])];
