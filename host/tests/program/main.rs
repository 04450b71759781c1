//! The program as its users start it, and as others disturb it.

mod arguments;
mod checks;
mod disks;
mod files;
#[path = "../support/folder.rs"]
mod folder;
mod journal;
mod json;
mod killed;
mod limits;
mod links;
mod permissions;
mod places;
mod run;
mod status;
mod support;
mod two_at_once;
mod users;
mod watch;
