//! What the program needs of the C library that std doesn't offer: flags of open(2), signals, and whether a file has an access
//! control list.

#![allow(unsafe_code)]

use std::ffi::{CStr, CString, c_char, c_void};
use std::fs::{File, OpenOptions};
use std::io;
use std::os::fd::AsRawFd;
use std::os::unix::ffi::OsStrExt;
use std::os::unix::fs::OpenOptionsExt;
use std::path::Path;
use std::ptr;
use std::sync::atomic::{AtomicBool, Ordering};

#[cfg(not(all(target_os = "linux", target_arch = "x86_64")))]
compile_error!("the flags and signals are those of Linux on x86-64");

const O_NOCTTY: i32 = 0o400;
const O_NONBLOCK: i32 = 0o4000;
const O_NOFOLLOW: i32 = 0o400000;

const ELOOP: i32 = 40;

const SIGINT: i32 = 2;
const SIGTERM: i32 = 15;
const SIGXFSZ: i32 = 25;

/// SIG_DFL and SIG_IGN of signal(2).
const DEFAULT: usize = 0;
const IGNORE: usize = 1;

unsafe extern "C" {
    fn signal(number: i32, handler: usize) -> usize;
    fn raise(number: i32) -> i32;
    fn fgetxattr(file: i32, name: *const c_char, value: *mut c_void, size: usize) -> isize;
    fn lgetxattr(path: *const c_char, name: *const c_char, value: *mut c_void, size: usize) -> isize;
}

/// Options for opening what may be a pipe or a device: it isn't waited for.
pub fn without_waiting() -> OpenOptions {
    let mut options = File::options();
    options.custom_flags(O_NONBLOCK | O_NOCTTY);
    options
}

/// Options for opening what others may have put there: it isn't waited for, and a link isn't followed.
pub fn without_following() -> OpenOptions {
    let mut options = File::options();
    options.custom_flags(O_NONBLOCK | O_NOCTTY | O_NOFOLLOW);
    options
}

/// Whether something wasn't opened because it is a link.
pub fn is_unfollowed(error: &io::Error) -> bool {
    error.raw_os_error() == Some(ELOOP)
}

/// POSIX's access control list, which says more about who may use a file than its permissions.
const ACCESS_LIST: &CStr = c"system.posix_acl_access";

/// Whether a file has such a list.
pub fn has_access_list(file: &File) -> bool {
    // SAFETY: the name ends with a zero, and with size 0 nothing is written: the answer is the length.
    unsafe { fgetxattr(file.as_raw_fd(), ACCESS_LIST.as_ptr(), ptr::null_mut(), 0) > 0 }
}

/// Whether the file of a path has one. It needn't be readable, and a link isn't followed.
pub fn has_access_list_at(path: &Path) -> bool {
    let Ok(path) = CString::new(path.as_os_str().as_bytes()) else { return false };
    // SAFETY: as above, and so does the path.
    unsafe { lgetxattr(path.as_ptr(), ACCESS_LIST.as_ptr(), ptr::null_mut(), 0) > 0 }
}

/// From now on a file that may not be so long can't be written, which is told, instead of ending the program.
pub fn ignore_limit_of_files() {
    // SAFETY: SIG_IGN is one of the arguments of signal(2).
    unsafe { signal(SIGXFSZ, IGNORE) };
}

static STOPPED: AtomicBool = AtomicBool::new(false);

extern "C" fn stop(number: i32) {
    if STOPPED.swap(true, Ordering::Relaxed) {
        // The second signal ends the program at once.
        // SAFETY: both may be called by a handler, and SIG_DFL is one of the arguments of signal(2).
        unsafe {
            signal(number, DEFAULT);
            raise(number);
        }
    }
}

/// From now on SIGTERM and SIGINT are noted, and end nothing by themselves. One that was ignored stays so.
pub fn note_signals() {
    for number in [SIGINT, SIGTERM] {
        // SAFETY: `stop` does only what a handler may do.
        unsafe {
            if signal(number, stop as extern "C" fn(i32) as usize) == IGNORE {
                signal(number, IGNORE);
            }
        }
    }
}

/// Whether one of them has come.
pub fn is_stopped() -> bool {
    STOPPED.load(Ordering::Relaxed)
}
