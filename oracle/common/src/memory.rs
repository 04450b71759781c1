//! Memory of the process.

use std::fs;

/// The most memory that the process has had at once, in MiB, as Linux tells it.
pub fn peak() -> u64 {
    let status = fs::read_to_string("/proc/self/status").expect("Linux tells a process its status");
    let peak = status.lines().find_map(|line| line.strip_prefix("VmHWM:")).expect("the status has the peak");
    let kib: u64 = peak.trim().trim_end_matches(" kB").parse().expect("the peak is a number of kB");
    kib / 1024
}
