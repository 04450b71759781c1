//! Memory for columns, asked for before it is used.
//!
//! An allocation that the machine grants is no promise: where a control group limits the memory, the program is killed when
//! it uses more. So what the group has left is asked too. That is an estimate, since others may share the group.

use std::fs;
use std::io::{self, ErrorKind};
use std::path::{Path, PathBuf};
use std::sync::{Mutex, PoisonError};

/// Left in the group for everything but columns.
const RESERVE: u64 = 8 << 20;

/// Less than this is taken unasked.
const SMALL: u64 = 1 << 20;

/// Memory is asked for and used by one thread at a time, so that the next one finds it taken.
static ASKING: Mutex<()> = Mutex::new(());

/// Makes buffers of at least so many words.
pub fn make_room(buffers: [&mut Vec<u32>; 2], words: usize) -> io::Result<()> {
    let _one_at_a_time = ASKING.lock().unwrap_or_else(PoisonError::into_inner);
    let mut short: Vec<_> = buffers.into_iter().filter(|buffer| buffer.len() < words).collect();
    // What they hold isn't needed, so it is given back first.
    short.iter_mut().for_each(|buffer| **buffer = Vec::new());
    ask((short.len() * words * size_of::<u32>()) as u64, "with scratch")?;
    for buffer in short {
        buffer.try_reserve_exact(words)?;
        buffer.resize(words, 0);
    }
    Ok(())
}

/// Asks whether there is so much memory. `what` says what it is for.
pub fn ask(bytes: u64, what: &str) -> io::Result<()> {
    if bytes < SMALL {
        return Ok(());
    }
    match left(Path::new("/sys/fs/cgroup"), &fs::read_to_string("/proc/self/cgroup").unwrap_or_default()) {
        Some(left) if bytes.saturating_add(RESERVE) > left => {
            let [bytes, left] = [bytes, left].map(|bytes| bytes >> 20);
            let sentence = format!("it takes {bytes} MiB of memory {what}, and the control group has {left} MiB left");
            Err(io::Error::new(ErrorKind::OutOfMemory, sentence))
        }
        _ => Ok(()),
    }
}

/// What the control groups of this process leave it, if they limit its memory. `groups` is /proc/self/cgroup.
fn left(root: &Path, groups: &str) -> Option<u64> {
    groups
        .lines()
        .filter_map(|line| hierarchy(root, line))
        .flat_map(|(folder, path, names)| {
            // A limit holds for the groups below it. In a container the path may be one that only the host has: then the
            // group that is mounted is the container's own.
            let ancestors: Vec<PathBuf> = Path::new(path).ancestors().map(|path| folder.join(path)).collect();
            ancestors.into_iter().filter_map(|group| group_left(&group, names)).collect::<Vec<_>>()
        })
        .min()
}

/// The files of a group that have its limit, its use and, in the first version, what of that is the kernel's, and how the
/// lines of memory.stat begin that count what can be given up: the contents of files, and what the kernel knows of files.
struct Names {
    limit: &'static str,
    used: &'static str,
    kernel: Option<&'static str>,
    given_up: &'static [&'static str],
}

const FIRST_VERSION: Names = Names {
    limit: "memory.limit_in_bytes",
    used: "memory.usage_in_bytes",
    // Nearly all of it is what can be given up.
    kernel: Some("memory.kmem.usage_in_bytes"),
    given_up: &["total_inactive_file ", "total_active_file "],
};

const SECOND_VERSION: Names = Names {
    limit: "memory.max",
    used: "memory.current",
    kernel: None,
    given_up: &["inactive_file ", "active_file ", "slab_reclaimable "],
};

/// The folder of a hierarchy with a memory controller, the path of the group in it, and its files.
fn hierarchy<'a>(root: &Path, line: &'a str) -> Option<(PathBuf, &'a str, &'static Names)> {
    let mut parts = line.splitn(3, ':');
    let (_, controllers, path) = (parts.next()?, parts.next()?, parts.next()?.trim_start_matches('/'));
    match controllers.split(',').any(|controller| controller == "memory") {
        true => Some((root.join("memory"), path, &FIRST_VERSION)),
        false if controllers.is_empty() => Some((root.to_path_buf(), path, &SECOND_VERSION)),
        false => None,
    }
}

fn group_left(group: &Path, names: &Names) -> Option<u64> {
    let read = |name: &str| fs::read_to_string(group.join(name)).ok();
    let number = |name: &str| read(name)?.trim().parse::<u64>().ok();
    let stat = read("memory.stat").unwrap_or_default();
    let counted =
        |start: &&str| stat.lines().find_map(|line| line.strip_prefix(start)?.parse::<u64>().ok()).unwrap_or(0);
    let kernel = names.kernel.and_then(number).unwrap_or(0);
    let given_up = names.given_up.iter().map(counted).sum::<u64>().saturating_add(kernel);
    let used = number(names.used)?.saturating_sub(given_up);
    Some(number(names.limit)?.saturating_sub(used))
}

#[cfg(test)]
mod tests {
    use super::*;

    fn group(folder: &Path, files: [(&str, &str); 3]) {
        fs::create_dir_all(folder).unwrap();
        files.iter().for_each(|(name, text)| fs::write(folder.join(name), text).unwrap());
    }

    #[test]
    fn the_least_of_the_groups_counts() {
        let root = std::env::temp_dir().join(format!("taripomune-groups-{}", std::process::id()));
        let _ = fs::remove_dir_all(&root);
        let no_stat = ("memory.stat", "");
        group(&root.join("one"), [("memory.max", "max\n"), ("memory.current", "5\n"), no_stat]);
        group(
            &root.join("one/two"),
            [
                ("memory.max", "1000\n"),
                ("memory.current", "330\n"),
                ("memory.stat", "inactive_file 40\nactive_file 10\nslab_reclaimable 30\nslab_unreclaimable 5\n"),
            ],
        );
        group(&root.join("one/two/three"), [("memory.max", "900\n"), ("memory.current", "100\n"), no_stat]);
        group(
            &root.join("memory/four"),
            [
                ("memory.limit_in_bytes", "600\n"),
                ("memory.usage_in_bytes", "250\n"),
                ("memory.kmem.usage_in_bytes", "50\n"),
            ],
        );
        assert_eq!(left(&root, "0::/one/two\n"), Some(750));
        assert_eq!(left(&root, "0::/one/two/three\n"), Some(750));
        assert_eq!(left(&root, "0::/one\n"), None);
        assert_eq!(left(&root, "3:cpu:/four\n4:memory,pids:/four\n0::/one/two\n"), Some(400));
        assert_eq!(left(&root, ""), None);
        fs::remove_dir_all(&root).unwrap();
    }
}
