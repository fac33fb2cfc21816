//! How much memory there is.

use std::fs;
use std::path::Path;

/// The bytes that are free: of the machine, and of the control group that the
/// process is in. Where neither says anything, there is no limit.
///
/// A system lends more memory than it has, and ends a process that then uses
/// it: so what is asked for is held to this number first ([`Player::new`]).
///
/// [`Player::new`]: crate::Player::new
pub fn free_memory() -> u64 {
    let meminfo = fs::read_to_string("/proc/meminfo").unwrap_or_default();
    let group = fs::read_to_string("/proc/self/cgroup").unwrap_or_default();
    let limits = [available(&meminfo), group_free(Path::new("/"), &group)];
    limits.into_iter().flatten().min().unwrap_or(u64::MAX)
}

/// The free memory that /proc/meminfo says.
fn available(meminfo: &str) -> Option<u64> {
    let line = meminfo
        .lines()
        .find_map(|line| line.strip_prefix("MemAvailable:"))?;
    let kilobytes: u64 = line.trim().strip_suffix("kB")?.trim().parse().ok()?;
    kilobytes.checked_mul(1024)
}

/// Where control groups are, in version 2 and in version 1: how the line of the
/// process begins behind the group's number, the folder below the root, the
/// files of the limit and of what is taken.
const GROUPS: [[&str; 4]; 2] = [
    ["::/", "sys/fs/cgroup", "memory.max", "memory.current"],
    [
        ":memory:/",
        "sys/fs/cgroup/memory",
        "memory.limit_in_bytes",
        "memory.usage_in_bytes",
    ],
];

/// What is left to a process's control group and to those above it.
fn group_free(root: &Path, cgroup: &str) -> Option<u64> {
    let limits = GROUPS.iter().filter_map(|[line, groups, limit, taken]| {
        let groups = root.join(groups);
        let place = |text: &str| Some(text.split_once(line)?.1.to_string());
        let folder = groups.join(cgroup.lines().find_map(place)?);
        let folders = folder
            .ancestors()
            .filter(|folder| folder.starts_with(&groups));
        folders
            .filter_map(|folder| {
                let left = number(&folder.join(limit))?;
                Some(left.saturating_sub(number(&folder.join(taken)).unwrap_or(0)))
            })
            .min()
    });
    limits.min()
}

/// The number in a file.
fn number(path: &Path) -> Option<u64> {
    fs::read_to_string(path).ok()?.trim().parse().ok()
}

#[cfg(test)]
mod tests {
    use super::*;

    #[test]
    fn the_free_memory() {
        let text = "MemTotal:  16384 kB\nMemFree: 1 kB\nMemAvailable:    8000 kB\n";
        assert_eq!(available(text), Some(8_192_000));
        assert_eq!(available(""), None);
        assert_eq!(group_free(Path::new("/"), ""), None);
    }

    /// Writes a file and the folders above it.
    fn write(path: &Path, text: &str) {
        fs::create_dir_all(path.parent().unwrap()).unwrap();
        fs::write(path, text).unwrap();
    }

    #[test]
    fn the_free_memory_of_control_groups() {
        let root = std::env::temp_dir().join(format!("wedgepetal-groups-{}", std::process::id()));
        let groups = root.join("sys/fs/cgroup");
        write(&groups.join("a/memory.max"), "1000\n");
        write(&groups.join("a/memory.current"), "300\n");
        write(&groups.join("a/b/memory.max"), "max\n");
        write(&groups.join("memory/job/memory.limit_in_bytes"), "500\n");
        assert_eq!(group_free(&root, "0::/a/b\n"), Some(700));
        assert_eq!(group_free(&root, "0::/\n"), None);
        assert_eq!(
            group_free(&root, "9:name=systemd:/\n8:memory:/job\n"),
            Some(500)
        );
        fs::remove_dir_all(&root).unwrap();
    }
}
