"""What the machine has: processors, memory and room on the disk."""

import os
import re
from pathlib import Path

# The memory that the proof of a crate is given.
PROOF_MEMORY = 2_500_000_000
# A build from nothing needs this on the disk, and one of a few crates its share of it, but no less than the second.
DISK = 3_000_000_000
LEAST_DISK = 300_000_000

GROUP = Path("/sys/fs/cgroup")


def number_in(file: str | Path, pattern: str) -> int | None:
    try:
        found = re.search(pattern, Path(file).read_text(encoding="utf-8"))
    except OSError:
        return None
    return int(found[1]) if found else None


def processors() -> int:
    """The processors that may be used, or fewer by the quota of the control group."""
    found = len(os.sched_getaffinity(0))
    quota, period = number_in(GROUP / "cpu.max", r"^(\d+)"), number_in(GROUP / "cpu.max", r" (\d+)")
    if quota and period:
        found = min(found, max(quota // period, 1))
    return found


def free_memory() -> int:
    """The free memory in bytes, or less by the limit of the control group."""
    found = [1024 * (number_in("/proc/meminfo", r"MemAvailable:\s+(\d+)") or 0)]
    limit, held = number_in(GROUP / "memory.max", r"^(\d+)"), number_in(GROUP / "memory.stat", r"^anon (\d+)")
    if limit is not None and held is not None:
        found.append(limit - held)
    return min(found)


def disk_for(left: int, crates: int) -> int:
    """What a build needs on the disk where this number of the crates isn't proved yet."""
    return max(DISK * left // crates, LEAST_DISK)


def free_disk(folder: Path) -> int:
    found = os.statvfs(folder)
    return found.f_bavail * found.f_frsize
