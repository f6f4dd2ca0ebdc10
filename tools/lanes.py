"""How many provers go side by side, for `rt` (by the variable RT_JOBS, which .ci/run and tools/build.sh set) and for what calls the prover itself: what
RT_JOBS says already, else one a processor, as long as there are 2.5 GB of free memory for each.

`rt` by itself asks for four times the memory that a crate takes, and where memory is short it proves one crate at a time.
"""
import os
import re

# The most that a library was seen to take is 2.15 GB; a program takes up to 3.24 (docs/performance.md).
KILOBYTES_EACH = 2_500_000
# The limit of the control group in bytes, in its two versions, and what of it is held and can't be given back.
GROUPS = (
    ("/sys/fs/cgroup/memory.max", "/sys/fs/cgroup/memory.stat", r"anon (\d+)"),
    ("/sys/fs/cgroup/memory/memory.limit_in_bytes", "/sys/fs/cgroup/memory/memory.stat", r"total_rss (\d+)"),
)


def number_in(path, pattern):
    """The first number that this pattern finds in a file of the system, and None where it has none."""
    try:
        with open(path, encoding="ascii") as it:
            found = re.search(pattern, it.read())
    except OSError:
        return None
    return int(found[1]) if found else None


def free_kilobytes():
    """The free memory, under the limit of the control group too; None where the system doesn't tell."""
    found = [number_in("/proc/meminfo", r"MemAvailable:\s+(\d+)")]
    for limit, held, pattern in GROUPS:
        most, taken = number_in(limit, r"^(\d+)"), number_in(held, pattern)
        if most is not None and taken is not None:
            found.append((most - taken) // 1024)
    return min((it for it in found if it is not None), default=None)


def lanes():
    """How many provers go side by side; at least one."""
    said = os.environ.get("RT_JOBS", "")
    if said.isdigit() and int(said) > 0:
        return int(said)
    processors, free = len(os.sched_getaffinity(0)), free_kilobytes()
    return max(1, processors if free is None else min(processors, free // KILOBYTES_EACH))


if __name__ == "__main__":
    print(lanes())
