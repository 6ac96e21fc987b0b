"""Prints how many checks the gate runs side by side: one for each processor, if there are 5 GB of free memory for each; otherwise an empty line.

`make test` and `bench/gate` give this to rt in RT_JOBS. On its own, as with an empty line, rt begins a check only if the memory that it expects for this and
the running checks is free. It expects 2 to 8 GB for each, but they take 1 to 7, and four at a time take 13 at most. So on 24 GB processors were idle for a
fifth of the gate.
"""
import os
import re
from pathlib import Path

from office_kit.common import options_of

EACH = 5_000_000_000


def number_in(path: str, before: str = "") -> int | None:
    """The number at the beginning of a file, or of its line that begins so; none if there is none."""
    try:
        found = re.search(rf"^{before}\s*(\d+)", Path(path).read_text(), re.M)
    except OSError:
        return None
    return int(found[1]) if found else None


def processors() -> int:
    """The number of usable processors: those that a process may run on, or fewer by the quota of its control group (cpu.max of cgroups(7))."""
    found = len(os.sched_getaffinity(0))
    quota = number_in("/sys/fs/cgroup/cpu.max")
    return found if quota is None else max(1, min(found, quota // 100_000))


def side_by_side(wanted: int | None = None) -> str:
    """RT_JOBS: the number, for so many processors or for all; empty if memory is short, or as it is set already. Free is the MemAvailable of proc_meminfo(5),
    under the limit of the control group too."""
    count, free = wanted or processors(), 1024 * (number_in("/proc/meminfo", "MemAvailable:") or 0)
    limit, held = number_in("/sys/fs/cgroup/memory.max"), number_in("/sys/fs/cgroup/memory.current")
    if limit is not None and held is not None:
        free = min(free, limit - held)
    return os.environ.get("RT_JOBS") or (str(count) if free >= EACH * count else "")


if __name__ == "__main__":
    options_of(__doc__).parse_args()
    print(side_by_side())
