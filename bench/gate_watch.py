"""Reads from /proc, twice a second, the processor time of the processes of a running `rt ci`, and the crate and the work of each. Used by bench/gate.

Processor seconds are those at the last reading. So a process may have used half a second more than is reported, and one that lives only between two readings
isn't seen.
"""
import contextlib
import os
import re
import threading
import time
from collections import Counter, defaultdict

TICK = os.sysconf("SC_CLK_TCK")
EVERY = 0.5
# The kinds of work: a crate's proof, the builds of a proved program, the proof and the build of tests, mutants with the checks around them, and runs.
KINDS = ("proof", "builds", "tests", "mutants", "runs")


def word_after(words, name):
    return words[words.index(name) + 1] if name in words[:-1] else ""


def task_of(words, folder):
    """The crate and the kind of work of a process with this command line and folder, or None if it is none of these."""
    ran = re.search(r"/rt-run-[^ ]*/bin/(\w+)", " ".join(words))
    if ran:
        return ran[1].removesuffix("_tests"), "runs"
    tool = os.path.basename(words[0]) if words else ""
    if tool == "rattle-link":
        made = os.path.basename(word_after(words, "-o")).removesuffix(".by-rattle")
        return made.removesuffix("_tests"), "tests" if made.endswith("_tests") else "builds"
    if tool != "rattle" or words[1:2] not in (["check"], ["build"]):
        return None
    kind = "mutants" if "/rt-edit-" in folder else "tests" if "--test" in words else "builds" if "--crate-checked" in words else "proof"
    return word_after(words, "--crate-name"), kind


def processes():
    """All processes: the parent, the start in seconds after that of the machine, and the seconds used, with those of children that were waited for."""
    found = {}
    for number in filter(str.isdigit, os.listdir("/proc")):
        with contextlib.suppress(OSError), open(f"/proc/{number}/stat") as file:
            fields = file.read().rpartition(")")[2].split()
            found[int(number)] = int(fields[1]), int(fields[19]) / TICK, sum(map(int, fields[11:15])) / TICK
    return found


class Watch(threading.Thread):
    """Reads the processes below that of a number until it is gone: it has ended, and its parent has waited for it."""

    def __init__(self, pid):
        super().__init__(daemon=True)
        # By the number and the start of a process: the crate and the kind of its work, its seconds of processor, and when it was last seen.
        self.pid, self.tasks, self.used, self.seen = pid, {}, Counter(), {}

    def run(self):
        while self.read():
            time.sleep(EVERY)

    def read(self):
        """One reading; whether the watched process is still there. A process counts for the nearest one at or above it that works for a crate."""
        every, used, below = processes(), Counter(), defaultdict(list)
        for pid, (parent, _, _) in every.items():
            below[parent].append(pid)
        left = [(pid, None) for pid in below[self.pid]]
        while left:
            pid, above = left.pop()
            work = above or self.work_of(pid, every[pid][1])
            if work:
                used[work] += every[pid][2]
            left += [(it, work) for it in below[pid]]
        for work, seconds in used.items():
            self.used[work], self.seen[work] = max(self.used[work], seconds), time.clock_gettime(time.CLOCK_BOOTTIME)
        return self.pid in every

    def work_of(self, pid, start):
        """The number and the start of a process, once its command line shows that it works for a crate."""
        if (pid, start) not in self.tasks:
            with contextlib.suppress(OSError), open(f"/proc/{pid}/cmdline", "rb") as file:
                if task := task_of(file.read().decode(errors="replace").split("\0"), os.readlink(f"/proc/{pid}/cwd")):
                    self.tasks[pid, start] = task
        return (pid, start) if (pid, start) in self.tasks else None

    def table(self):
        """Minutes by crate and kind, and by the clock those of the proof with its builds (`wall`)."""
        crates = {}
        for work, (crate, kind) in self.tasks.items():
            crates.setdefault(crate, dict.fromkeys(KINDS, 0.0))[kind] += self.used[work] / 60
        for crate, row in crates.items():
            proofs = [work for work, task in self.tasks.items() if work in self.seen and task in ((crate, "proof"), (crate, "builds"))]
            row["wall"] = (max(self.seen[it] for it in proofs) - min(start for _, start in proofs)) / 60 if proofs else 0.0
        return crates
