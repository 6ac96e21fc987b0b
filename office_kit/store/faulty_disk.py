"""Disks that fail, for tests/store/test_faults.py: one that fails once, and one that is full.

The first is a library that is loaded before the C library (faulty_disk.c), and a block of memory that controls it. It counts the program's flushes (fdatasync,
fsync) and writes (pwrite). The call whose number is given fails with EIO. A write that fails writes nothing. A flush that fails keeps all writes to that file
since its last good flush, or none, or each second one, as a disk may leave them. Everything else goes to the C library. The library also sets the program's
time, so that deadlines come when the test needs them.
"""
import mmap
import os
import shutil
import subprocess

from office_kit.common import made_shim

# The fields of the block, in this order. The clock's second. The flushes so far, the number of the one that fails, and the writes that it keeps. The writes so
# far, and the number of the one that fails. Whether a call has failed, and on which file.
SECOND, FLUSHES, FAILING_FLUSH, LEFT, WRITES, FAILING_WRITE, FAILED, PLACE, FIELDS = range(9)
# The writes after the last good flush that a failed flush keeps.
ALL, NONE, ODD, EVEN = range(4)
PLACES = {1: "the log", 2: "the file", 3: "the folder"}


class FaultyDisk:
    """The library, made in a folder, and its block."""

    def __init__(self, folder: str) -> None:
        self.shim, self.path = made_shim("store/faulty_disk.c", folder), os.path.join(folder, "block")
        with open(self.path, "w+b") as file:
            file.truncate(FIELDS * 8)
            self.fields = memoryview(mmap.mmap(file.fileno(), FIELDS * 8)).cast("q")

    def environment(self) -> dict[str, str]:
        return {**os.environ, "LD_PRELOAD": self.shim, "FAULTS": self.path}

    def begin(self, flush: int = 0, left: int = ALL, write: int = 0) -> None:
        """Begins to count from 0. The flush or the write of that number fails; `left` says which writes a flush keeps."""
        for field in range(FIELDS):
            self.fields[field] = 0
        self.fields[FAILING_FLUSH], self.fields[LEFT], self.fields[FAILING_WRITE] = flush, left, write

    def set_clock(self, second: int) -> None:
        self.fields[SECOND] = second

    def place(self) -> str | None:
        return PLACES.get(self.fields[PLACE])


class SmallDisk:
    """A tmpfs in a folder, with as much space as is left to it."""

    SIZE, PAGE = 64 << 20, 4096

    def __init__(self, folder: str) -> None:
        self.folder, self.ballast = folder, os.path.join(folder, "ballast")
        subprocess.run(["mount", "-t", "tmpfs", "-o", f"size={self.SIZE}", "tmpfs", folder], check=True)

    def clear(self) -> None:
        for name in os.listdir(self.folder):
            os.remove(os.path.join(self.folder, name))

    def leave(self, pages: int) -> None:
        with open(self.ballast, "wb") as file:
            os.posix_fallocate(file.fileno(), 0, shutil.disk_usage(self.folder).free - pages * self.PAGE)

    def is_full(self) -> bool:
        return os.path.exists(self.ballast)

    def make_room(self) -> None:
        os.remove(self.ballast)

    def close(self) -> None:
        subprocess.run(["umount", self.folder], check=True)
