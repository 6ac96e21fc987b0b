"""Writes the folder of `tools/mirror`. A file with the bytes of the run before is a link to that file, so it keeps its time and takes no space."""
import contextlib
import ctypes
import filecmp
import gzip
import hashlib
import os
import shutil
from typing import BinaryIO

AT_FDCWD, EXCHANGE = -100, 2
ZIPPED = (".jsonl", ".csv")
# The bytes that are copied at once.
BLOCK = 1 << 20


def synced(file: BinaryIO) -> None:
    file.flush()
    os.fsync(file.fileno())


class Folder:
    """A new folder beside the one of the run before. `told` has the length and the SHA-256 of files for which they are asked for."""

    def __init__(self, new: str, before: str) -> None:
        self.new, self.before = new, before
        self.told: dict[str, tuple[int, str]] = {}
        os.makedirs(new, exist_ok=True)

    def place(self, path: str) -> str:
        place = os.path.join(self.new, path)
        os.makedirs(os.path.dirname(place), exist_ok=True)
        return place

    def keep(self, path: str) -> bool:
        with contextlib.suppress(FileNotFoundError):
            os.link(os.path.join(self.before, path), self.place(path))
            return True
        return False

    def names_before(self, folder: str) -> list[str]:
        place = os.path.join(self.before, folder)
        return sorted(os.listdir(place)) if os.path.isdir(place) else []

    def keep_all(self, *folders: str) -> None:
        """Takes the files of folders from which no run removes any."""
        for folder in folders:
            for name in self.names_before(folder):
                self.keep(f"{folder}/{name}")

    def put(self, path: str, text: str, is_told: bool = False) -> None:
        data, place = text.encode(), self.place(path)
        with contextlib.suppress(FileNotFoundError):
            os.remove(place)
        with open(place, "wb") as file:
            file.write(data)
            synced(file)
        if is_told:
            self.told[path] = (len(data), hashlib.sha256(data).hexdigest())
        self.done(path)

    def done(self, path: str) -> None:
        """Links a written file if the one before is the same, and compresses it if readers get it compressed."""
        place, before = os.path.join(self.new, path), os.path.join(self.before, path)
        is_same = os.path.exists(before) and filecmp.cmp(place, before, shallow=False)
        if is_same:
            os.remove(place)
            os.link(before, place)
        if path.endswith(ZIPPED) and not (is_same and self.keep(f"{path}.gz")):
            with open(place, "rb") as source, open(f"{place}.gz", "wb") as file:
                with gzip.GzipFile("", "wb", 6, file, 0) as zipped:
                    shutil.copyfileobj(source, zipped, BLOCK)
                synced(file)


class Parted:
    """A file with a head, and then a part for each notice. Parts of notices that didn't change are copied from the file of the run before."""

    def __init__(self, folder: Folder, path: str, head: str) -> None:
        self.folder, self.path = folder, path
        self.file = open(folder.place(path), "wb")
        before = os.path.join(folder.before, path)
        self.before = open(before, "rb") if os.path.exists(before) else None
        self.digest, self.length = hashlib.sha256(), 0
        self.skip(self.add(head))

    def write(self, data: bytes) -> None:
        self.file.write(data)
        self.digest.update(data)
        self.length += len(data)

    def add(self, text: str) -> int:
        data = text.encode()
        self.write(data)
        return len(data)

    def copy(self, size: int) -> None:
        if self.before:
            self.write(self.before.read(size))

    def skip(self, size: int) -> None:
        if self.before:
            self.before.seek(size, os.SEEK_CUR)

    def close(self) -> None:
        synced(self.file)
        for file in (self.file, self.before):
            if file:
                file.close()
        self.folder.told[self.path] = (self.length, self.digest.hexdigest())
        self.folder.done(self.path)


def put_in_place(new: str, folder: str) -> None:
    """Puts a folder in another one's place, so that there is always one."""
    if not os.path.isdir(folder):
        os.rename(new, folder)
        return
    libc = ctypes.CDLL(None, use_errno=True)
    exchange = getattr(libc, "renameat2", None)
    if exchange is None or exchange(AT_FDCWD, os.fsencode(new), AT_FDCWD, os.fsencode(folder), EXCHANGE):
        # (If a file system can't, for a moment there is no folder. A run that finds none takes the old one back.)
        os.rename(folder, new + ".old")
        os.rename(new, folder)
        new += ".old"
    shutil.rmtree(new)


def cleared(folder: str) -> None:
    """Removes the files of a run that was stopped, and restores the folder that it was about to replace."""
    if not os.path.isdir(folder) and os.path.isdir(f"{folder}.new.old"):
        os.rename(f"{folder}.new.old", folder)
    for left in (f"{folder}.new", f"{folder}.new.old"):
        shutil.rmtree(left, ignore_errors=True)
