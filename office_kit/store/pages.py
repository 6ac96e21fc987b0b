"""The page sizes of an office's file: that of a new file, and that of files made earlier.

A file keeps its page size, so a test or a measure tries both. To give a file the other size, it puts an empty database of that size there before the program.
"""
import sqlite3

from office_kit.common import check

# The bytes of a page: of earlier files, and of a new one.
FORMER, NEW = 4096, 1024
SIZES = (FORMER, NEW)


def begin(path: str, size: int) -> None:
    """Puts an empty database with pages of this size at the path, unless the program itself makes such a file."""
    if size != NEW:
        base = sqlite3.connect(path)
        base.executescript(f"PRAGMA page_size = {size}; VACUUM;")
        base.close()


def check_size(path: str, size: int) -> None:
    """Checks that a file is a database with pages of this size, which it names in two bytes: 1 means 65,536."""
    with open(path, "rb") as file:
        head = file.read(18)
    check(f"{path} is no database", head.startswith(b"SQLite format 3\0"))
    named = int.from_bytes(head[16:], "big")
    check(f"{path} has pages of {named} bytes, and not of {size}", named == (1 if size == 65_536 else size))
