"""The documents beside notices: files that the front serves at /documents/NOTICE/FILE. The mirror lists each with its length, its digest and the moment when it
was first seen, and keeps every version. The office knows nothing of them.

Rows of documents.csv are never removed. If a file has other bytes than before, or is gone, its row gets a moment in `until`, and a new row follows.
"""
import contextlib
import csv
import hashlib
import io
import os
import shutil
import sys
from collections.abc import Iterator

from office_kit.mirror.folder import Folder
from office_kit.mirror.office import IDENTIFIER, Json
from office_kit.mirror.tables import NAMED


def digest_of(path: str) -> str:
    with open(path, "rb") as file:
        return hashlib.file_digest(file, "sha256").hexdigest()


def files_in(folder: str) -> Iterator[tuple[str, str, os.stat_result]]:
    """The files of each notice, with their sizes and times. A file that nginx couldn't show, by its name or its mode, is named on standard error."""
    for notice in sorted(os.listdir(folder)) if os.path.isdir(folder) else []:
        place = os.path.join(folder, notice)
        for name in sorted(os.listdir(place)) if IDENTIFIER.fullmatch(notice) and os.path.isdir(place) else []:
            path = os.path.join(place, name)
            if not NAMED.fullmatch(name) or os.path.islink(path) or not os.path.isfile(path) or not os.access(path, os.R_OK):
                print(f"mirror: {path} isn't shown: it can't be read, or its name has more than letters from A to z, digits, . _ -", file=sys.stderr)
                continue
            yield notice, name, os.stat(path)


def kept_at(row: Json) -> str:
    """Where the mirror keeps a version: by its digest, with the ending of its name."""
    return f"documents/{row['sha256']}{os.path.splitext(row['file'])[1].lower()}"


class Documents:
    """The rows of the run before with the changes since, and notes for the next run: the size, the time and the digest of each file."""

    def __init__(self, folder: str | None, before: str, noted: Json, now: str) -> None:
        self.folder, self.noted, self.is_new = folder or "", Json(), False
        self.rows: list[Json] = [{**row, "length": int(row["length"])} for row in csv.DictReader(io.StringIO(before, newline=""))]
        last = {(row["notice"], row["file"]): row for row in self.rows}
        for notice, name, told in files_in(self.folder):
            path, stamp = f"{notice}/{name}", [told.st_size, told.st_mtime_ns]
            known = noted.get(path, [])
            digest = known[2] if known[:2] == stamp else digest_of(os.path.join(self.folder, path))
            self.noted[path] = [*stamp, digest]
            row = last.pop((notice, name), None)
            if row is None or row["until"] or row["sha256"] != digest:
                self.end(row, now)
                self.rows.append({"notice": notice, "file": name, "length": told.st_size, "sha256": digest, "seen": now, "until": ""})
                self.is_new = True
        for row in last.values() if folder else []:
            self.end(row, now)
        self.rows.sort(key=lambda row: (row["notice"], row["file"], row["seen"]))

    def end(self, row: Json | None, now: str) -> None:
        if row is not None and not row["until"]:
            row["until"], self.is_new = now, True

    def keep(self, new: Folder) -> None:
        """Keeps the bytes of each version. (They are copied: the file may be written over.)"""
        new.keep_all("documents")
        for row in self.rows:
            place = new.place(kept_at(row))
            if not os.path.exists(place) and not row["until"]:
                with contextlib.suppress(FileNotFoundError):
                    shutil.copyfile(os.path.join(self.folder, row["notice"], row["file"]), place)
