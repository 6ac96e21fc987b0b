"""The rule of `tools/audit` for the documents beside notices: files of the front, of which the office knows nothing. A mirror lists them (documents.csv)."""
import csv
import hashlib
import io
import os
from collections.abc import Iterator

from office_kit.audit.answers import Answers
from office_kit.audit.office import Found, rule


def told_of(path: str) -> tuple[int, str] | None:
    """The length and the SHA-256 of a file, or None if there is none."""
    if not os.path.isfile(path):
        return None
    with open(path, "rb") as file:
        return os.path.getsize(path), hashlib.file_digest(file, "sha256").hexdigest()


def files_below(folder: str) -> Iterator[str]:
    for notice in sorted(os.listdir(folder)):
        if os.path.isdir(os.path.join(folder, notice)):
            yield from (f"{notice}/{name}" for name in sorted(os.listdir(os.path.join(folder, notice))))


@rule("documents")
def documents_are_listed(folder: str, table: str, mirror: Answers) -> Found:
    """The documents of a folder are those of a mirror's list, with their lengths and digests, and the mirror has the bytes of every version."""
    rows = list(csv.DictReader(io.StringIO(table, newline="")))
    present = {f"{row['notice']}/{row['file']}": row for row in rows if not row["until"]}
    for row in rows:
        kept = os.path.join(mirror.folder, "documents", row["sha256"] + os.path.splitext(row["file"])[1].lower())
        if told_of(kept) != (int(row["length"]), row["sha256"]):
            yield f"documents {row['notice']}/{row['file']}", f"the version seen {row['seen']} isn't kept as its digest says"
    for path in sorted({*present, *files_below(folder)}):
        told, row = told_of(os.path.join(folder, path)), present.get(path, {})
        if told is None or told != (int(row.get("length", -1)), row.get("sha256")):
            here = "is missing" if told is None else f"has {told[0]} bytes with the SHA-256 {told[1]}"
            yield f"documents {path}", f"{here}, and the mirror's list has {row.get('sha256', 'no such document')}"
