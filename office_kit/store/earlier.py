"""Files of version 1, for tests: the statements that crates/tests_of_stores has of them, files that SQLite makes of these, and their rows in version 2."""
import json
import re
import sqlite3
from contextlib import closing
from pathlib import Path
from typing import Any

from office_kit.common import ROOT
from office_kit.store import pages
from office_kit.store.files import scripts_of

Rows = dict[str, list[tuple[Any, ...]]]
TEXT = re.compile(r'pub const (\w+): &str =\s*(?:r##"(.*?)"##|("(?:[^"\\]|\\.)*"));', re.S)


def texts_of(file: str) -> dict[str, str]:
    """The texts in a source of crates/tests_of_stores, by their names."""
    source = Path(ROOT, "crates", "tests_of_stores", "src", file).read_text(encoding="utf-8")
    return {name: raw or json.loads(text) for name, raw, text in TEXT.findall(source)}


def first(name: str) -> tuple[str, str]:
    """The statements that make the file `running` or `ten` of version 1, and its ledger."""
    texts = texts_of("first_files.rt")
    rows, lots, ledger = (texts[f"{name.upper()}_{part}"] for part in ("ROWS", "LOTS", "LEDGER"))
    return texts["FIRST_TABLES"] + rows + lots, ledger


def statements_in(name: str) -> dict[str, str]:
    """The statements in a file of tests/store, by the first lines of the comments before them."""
    return {said[0]: script for said, script in scripts_of(Path(ROOT, "tests", "store", name))}


def made(path: Path, statements: str, size: int = pages.FORMER) -> str:
    """The path of a file that SQLite makes, in pages of this size."""
    with closing(sqlite3.connect(path)) as base:
        base.executescript(f"PRAGMA page_size = {size}; PRAGMA journal_mode = WAL; {statements}")
    return str(path)


def in_version_2(rows: Rows) -> Rows:
    """The rows of a file as they are in version 2: that of notices have one value more, in another table."""
    (version, *clock), = rows["office"]
    if version == 2:
        return rows
    notices = [(*row, 0) for row in rows["notices"]]
    return {"late_rules": [], "performance": [], **rows, "notices": [], "notices_2": notices, "office": [(2, *clock)]}
