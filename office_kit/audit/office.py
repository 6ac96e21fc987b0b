"""Reads a copy of an office's file for `tools/audit`, and has what its rules share."""
import datetime
import glob
import hashlib
import json
import os
import shutil
import sqlite3
import tempfile
from collections.abc import Callable, Iterator
from typing import Any

Json = dict[str, Any]
Row = dict[str, Any]
# Parts of a file, each with its size and the time of the last change.
Stamp = list[tuple[str, int, int]]
# A finding of a rule: a row, by its table and key, and its fault.
Found = Iterator[tuple[str, str]]
Check = Callable[..., Found]

# The tables of an office: the columns of the key, and the others.
TABLES = {
    "lines": ("line", "title appropriation free"),
    "batches": ("batch", "moment rows"),
    "tenderers": ("tenderer", "name address key"),
    "notices": ("notice", "title published deadline validity standstill weight state opened amendments releases performance"),
    "lots": ("notice lot", "title line estimate security items state reserved"),
    "envelopes": ("receipt", "notice lot tenderer moment length digest security state reading stated corrected corrections responsive quality failed"),
    "seals": ("receipt", "bytes"),
    "securities": ("security", "tenderer notice lot reference amount state"),
    "awards": ("award", "notice lot receipt price moment state"),
    "contracts": ("contract", "notice lot tenderer signed moment ended how released"),
    "entries": ("contract entry", "kind amount moment rationale"),
    "releases": ("notice seq", "moment text"),
    "compiled": ("notice", "text"),
    "office": ("version", "moment receipts awards"),
    "late_rules": ("notice", ""),
    "performance": ("contract", "reference amount state"),
}

# Version 2 keeps notices under another name, and their table of version 1 empty. Here they are `notices`, whatever the version.
ON_DISK = {"notices": "notices_2"}

# The SQL of the tables that an office of version 1 doesn't have until it is opened. The copy gets them.
LATER = {name: f"CREATE TABLE {name} ({columns}) STRICT" for name, columns in (
    ("late_rules", "notice TEXT NOT NULL PRIMARY KEY CHECK (length(notice) BETWEEN 1 AND 32)"),
    ("notices_2",
     "notice TEXT NOT NULL PRIMARY KEY CHECK (length(notice) BETWEEN 1 AND 32), title TEXT NOT NULL CHECK (length(title) BETWEEN 1 AND 200), "
     "published INTEGER NOT NULL CHECK (published BETWEEN 0 AND 4102444799), deadline INTEGER NOT NULL CHECK (deadline BETWEEN 0 AND 4102444799), "
     "validity INTEGER NOT NULL CHECK (validity BETWEEN 1 AND 365), standstill INTEGER NOT NULL CHECK (standstill BETWEEN 0 AND 90), "
     "weight INTEGER NOT NULL CHECK (weight BETWEEN 0 AND 100), state TEXT NOT NULL CHECK (state IN ('receiving', 'opened', 'cancelled')), "
     "opened INTEGER CHECK (opened BETWEEN 0 AND 4102444799), amendments INTEGER NOT NULL CHECK (amendments BETWEEN 0 AND 50), "
     "releases INTEGER NOT NULL CHECK (releases BETWEEN 0 AND 9999), performance INTEGER NOT NULL CHECK (performance BETWEEN 0 AND 1000000000000)"),
    ("performance",
     "contract INTEGER NOT NULL PRIMARY KEY CHECK (contract BETWEEN 1 AND 1000000000), reference TEXT NOT NULL CHECK (length(reference) BETWEEN 1 AND 32), "
     "amount INTEGER NOT NULL CHECK (amount BETWEEN 1 AND 1000000000000), state TEXT NOT NULL CHECK (state IN ('held', 'returned', 'forfeited'))"),
)}

# Each table and index of version 2, with the first digits of the SHA-256 of the SQL that makes it.
MADE = dict(it.split(":") for it in (
    "lines:e4f278d6871f batches:f823b56fb3f0 tenderers:e429681bbc78 notices:d1f8ce1fb5a8 lots:72143f3de381 envelopes:a50cdf08cdcf "
    "seals:8e885df67690 securities:b17f4e600e34 awards:6048d7d19a7d contracts:f9925bd6b77a entries:8a6a7428858f releases:0a28d41b2c20 "
    "compiled:f27d2fca5cdd office:a457f3144f8d lots_of_line:37f74644bf24 envelopes_of_notice:a88cd83d7304 securities_of_notice:b04554dff328 "
    "awards_of_notice:daec4a3a20b9 contracts_of_notice:e57713968ea5 late_rules:224904b111b7 "
    "notices_2:24e2ae802807 performance:0e99717dfa8c").split())

# The gains and losses of each contract; the four balances of each line, summed from joined rows; the tenders that may win.
SUMS = """
CREATE TEMP TABLE sums AS
    SELECT c.contract, c.notice, c.lot, c.signed, c.released, c.ended,
        coalesce(sum(e.amount) FILTER (WHERE e.kind = 'raise'), 0) AS raised,
        coalesce(sum(e.amount) FILTER (WHERE e.kind = 'cut'), 0) AS cut,
        coalesce(sum(e.amount) FILTER (WHERE e.kind = 'payment'), 0) AS paid
    FROM contracts AS c LEFT JOIN entries AS e ON e.contract = c.contract GROUP BY c.contract;
CREATE INDEX temp.sums_of_notice ON sums (notice);
CREATE TEMP TABLE pots AS
    WITH r AS (SELECT line, sum(reserved) AS reserved FROM lots GROUP BY line),
        c AS (SELECT line, sum(signed + raised - cut - paid - released) AS contracted, sum(paid) AS paid
            FROM sums AS s JOIN lots AS l ON l.notice = s.notice AND l.lot = s.lot GROUP BY line)
    SELECT l.line, appropriation, free, coalesce(reserved, 0) AS reserved, coalesce(contracted, 0) AS contracted, coalesce(paid, 0) AS paid
    FROM lines AS l LEFT JOIN r ON r.line = l.line LEFT JOIN c ON c.line = l.line;
CREATE TEMP VIEW offers AS SELECT * FROM envelopes WHERE state = 'opened' AND reading = 'priced' AND responsive = 1;
"""

# The rules, by the things to which they apply. The file. The releases of a notice, and those that the file keeps. An office's answers on a notice. With the
# file: its minutes, its terms and its evaluation, the list of notices, contracts, and the ledger. A notice of the file that isn't answered. All answers
# together, without the file. An earlier copy of the file. Answers on a notice that may be earlier, and those that are. Answers with a number (receipts,
# securities, contracts). An earlier ledger, and those of days. The log of clerks who sign in at the front.
RULES: dict[str, list[Check]] = {it: [] for it in (
    "file", "releases", "kept", "answers", "minutes", "looks", "list", "contracts", "ledger", "lacking", "outside", "copies", "witness", "saved", "held",
    "ledgers", "days", "front", "documents")}


class Unreadable(Exception):
    """A file, answer or argument that can't be read, and the reason."""


def rule(of: str) -> Callable[[Check], Check]:
    """Makes a function a rule. For each finding it gives a row, as its table and key, and the error."""
    def add(check: Check) -> Check:
        RULES[of].append(check)
        return check
    return add


def text_of(moment: Any) -> str | None:
    """The text of a second since 1970, as releases have it; None for none."""
    if not isinstance(moment, int) or not 0 <= moment < 1 << 36:
        return None if moment is None else str(moment)
    return (datetime.datetime(1970, 1, 1) + datetime.timedelta(seconds=moment)).strftime("%Y-%m-%dT%H:%M:%SZ")


def once(pairs: list[tuple[str, Any]]) -> Json:
    """An object none of whose members comes twice."""
    if len(dict(pairs)) != len(pairs):
        raise ValueError("a member twice")
    return dict(pairs)


def difference(here: Any, there: Any, path: str = "") -> tuple[str, str, str] | None:
    """The first place where two JSON values differ, and both values there, or None."""
    pairs: list[tuple[str, Any, Any]]
    if isinstance(here, dict) and isinstance(there, dict):
        pairs = [(f"{path}/{name}", here.get(name), there.get(name)) for name in sorted(here.keys() | there.keys())]
    elif isinstance(here, list) and isinstance(there, list) and len(here) == len(there):
        pairs = [(f"{path}/{place}", *pair) for place, pair in enumerate(zip(here, there))]
    else:
        texts = [json.dumps(value, sort_keys=True) for value in (here, there)]
        told = [f"a list of {len(value)}" if isinstance(value, list) else text[:60] for value, text in zip((here, there), texts)]
        return None if texts[0] == texts[1] else (path or "/", told[0], told[1])
    return next((found for place, one, other in pairs if (found := difference(one, other, place))), None)


def differing(row: str, here: Any, there: Any, told: str, *more: str) -> Found:
    """A finding if two JSON values differ. Its words have braces for the first place that differs, for both values there, and for more."""
    if found := difference(here, there):
        yield row, told.format(*found, *more)


def json_object(text: str) -> Json | None:
    """The JSON object in a text, or None."""
    try:
        value = json.loads(text, object_pairs_hook=once)
    except (ValueError, RecursionError):
        return None
    return value if isinstance(value, dict) else None


def stamp(path: str) -> Stamp:
    """The file, its log and its journal, if they exist, with size and time of the last change."""
    parts = [path + end for end in ("", "-wal", "-journal") if not end or os.path.exists(path + end)]
    return [(part, os.stat(part).st_size, os.stat(part).st_mtime_ns) for part in parts]


def copied(path: str, folder: str) -> Stamp:
    """The stamp of the file, which was copied into the folder while nobody wrote to it."""
    for _ in range(5):
        for old in glob.glob(os.path.join(glob.escape(folder), "office.db*")):
            os.remove(old)
        before = stamp(path)
        for part, _, _ in before:
            shutil.copyfile(part, os.path.join(folder, "office.db" + part[len(path):]))
        if stamp(path) == before:
            return before
    raise Unreadable(f"{path}: somebody wrote to it while it was copied, five times: run this again when nobody gives commands")


class Office:
    """A copy of an office's file, which is only read. (SQLite tests no checks of tables in a file that is opened as read-only.)"""

    def __init__(self, path: str, folder: str) -> None:
        place = tempfile.mkdtemp(dir=folder)
        self.path, self.stamp, self.unread = path, copied(path, place), 0
        self.tables: dict[str, dict[tuple[Any, ...], Row]] = {}
        self.base = sqlite3.connect(os.path.join(place, "office.db"))
        self.base.execute("PRAGMA trusted_schema = OFF")
        self.base.execute("PRAGMA synchronous = OFF")
        self.base.text_factory = lambda text: text.decode("utf-8", "surrogateescape")
        self.base.create_function("sha256", 1, lambda data: hashlib.sha256(data).digest() if isinstance(data, bytes) else b"", deterministic=True)
        self.base.create_function("text_of", 1, text_of, deterministic=True)
        self.complete("office")
        version = self.rows("SELECT version FROM office")
        if version not in ([(1,)], [(2,)]):
            raise Unreadable(f"{path}: it isn't an office of version 1 or 2")
        if version == [(1,)]:
            self.migrate()
        for table in TABLES:
            self.complete(table)
        self.base.executescript("CREATE TEMP VIEW notices AS SELECT * FROM notices_2;" + SUMS + "PRAGMA query_only = ON")

    def columns(self, table: str) -> set[str]:
        return {row[1] for row in self.rows(f"PRAGMA table_info({table})")}

    def complete(self, table: str) -> None:
        """Checks that the table exists with its columns."""
        name = ON_DISK.get(table, table)
        if not self.columns(name) >= set(" ".join(TABLES[table]).split()):
            raise Unreadable(f"{self.path}: it isn't an office: the table {name} or one of its columns is missing")

    def migrate(self) -> None:
        """Migrates the copy, as the program migrates an office of version 1 when it opens it."""
        for table, made in LATER.items():
            if not self.columns(table):
                self.base.execute(made)
        if not self.columns("notices") >= set(" ".join(TABLES["notices"]).split()) - {"performance"}:
            raise Unreadable(f"{self.path}: it isn't an office: the table notices or one of its columns is missing")
        self.base.executescript("""
            INSERT INTO notices_2 SELECT notice, title, published, deadline, validity, standstill, weight, state, opened, amendments, releases, 0 FROM notices;
            DELETE FROM notices; UPDATE office SET version = 2""")

    def rows(self, sql: str, *values: object) -> list[Any]:
        return self.base.execute(sql, values).fetchall()

    def table(self, name: str) -> dict[tuple[Any, ...], Row]:
        """The rows of a table by their keys, each as its values by column."""
        if name not in self.tables:
            keys, others = (columns.split() for columns in TABLES[name])
            rows = self.rows(f"SELECT {', '.join(keys + others)} FROM {name}")
            self.tables[name] = {row[:len(keys)]: dict(zip(keys + others, row)) for row in rows}
        return self.tables[name]

    def find(self, table: str, sql: str, *values: object) -> Found:
        """A finding for each row of the query: the key of a row of the table, and its fault."""
        for *key, what in self.rows(sql, *values):
            yield f"{table} {'/'.join(map(str, key))}", what

    def notices(self) -> list[str]:
        return [notice for notice, in self.rows("SELECT notice FROM notices ORDER BY notice")]

    def releases(self, notice: str) -> list[Json]:
        """The releases of a notice that the file keeps and that are JSON objects, in sequence."""
        values = [json_object(text) for text, in self.rows("SELECT text FROM releases WHERE notice = ? ORDER BY seq", notice)]
        return [value for value in values if value is not None]

    def has_changed(self) -> bool:
        return stamp(self.path) != self.stamp
