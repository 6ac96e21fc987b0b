"""The rules of `tools/audit` that compare the rows of an office's file with one another. The name of each is the rule, and its docstring says it in a
sentence. Those that are one statement or two of SQL are in rows.sql."""
import hashlib
import re
from pathlib import Path
from typing import Any

from office_kit.audit.office import MADE, ON_DISK, TABLES, Found, Office, rule

WORDS = {
    "notices state": "receiving opened cancelled",
    "lots state": "undecided awarded contracted unsuccessful cancelled",
    "envelopes state": "sealed withdrawn returned opened",
    "envelopes reading": "unreadable nonconforming priced",
    "securities state": "held returned forfeited",
    "awards state": "active failed cancelled signed",
    "performance state": "held returned forfeited",
    "contracts how": "regular default",
    "entries kind": "raise cut payment",
}
PARENTS = (
    "lots notice notices, lots line lines, envelopes notice|lot lots, envelopes tenderer tenderers, envelopes security securities, seals receipt envelopes, "
    "securities notice|lot lots, securities tenderer tenderers, awards notice|lot lots, awards receipt envelopes, contracts notice|lot lots, "
    "contracts tenderer tenderers, entries contract contracts, releases notice notices, compiled notice notices, late_rules notice notices, "
    "performance contract contracts")
MOMENTS = ("batches moment, notices published, notices opened, envelopes moment, awards moment, contracts moment, contracts ended, entries moment, "
           "releases moment")


def key_of(table: str, before: str = "") -> str:
    """The columns of a table's key, for a select."""
    return ", ".join(before + column for column in TABLES[table][0].split())


# ---- The tables.

@rule("file")
def file_is_sound(office: Office) -> Found:
    """SQLite finds no fault in the file; each value has its column's type and passes each check of its table."""
    for what, in office.rows("PRAGMA integrity_check"):
        if what != "ok":
            yield "file", what


@rule("file")
def tables_are_as_made(office: Office) -> Found:
    """The office's tables and indexes are those that its SQL makes, with no other column, index or trigger. (Tables of others may be beside them.)"""
    there = office.rows("SELECT name, type, sql, lower(tbl_name) FROM sqlite_master WHERE name NOT LIKE 'sqlite!_%' ESCAPE '!' ORDER BY name")
    there = [(name, kind, sql) for name, kind, sql, table in there if table in TABLES or table in ON_DISK.values()]
    for name, kind, sql in there:
        if name not in MADE:
            yield f"{kind} {name}", "belongs to no office"
        elif not hashlib.sha256(sql.encode("utf-8", "surrogateescape")).hexdigest().startswith(MADE[name]):
            yield f"{kind} {name}", "has another form"
    for name in sorted(set(MADE) - {name for name, _, _ in there}):
        yield f"{'table' if name in (*TABLES, *ON_DISK.values()) else 'index'} {name}", "is missing"


@rule("file")
def keys_come_once(office: Office) -> Found:
    """No two rows of a table have the same key."""
    for table in TABLES:
        key = key_of(table)
        yield from office.find(table, f"SELECT {key}, 'occurs ' || count(*) || ' times' FROM {table} GROUP BY {key} HAVING count(*) > 1")


@rule("file")
def words_are_known(office: Office) -> Found:
    """Each state, kind and reading is one of its words."""
    for place, words in WORDS.items():
        table, column = place.split()
        yield from office.find(table, f"SELECT {key_of(table)}, '{column} is ' || {column} FROM {table} WHERE instr(' {words} ', ' ' || {column} || ' ') = 0")


@rule("file")
def parents_are_there(office: Office) -> Found:
    """Each row to which another row refers exists, and each notice has a lot."""
    for place in PARENTS.split(", "):
        child, columns, parent = place.split()
        here = ["c." + column for column in columns.split("|")]
        same = " AND ".join(f"p.{there} = {column}" for there, column in zip(TABLES[parent][0].split(), here))
        named = " || '/' || ".join(here)
        yield from office.find(child, f"""SELECT {key_of(child, 'c.')}, '{parent} ' || {named} || ' doesn''t exist' FROM {child} AS c
            WHERE {here[0]} IS NOT NULL AND NOT EXISTS (SELECT 1 FROM {parent} AS p WHERE {same})""")
    yield from office.find("notices", "SELECT notice, 'has no lot' FROM notices WHERE notice NOT IN (SELECT notice FROM lots)")


@rule("file")
def nothing_is_after_the_clock(office: Office) -> Found:
    """No row has a later moment than the last accepted command, whose moment is in the table office."""
    for place in MOMENTS.split(", "):
        table, column = place.split()
        yield from office.find(table, f"""SELECT {key_of(table)}, '{column} is ' || text_of({column}) || ', after the clock' FROM {table}
            WHERE {column} > (SELECT moment FROM office)""")


@rule("file")
def numbers_are_given_in_turn(office: Office) -> Found:
    """Receipts and award numbers are exactly those from 1 to the last one assigned."""
    for table, key, last in (("envelopes", "receipt", "receipts"), ("awards", "award", "awards")):
        yield from office.find(table, f"""
            WITH RECURSIVE number(n) AS (SELECT 1 UNION ALL SELECT n + 1 FROM number WHERE n < (SELECT {last} FROM office))
            SELECT n, 'was assigned but is missing' FROM number WHERE n <= (SELECT {last} FROM office) AND n NOT IN (SELECT {key} FROM {table})
            UNION ALL SELECT {key}, 'wasn''t given out' FROM {table} WHERE {key} > (SELECT {last} FROM office) OR {key} < 1""")


@rule("file")
def numbers_follow_time(office: Office) -> Found:
    """In the order of the numbers of tenders, of awards and of each notice's releases, moments never fall."""
    for table, group in (("envelopes", "1"), ("awards", "1"), ("releases", "notice")):
        key = key_of(table)
        yield from office.find(table, f"""SELECT {key}, 'is earlier than the one before it' FROM
            (SELECT {key}, moment, lag(moment) OVER (PARTITION BY {group} ORDER BY {key}) AS earlier FROM {table}) WHERE moment < earlier""")


# Tables whose rows are never taken out, and have no number that is the row's place; the moment if there is one.
PLACED = {"lines": None, "batches": "moment", "tenderers": None, "notices": None, "lots": None, "entries": "moment", "releases": "moment", "compiled": None,
          "late_rules": None}


@rule("file")
def rows_came_one_after_another(office: Office) -> Found:
    """Rows that are never deleted have the places (rowid) 1, 2, 3 and so on, and in that order moments never fall."""
    for table, moment in PLACED.items():
        key, name = key_of(table), ON_DISK.get(table, table)
        yield from office.find(table, f"""SELECT {key}, 'has place ' || place || ', after ' || earlier || ': rows between them are gone' FROM
            (SELECT {key}, rowid AS place, lag(rowid, 1, 0) OVER (ORDER BY rowid) AS earlier FROM {name}) WHERE place <> earlier + 1""")
        if moment:
            yield from office.find(table, f"""SELECT {key}, 'is of ' || text_of(moment) || ', and was added after one of ' || text_of(earlier) FROM
                (SELECT {key}, moment, lag(moment) OVER (ORDER BY rowid) AS earlier FROM {name}) WHERE moment < earlier""")


# ---- Offers and their bytes.

@rule("file")
def awards_go_to_the_best(office: Office) -> Found:
    """An award goes to its lot's best tender that can win, that hasn't failed before and wasn't withdrawn late, at its corrected price."""
    for award, notice, lot, receipt, price, weight in office.rows(
            "SELECT award, a.notice, lot, receipt, price, weight FROM awards AS a JOIN notices AS n ON n.notice = a.notice ORDER BY award"):
        offers = office.rows("""SELECT corrected, receipt, coalesce(quality, 0) FROM offers WHERE notice = ? AND lot = ? AND receipt NOT IN
            (SELECT receipt FROM awards WHERE notice = offers.notice AND award < ? AND state = 'failed')
            AND NOT (failed AND notice IN (SELECT notice FROM late_rules) AND receipt NOT IN (SELECT receipt FROM awards WHERE notice = offers.notice))""",
            notice, lot, award)
        best = best_of(offers, weight)
        if best is None or best[:2] != (price, receipt):
            yield f"awards {award}", f"went to tender {receipt} at {price}, and the best " + (f"is {best[1]} at {best[0]}" if best else "isn't there")


def best_of(offers: list[Any], weight: int) -> Any:
    """The best of offers (price, receipt, quality): if the weight isn't 0, that with most thousandths of points; then the lower price and receipt."""
    lowest = min((price for price, _, _ in offers), default=0)

    def standing(offer: Any) -> tuple[int, int, int]:
        price, receipt, quality = offer
        points = (weight * 1000 * lowest // price if price else weight * 1000) + 1000 * quality
        return (-points if weight else 0, price, receipt)
    return min(offers, key=standing, default=None)


@rule("file")
def readings_are_of_the_bytes(office: Office) -> Found:
    """Exactly the opened tenders were read, as this tool reads their bytes; those with quotation marks are skipped and counted in the last line."""
    yield from office.find("envelopes", """
        SELECT receipt, 'is ' || state || ', and was read: ' || coalesce(reading, 'not') FROM envelopes WHERE (state = 'opened') <> (reading IS NOT NULL)""")
    for receipt, data, items, *reading in office.rows("""
            SELECT e.receipt, bytes, items, reading, stated, corrected, corrections FROM envelopes AS e JOIN seals AS s ON s.receipt = e.receipt
            JOIN lots AS l ON l.notice = e.notice AND l.lot = e.lot WHERE e.state = 'opened' ORDER BY e.receipt"""):
        if b'"' in data:
            office.unread += 1
        elif tuple(reading) != (again := reading_of(data, items)):
            yield f"envelopes {receipt}", f"was read as {reading}, and its bytes say {list(again)}"


def number_of(field: bytes) -> int | None:
    """The number that 1 to 16 digits write, up to 10^15, or None."""
    return int(field) if re.fullmatch(rb"[0-9]{1,16}", field) and int(field) <= 10 ** 15 else None


def reading_of(data: bytes, items: str) -> tuple[Any, ...]:
    """A tender's file for a lot of these items: a word, the price as stated, as corrected, and how many figures were corrected (RFC 4180)."""
    records = [line.split(b",") for line in re.split(rb"[\r\n]+", data.removeprefix(b"\xef\xbb\xbf")) if line]
    if len(records) < 2 or records[0] != [b"item", b"quantity", b"unit", b"total"] or any(len(record) != 4 for record in records):
        return "unreadable", None, None, None
    rows: list[Any] = [(name, number_of(quantity), number_of(unit), number_of(total)) for name, quantity, unit, total in records[1:-1]]
    stated = number_of(records[-1][3])
    if records[-1][:3] != [b"TOTAL", b"", b""] or stated is None or any(None in row for row in rows):
        return "unreadable", None, None, None
    wanted = [tuple(item.split("\t")[:2]) for item in items.split("\n")[:-1]]
    offered = [(name.decode("latin-1"), str(quantity)) for name, quantity, _, _ in rows]
    corrected = sum(quantity * unit for _, quantity, unit, _ in rows)
    if offered != wanted or any(unit > 10 ** 9 for _, _, unit, _ in rows) or corrected > 10 ** 12:
        return "nonconforming", None, None, None
    return "priced", stated, corrected, sum(total != quantity * unit for _, quantity, unit, total in rows) + (stated != corrected)


# ---- The rules of rows.sql.

# By their names, each with its statements and the tables whose rows these find.
STATEMENTS: dict[str, list[tuple[str, str]]] = {}


def add(name: str, told: str) -> None:
    """Makes a rule of its statements."""
    def check(office: Office) -> Found:
        for table, sql in STATEMENTS[name]:
            yield from office.find(table, sql)
    check.__name__, check.__doc__ = name, told
    rule("file")(check)


for found in re.finditer(r"^-- (\w+) (\w+)\n(?:-- (.*)\n)?([^-][^;]*;)\n", Path(__file__).with_suffix(".sql").read_text(encoding="utf-8"), re.M):
    STATEMENTS.setdefault(found[1], []).append((found[2], found[4]))
    if found[3]:
        add(found[1], found[3])
