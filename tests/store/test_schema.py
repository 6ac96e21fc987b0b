"""The tables in an office's file, as the sqlite3 program sees them (Debian's `sqlite3`): bounds, types, keys, and how each query finds its rows.

That program knows nothing of ours. tables.txt has the tables, and docs/TABLES.md says the same. Each row is added to a file that the program made, and taken
back in a transaction.
"""
import functools
import re
from collections import namedtuple
from pathlib import Path

import pytest

from office_kit.common import ROOT
from office_kit.store.files import ledger_of, sqlite

pytestmark = pytest.mark.needs("sqlite3")
VALUES = {"INTEGER": str, "TEXT": lambda length: f"'{'a' * length}'", "BLOB": "zeroblob({})".format}
# Values of other types than that of a column.
OTHERS = {"INTEGER": ["'a'", "1.5", "x'00'"], "TEXT": ["x'00'"], "BLOB": ["'a'", "1", "1.5"]}
# A column: its type, values that it takes, values that it doesn't, and whether it may be NULL.
Column = namedtuple("Column", "kind takes refuses may_be_null")


def column_of(kind, *words):
    is_null, words = "NULL" in words, [it for it in words if it != "NULL"]
    if kind == "word":
        return Column("TEXT", [f"'{it}'" for it in words], ["''", "'other'", *(f"'{it.upper()}'" for it in words)], is_null)
    bounds, value = [int(it) for it in words], VALUES[kind]
    return Column(kind, [value(it) for it in bounds] or ["'any'"], [value(it + step) for it, step in zip(bounds, (-1, 1))], is_null)


def table_of(name, key, rest):
    """A table of tables.txt: its name, with its key and its columns in order."""
    rows = [cell.split() for cell in rest.replace("\n", " ").split(", ")]
    return name, (key.split(), {column: column_of(*KINDS.get(kind, kind).split(), *words) for column, kind, *words in rows})


HEAD, TEXT, INDEXED, SEARCHED = Path(__file__).with_name("tables.txt").read_text(encoding="utf-8").split("\n\n")
KINDS = dict(re.findall(r"^# (\w+) = (.*)$", HEAD, re.M))
TABLES = dict(table_of(*it) for it in re.findall(r"^(\w+): (.*)\n((?: +.*(?:\n|$))+)", TEXT, re.M))
INDEXES = {name: [table, *columns] for name, table, *columns in (line.split() for line in INDEXED.splitlines()[1:])}
BY_INDEX = {(table, test): by for table, test, by in (line.strip().split(": ") for line in SEARCHED.splitlines()[1:])}
ROWID, KEY = "INTEGER PRIMARY KEY (rowid=?)", "sqlite_autoindex_{}_1 ({})"


def is_rowid(table):
    key, columns = TABLES[table]
    return len(key) == 1 and columns[key[0]].kind == "INTEGER"


@pytest.fixture(scope="module")
def ask(program, tmp_path_factory):
    """Runs a script over an office's file: the lines that sqlite3 prints. A statement that it refuses is skipped."""
    path = str(tmp_path_factory.mktemp("schema") / "office.db")
    ledger_of(program, path)
    return functools.partial(sqlite, path, may_fail=True)


def takes(ask, table, rows):
    """Which of these lists of rows, each put alone, the table takes whole."""
    names = ", ".join(TABLES[table][1])
    puts = [[f"INSERT INTO {table} ({names}) VALUES ({', '.join(row)});" for row in some] for some in rows]
    script = "\n".join(f"BEGIN; DELETE FROM {table};\n" + "\n".join(put) + f"\nSELECT count(*) = {len(put)} FROM {table}; ROLLBACK;" for put in puts)
    told = ask(script)
    assert len(told) == len(rows)
    return [it == "1" for it in told]


def judges(ask, table, wanted):
    """Each row, by its column and value, is accepted or refused as expected."""
    told = takes(ask, table, [[row_of(table, **{name: value})] for name, value, _ in wanted])
    assert [(*it[:2], taken) for it, taken in zip(wanted, told)] == wanted


def row_of(table, **other):
    """A row that the table takes, or one with another value."""
    return list(({name: column.takes[0] for name, column in TABLES[table][1].items()} | other).values())


each_table = pytest.mark.parametrize("table", TABLES)


@each_table
def test_table(ask, table):
    """Its columns, the kinds of their values, its key, and which columns may be NULL."""
    key, columns = TABLES[table]
    places = {name: key.index(name) + 1 if name in key else 0 for name in columns}
    wanted = [f"{at}|{name}|{column.kind}|{int(not column.may_be_null)}||{places[name]}" for at, (name, column) in enumerate(columns.items())]
    assert ask(f"PRAGMA table_info({table});") == wanted


def test_tables(ask):
    """There are these tables and indexes, and all tables are STRICT."""
    assert ask("SELECT name FROM pragma_table_list WHERE schema = 'main' AND strict = 1 ORDER BY name;") == sorted(TABLES)
    assert ask("SELECT name FROM sqlite_master WHERE name NOT LIKE 'sqlite!_%' ESCAPE '!' ORDER BY name;") == sorted([*TABLES, *INDEXES])
    for index, wanted in INDEXES.items():
        told = ask(f"SELECT tbl_name FROM sqlite_master WHERE name = '{index}'; SELECT name FROM pragma_index_info('{index}') ORDER BY seqno;")
        assert told == wanted


@each_table
def test_bounds(ask, table):
    """A column accepts the least and the most that its record has, and each word. It refuses one below, one above, another word, and, if need be, NULL."""
    key, columns = TABLES[table]
    wanted = []
    for name, column in columns.items():
        wanted += [(name, value, True) for value in column.takes] + [(name, value, False) for value in column.refuses]
        # SQLite chooses a rowid for NULL, so the table accepts it.
        if column.may_be_null or not (is_rowid(table) and name in key):
            wanted.append((name, "NULL", column.may_be_null))
    judges(ask, table, wanted)


@each_table
def test_kinds(ask, table):
    """No column accepts a value of another kind."""
    judges(ask, table, [(name, value, False) for name, column in TABLES[table][1].items() for value in OTHERS[column.kind]])


@each_table
def test_key(ask, table):
    """No two rows have the same key. A key that is a number is the rowid."""
    key, columns = TABLES[table]
    one, others = row_of(table), [row_of(table, **{name: columns[name].takes[1]}) for name in key]
    assert takes(ask, table, [[one, one], *([one, other] for other in others)]) == [False] + [True] * len(key)
    if is_rowid(table):
        same = ask(f"BEGIN; INSERT OR REPLACE INTO {table} VALUES ({', '.join(one)}); SELECT min(rowid = {key[0]}) FROM {table}; ROLLBACK;")
        assert same == ["1"]


# ---- Queries.

def asked():
    """The queries and the deletions in the program's sources."""
    sources = [path.read_text(encoding="utf-8") for name in ("office_tables", "office_ledger", "office_store")
               for path in sorted(Path(ROOT, "crates", name, "src").rglob("*.rt"))]
    return sorted({it for source in sources for it in re.findall(r'"((?:SELECT|DELETE) [^"]*)"', source)})


def step_of(table, test, columns):
    """How a query of one table with this test is answered. `columns`: those of a SELECT, or nothing."""
    key = TABLES[table][0]
    # An index that has all columns of the table, or all that are asked for, answers alone.
    index = "COVERING INDEX" if key == list(TABLES[table][1]) or (columns and set(columns) <= set(key)) else "INDEX"
    if (table, test) in BY_INDEX:
        by = BY_INDEX[table, test]
        return f"SEARCH {table} USING {index if by.startswith('sqlite_autoindex_') else 'INDEX'} {by}"
    assert test == " AND ".join(f"{name} = ?{at + 1}" for at, name in enumerate(key)), "a query that isn't listed"
    by = ROWID if is_rowid(table) else f"{index} {KEY.format(table, ' AND '.join(f'{name}=?' for name in key))}"
    return f"SEARCH {table} USING {by}"


@pytest.mark.parametrize("query", asked())
def test_query(ask, query):
    """`EXPLAIN QUERY PLAN` uses the key or the index that is listed here."""
    steps = [line.lstrip(" |`-") for line in ask(f"EXPLAIN QUERY PLAN {query};") if line != "QUERY PLAN"]
    plain = re.fullmatch(r"(?:SELECT (.*)|DELETE) FROM (\w+) WHERE (.*?)(?: ORDER BY .*)?", query)
    first = re.fullmatch(r"SELECT .* FROM (\w+) ORDER BY (\w+) LIMIT \?1", query)
    if "JOIN" in query:
        # Each table that is joined is searched, and that of one line's lots too.
        for table in re.findall(r"LEFT JOIN (\w+)", query) + (["lots"] if "WHERE" in query else []):
            assert any(step.startswith(f"SEARCH {table} USING ") for step in steps), steps
    elif plain:
        # A page isn't sorted.
        assert steps[:None if "LIMIT" in query else 1] == [step_of(plain[2], plain[3], (plain[1] or "").split(", "))]
    elif first:
        # The first page isn't either: the key's index begins it and LIMIT ends it.
        assert TABLES[first[1]][0] == [first[2]] and steps == [f"SCAN {first[1]} USING INDEX sqlite_autoindex_{first[1]}_1"]
    else:
        # The ledger's lines, the version, and the rows that a migration reads and drops whole.
        whole = ("SCAN lines USING INDEX sqlite_autoindex_lines_1", "SCAN office", "SCAN notices USING INDEX sqlite_autoindex_notices_1")
        assert steps[0].startswith(whole) if steps else query.startswith("DELETE FROM")


def test_queries_are_found():
    assert len(asked()) > 20


# ---- docs/TABLES.md.

def sections():
    """The rows of each table of columns, as cells, by the name of the table."""
    found = {}
    for part in Path(ROOT, "docs", "TABLES.md").read_text(encoding="utf-8").split("\n## ")[1:]:
        head, _, *rows = [[cell.strip() for cell in line.split("|")[1:-1]] for line in part.split("\n") if line.startswith("|")]
        assert head == ["Column", "Type", "Key", "Unit", "Meaning"]
        found[part.partition("\n")[0]] = rows
    return found


def test_dictionary():
    """docs/TABLES.md has each table of the file."""
    assert sections().keys() == TABLES.keys()


@each_table
def test_dictionary_of(ask, table):
    """docs/TABLES.md has each column in order. Type, place in the key, whether it may be NULL, and the words of a column are those of the file."""
    rows, columns = sections()[table], [line.split("|") for line in ask(f"PRAGMA table_info({table});")]
    wanted = [(name, kind, key if key != "0" else "", needed == "0") for _, name, kind, needed, _, key in columns]
    assert [(name, kind, key, unit.endswith("or empty")) for name, kind, key, unit, _ in rows] == wanted
    assert all(unit and meaning for *_, unit, meaning in rows)
    made = "\n".join(ask(f"SELECT sql FROM sqlite_master WHERE name = '{table}';"))
    for name, _, _, unit, meaning in rows:
        words = re.search(rf"\({name} IN \(([^)]*)\)", made)
        assert bool(words) == unit.startswith("word")
        if words and not meaning.startswith("as in"):
            assert set(re.findall("'([a-z]+)'", words[1])) == set(re.findall("`([a-z]+)`", meaning))
