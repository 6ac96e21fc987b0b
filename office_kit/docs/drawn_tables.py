"""The drawing of an office's tables, made of the texts that create them and of the specification's references between rows. Read by tools/pictures.

The texts are the CREATE of crates/office_tables/src/tables/*.rt. No column is a foreign key of SQL: that a row which another refers to exists is a law of the
specification, crates/office_machine/specs/Parents.antt, and the arrows are made of it.
"""
import re
from collections.abc import Iterator
from typing import NamedTuple

from office_kit.docs.definitions import ROOT, Fault, text_of, without_nested

CREATE = re.compile(r'const CREATE: &str =\s*"CREATE TABLE (\w+) \((.*)\) STRICT";')
RECORD = re.compile(r"impl Stored for (\w+Row) \{")
KEY = re.compile(r"PRIMARY KEY \(([^)]*)\)")
COLUMN = re.compile(r"(\w+) (?:INTEGER|TEXT|BLOB)\b")
# `pub record LotHas (t : Tables) (l : LotRow) : ..`, and its fields, each with the look-up that finds the other row.
HAS = re.compile(r"pub record \w+Has \(t : Tables\) \(\w+ : (\w+)\) : Type 0 where\n((?:  pub .*\n)+)")
FOUND = re.compile(r"IsSome \((\w+_at) (\([^)]*\)|[\w.]+) t\)")
LOOKS_UP = re.compile(r"^abbrev pub (\w+_at) : .* → Tables → Option (\w+)$", re.MULTILINE)
# Rows that have the number of a row of another table: a seal has that of its tender (`TendersHaveFates`), and a contract that of its award (`contract_row`).
SAME_NUMBER = [("SealRow", "EnvelopeRow"), ("ContractRow", "AwardRow")]
HEAD = """\
// The tables of an office: under each name its key, then the columns that refer to rows of other tables, then the others. An
// arrow leads from a table to one that it refers to; a dashed one to a row that has the same number. Made by `tools/pictures`
// of the schema, not by hand.
digraph tables {
  rankdir=BT; ranksep=0.35; nodesep=0.15; bgcolor="#ffffff"; pad=0.2;
  node [fontname="Helvetica,Arial,sans-serif", fontsize=11, fontcolor="#24292f", shape=plain];
  edge [color="#57606a", arrowsize=0.6];
"""


class Table(NamedTuple):
    """A table: its name, its record in the program, its key, and its columns in their order."""

    name: str
    record: str
    key: list[str]
    columns: list[str]


def table_in(text: str) -> Table:
    found, record = CREATE.search(text), RECORD.search(text)
    if not found or not record:
        raise Fault("crates/office_tables/src/tables: a source without a CREATE or a record")
    key = KEY.search(found[2])
    columns = [name for part in without_nested(r"\([^()]*\)", found[2]).split(",") for name in COLUMN.findall(part)[:1]]
    own = key[1].split(", ") if key else [part.split()[0] for part in found[2].split(", ") if "PRIMARY KEY" in part]
    return Table(found[1], record[1], own, columns)


def tables() -> list[Table]:
    """The tables of an office, in the order of their sources."""
    return [table_in(text_of(path)) for path in sorted((ROOT / "crates/office_tables/src/tables").glob("*.rt"))]


def references() -> Iterator[tuple[str, list[str], str]]:
    """(record, its columns, the record that these refer to) of each reference between rows."""
    looked_up = dict(LOOKS_UP.findall(text_of(ROOT / "crates/office_base/specs/Tables.antt")))
    for record, fields in HAS.findall(text_of(ROOT / "crates/office_machine/specs/Parents.antt")):
        for field in fields.splitlines():
            found = FOUND.search(field)
            if not found or found[1] not in looked_up:
                raise Fault(f"crates/office_machine/specs/Parents.antt: no reference that this script knows: {field.strip()}")
            yield record, re.findall(r"\w+\.(\w+)", found[2]) or [field.split()[1]], looked_up[found[1]]


def rows_of(words: list[str], width: int = 2) -> str:
    """Words, so many to a line, as a cell of a label has them."""
    lines = [", ".join(words[at:at + width]) for at in range(0, len(words), width)]
    return ',<br align="left"/>'.join(lines) + '<br align="left"/>'


def node_of(table: Table, referring: list[str]) -> str:
    others = [it for it in table.columns if it not in table.key and it not in referring]
    inside = [it for it in referring if it not in table.key]
    cells = [("#0a4a86", f'<b><font color="#ffffff">{table.name}</font></b>'), ("#dbe9f6", f"<b>{', '.join(table.key)}</b>")]
    cells += [("#f1f5fa", rows_of(inside))] if inside else []
    cells += [("#ffffff", f'<font color="#57606a">{rows_of(others)}</font>')] if others else []
    made = "".join(f'<tr><td align="left" balign="left" bgcolor="{colour}">{text}</td></tr>' for colour, text in cells)
    return f'  {table.name} [label=<<table border="1" color="#57606a" cellborder="0" cellspacing="0" cellpadding="3">{made}</table>>];'


def tables_dot() -> str:
    """The source of the drawing. A table has no arrow to one that its row of another table leads to by the same column."""
    name_of, found = {it.record: it.name for it in tables()}, list(references())
    lines, arrows = [], []
    for table in tables():
        referred = [(columns, name_of[other]) for record, columns, other in found if record == table.record]
        wider = {column for columns, _ in referred if len(columns) > 1 for column in columns}
        lines.append(node_of(table, list(dict.fromkeys(column for columns, _ in referred for column in columns))))
        arrows += [f"  {table.name} -> {name};" for columns, name in referred if len(columns) > 1 or columns[0] not in wider]
    arrows += [f"  {name_of[record]} -> {name_of[other]} [style=dashed];" for record, other in SAME_NUMBER]
    return HEAD + "\n".join([*lines, *dict.fromkeys(arrows), "}"]) + "\n"
