"""Tenders' files for tests: the forms of docs/TENDERER-API.md, files at the bounds, and files that hypothesis makes and shrinks; and the program's reading."""
import functools
import json
import random
import subprocess
import tomllib
import types
from collections.abc import Callable, Iterable
from pathlib import Path
from typing import Any, NamedTuple

from hypothesis import HealthCheck, Phase, given, settings, strategies

from office_kit.common import ROOT

TOOL = f"{ROOT}/tools/check_tender"
# The lots' items, of several kinds: those of docs/TENDERER-API.md, one alone, names that are words of the file's form, many, few and dear.
KINDS = [
    [("I1", 3), ("I2", 10)],
    [("I1", 1)],
    [("TOTAL", 2), ("item", 3), ("i1", 1), ("I1", 4)],
    [(f"{number:02}", number + 1) for number in range(50)],
    [("a.b-c_d", 1000000), ("2", 2)],
    [("1", 1000), ("3", 1000000)],
]
# How often each kind comes: fifty items seldom, since their files are long.
OFTEN = [0, 1, 2, 4, 5] * 8 + [3]


class Case(NamedTuple):
    """A file, the kind of its lot, and its source."""

    source: str
    kind: int
    data: bytes


# The parts of a right file, and files by their forms.
TEXTS = tomllib.loads(Path(__file__).with_name("forms.toml").read_text(encoding="utf-8"))
RIGHT: list[str] = [TEXTS[name] for name in ("head", "first", "second", "sum")]
HEAD, SUM = RIGHT[0], RIGHT[-1]


def lines(*parts: str, end: str = "\n", last: str = "\n") -> bytes:
    return (end.join(parts) + last).encode()


def file_of(form: str | list[str]) -> bytes:
    return form.encode() if isinstance(form, str) else lines(*(TEXTS.get(line, line) for line in form))


# The forms of the document's table, each by the words of its first column.
FORMS = {name: list(map(file_of, files)) for name, files in TEXTS["forms"].items()} | {
    "UTF-16, as in Excel's `Unicode text`": [lines("\ufeff" + HEAD, *RIGHT[1:]).decode().encode("utf-16-le"), lines(*RIGHT).decode().encode("utf-16-be")],
    "a PDF, a workbook, a page": [
        b"%PDF-1.7\n%\xe2\xe3\xcf\xd3\n1 0 obj\n", b"PK\x03\x04\x14\x00\x06\x00" + bytes(range(256)), b"<html><table><tr><td>I1</td></tr></table></html>"],
    "more than 32,768 bytes": [lines(*RIGHT, last="\n" * 32768)],
}
MARK = b"\xef\xbb\xbf"
FIGURES = ["0", "1", "00", "007", "999999999", "1000000000", "1000000001", "1000000000000", "1000000000001", "1000000000000000", "1000000000000001",
           "0000000000000001", "00000000000000001", "9999999999999999", "12.5", "3.0", "1,000", "-1", "+1", " 1", "1 ", "1e3", "", "x", "\u0661", '"5"', '""',
           '"', '5"', "=1"]
LETTERS: list[Callable[[str], str]] = [str.lower, str.upper, str.title, lambda it: f"L1/{it}", lambda it: f"{it} "]
BYTES = [b",", b";", b'"', b"\n", b"\r", b"\r\n", b" ", b"\t", b"0", b"9", b"x", b"\0", b"\xff", MARK, b"'", b",,,", b"TOTAL", b"\n\n", b'""', b""]


def right_rows(kind: int, units: Iterable[int]) -> list[list[str]]:
    """The rows of a right file with these unit prices."""
    rows = [[item, str(quantity), str(unit), str(quantity * unit)] for (item, quantity), unit in zip(KINDS[kind], units)]
    return [HEAD.split(","), *rows, ["TOTAL", "", "", str(sum(int(row[3]) for row in rows))]]


def written(chance: random.Random, rows: list[list[str]]) -> bytes:
    """The rows as a file, in one of the ways that are read alike."""
    mark, end = chance.choice((b"", b"", MARK)), chance.choice((b"\n", b"\n", b"\r\n", b"\r", b"\n\n", b"\n\r"))
    quoted = chance.choice((99, 99, 99, 5, 1))
    fields = [[b'"%s"' % field.encode().replace(b'"', b'""') if at % quoted == quoted - 1 else field.encode() for at, field in enumerate(row, number)]
              for number, row in enumerate(rows)]
    return mark + chance.choice((b"", b"", b"\n")) + end.join(map(b",".join, fields)) + chance.choice((end, end, b""))


def changed_rows(chance: random.Random, rows: list[list[str]]) -> list[list[str]]:
    """The rows with one change: a figure, a row too few, again or elsewhere, a field too many or too few, a word in other letters."""
    at, where = chance.randrange(len(rows)), chance.randrange(4)
    row, before, after = rows[at], rows[:at], rows[at + 1:]
    ways: list[Callable[[], list[list[str]]]] = [
        *[lambda: [*before, [*row[:where], chance.choice(FIGURES), *row[where + 1:]], *after]] * 3, lambda: [*before, [*row, ""], *after],
        lambda: [*before, [chance.choice(LETTERS)("".join(row[:1])), *row[1:]], *after], lambda: [*before, row[:-1], *after],
        lambda: before + after or rows, lambda: [*before, row, row, *after], lambda: [*before, *after, row]]
    return chance.choice(ways)()


def changed_bytes(chance: random.Random, data: bytes) -> bytes:
    """The file with one change of its bytes: some put in, some taken out."""
    at = chance.randrange(len(data) + 1)
    return data[:at] + chance.choice(BYTES) + data[at + chance.randrange(2):]


def made(chance: random.Random) -> Case:
    """A file: right, or with up to three changes."""
    kind, of_rows, of_bytes = chance.choice(OFTEN), chance.choice((0, 0, 1, 1, 2)), chance.choice((0, 0, 0, 1))
    most = 10 ** chance.choice((1, 3, 5))
    rows = right_rows(kind, [chance.randrange(most) for _ in KINDS[kind]])
    for _ in range(of_rows):
        rows = changed_rows(chance, rows)
    data = written(chance, rows)
    for _ in range(of_bytes):
        data = changed_bytes(chance, data)
    return Case("changed" if of_rows + of_bytes else "right", kind, data)


# (Its numbers are those of hypothesis, which shrinks them.)
CHANCE = strategies.randoms(use_true_random=False)
FILES = CHANCE.map(made)


def samples(strategy: strategies.SearchStrategy[Any], count: int) -> list[Any]:
    """So many different values of a strategy, the same each time."""
    found: list[Any] = []

    @settings(max_examples=count, derandomize=True, database=None, deadline=None, phases=[Phase.generate], suppress_health_check=HealthCheck.all())
    @given(strategy)
    def gather(value: Any) -> None:
        found.append(value)
    gather()
    return found


def known() -> list[Case]:
    """The document's forms, and files at the bounds of the rules and one beyond."""
    right, table = lines(*RIGHT), TEXTS["bounds"]
    files = [right + b"\n" * (length - len(right)) for length in (32767, 32768, 32769)] + [file_of(form) for form in table["files"]]
    files += [right.replace(old.encode(), new.encode()) for old, new in table["changed"]]
    forms = [Case(name, 0, data) for name, listed in FORMS.items() for data in listed]
    dear = [Case("bounds", 5, lines(*map(",".join, right_rows(5, units)))) for units in table["units"]]
    return [*forms, *dear, *(Case("bounds", 0, data) for data in files)]


def lot_of(kind: int) -> dict[str, Any]:
    items = [{"id": item, "title": "x", "quantity": quantity} for item, quantity in KINDS[kind]]
    return {"id": f"K{kind}", "title": "x", "line": "1000", "estimate": 1, "security": 0, "items": items}


def tool(change: tuple[str, str] = ("", "")) -> types.ModuleType:
    """tools/check_tender as a module, with a text in it changed."""
    source = Path(TOOL).read_text(encoding="utf-8")
    assert not change[0] or source.count(change[0]) == 1
    module = types.ModuleType("check_tender")
    exec(compile(source.replace(*change), TOOL, "exec"), module.__dict__)
    return module


class Reader:
    """`procure read-tender`, for lots of the kinds."""

    def __init__(self, program: str, folder: str) -> None:
        self.program, self.places = program, [Path(folder, f"items-{kind}.json") for kind in range(len(KINDS))]
        for kind, place in enumerate(self.places):
            place.write_text(json.dumps(lot_of(kind)))

    @functools.lru_cache(maxsize=None)
    def read(self, kind: int, data: bytes) -> tuple[str, str | None]:
        """The reading of a file in the words of the minutes, and the digest, if there is one."""
        done = subprocess.run([self.program, "read-tender", self.places[kind], "/dev/stdin"], input=data, capture_output=True)
        told = json.loads(done.stdout)
        word = str(told.get("reading", "not taken"))
        assert (done.returncode, done.stderr) == ((0, b"") if word == "priced" else (1, b"procure: input\n"))
        assert word != "not taken" or (told["name"], told["what"]) == ("BadBody", "body")
        return " ".join([word, *(str(told[it]) for it in ("stated", "corrected", "corrections") if word == "priced")]), told.get("digest")

    def words(self, kind: int, data: bytes) -> str:
        return self.read(kind, data)[0]
