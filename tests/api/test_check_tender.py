"""`tools/check_tender` says of a tender's file what `procure read-tender` reads in it.

The files are the forms of docs/TENDERER-API.md, whose table shows the same, those at the bounds, and files that hypothesis makes. The tool gets the record or
the releases of a notice that the program published. In test_check_tender.toml are rules of the tool that are changed, one at a time: the files must show each
change.
"""
import collections
import contextlib
import io
import re
import subprocess
import tomllib
from pathlib import Path

import pytest
from hypothesis import given, settings

from office_kit.api import tenders
from office_kit.api.tenders import FORMS, HEAD, KINDS, RIGHT, lines
from office_kit.client import Blocks, Client, budget, notice
from office_kit.common import ROOT

BEFORE, DEADLINE = "2026-01-05T09:00:00Z", "2026-03-01T12:00:00Z"
CHANGED = tomllib.loads(Path(__file__).with_suffix(".toml").read_text(encoding="utf-8"))
# The tool's first line.
SAID = re.compile(r".*, for lot \S+: (?:(priced), (\d+) stated, (\d+) your price, (\d+) corrections?|(unreadable|nonconforming|not taken): .*)")


class Trial:
    """The tool, as a person runs it, with the record or the releases of a notice that has a lot of each kind."""

    def __init__(self, program, folder):
        self.folder, self.tool, self.reader = folder, tenders.tool(), tenders.Reader(program, str(folder))
        client = Client(Blocks(BEFORE))
        client.import_budget("B1", budget("1000,add,1000000,All"))
        client.publish("N1", notice(DEADLINE, *map(tenders.lot_of, range(len(KINDS)))))
        client.record("N1")
        client.releases("N1")
        self.items = [folder / "record.json", folder / "releases.json"]
        for path, answer in zip(self.items, client.transport.answers(program)[2:]):
            path.write_bytes(answer.body)

    def check(self, file):
        """The tool says what the program reads. If the tender would be lost, it gives a reason, for a line that exists."""
        (path := self.folder / "tender.csv").write_bytes(file.data)
        with contextlib.redirect_stdout(io.TextIOWrapper(io.BytesIO(), encoding="utf-8")) as out:
            status = self.tool.main([str(self.items[len(file.data) % 2]), str(path), "--lot", f"K{file.kind}"])
            out.flush()
        first, *more = out.buffer.getvalue().decode("utf-8", "replace").rstrip("\n").split("\n")
        words, digest = self.reader.read(file.kind, file.data)
        is_priced = words.startswith("priced")
        told = SAID.fullmatch(first)
        assert told and (" ".join(filter(None, told.groups())), status) == (words, 0 if is_priced else 1), file
        if is_priced:
            assert more[-1].endswith(digest), file
        else:
            places = [int(it) for line in more for group in re.findall(r"^  lines? ([\d, ]+)", line) for it in re.findall(r"\d+", group)]
            most = len(re.findall(rb"\r\n|\n|\r", file.data)) + 2
            assert places and all(1 <= it <= most for it in places), (file, more)


@pytest.fixture(scope="module")
def trial(program, tmp_path_factory):
    return Trial(program, tmp_path_factory.mktemp("tenders"))


@pytest.fixture(scope="module", params=[500, pytest.param(5000, marks=[pytest.mark.long])])
def files(request):
    """All forms, the files at the bounds, and so many that are made."""
    return [*tenders.known(), *tenders.samples(tenders.FILES, request.param)]


@settings(max_examples=500, deadline=None)
@given(file=tenders.FILES)
def test_made_file(trial, file):
    trial.check(file)


def test_all_files(trial, files):
    """Each outcome comes often."""
    for file in files:
        trial.check(file)
    counts = collections.Counter(trial.reader.words(file.kind, file.data).split(" ")[0] for file in files)
    assert all(counts[kind] >= 20 for kind in ("priced", "unreadable", "nonconforming")) and counts["not"] >= 3, counts


def words_by(tool, file):
    """The reading of a file by a tool, in the words of the minutes."""
    reading = tool.reading_of(file.data, [tool.Item(item, quantity, "x") for item, quantity in KINDS[file.kind]])
    return f"priced {reading.stated} {reading.price} {reading.corrections}" if reading.kind == "priced" else reading.kind


@pytest.mark.parametrize("old, new", CHANGED.values(), ids=CHANGED)
def test_changed_rule(trial, files, old, new):
    """A file shows the difference between the program and the tool with another rule."""
    tool = tenders.tool((old, new))
    assert any(words_by(tool, file) != trial.reader.words(file.kind, file.data) for file in files)


# ---- The table of forms in docs/TENDERER-API.md.

def table_of_forms():
    """Its rows: the form, the spans of code that show it, and the word of the minutes."""
    found = re.search(r"^\| The file has \|.*\n\|[-| ]+\|\n((?:\|.*\n)+)", Path(ROOT, "docs", "TENDERER-API.md").read_text(encoding="utf-8"), re.M)
    rows = [[cell.strip() for cell in line.strip("|").split("|")] for line in found[1].splitlines()]
    return [(row[0], re.findall(r"`([^`]+)`", row[1]), row[2].strip("`")) for row in rows]


def is_right(rows, reader):
    """Whether the rows are the forms that are tried here, with lines of them and the program's reading."""
    if [name for name, _, _ in rows] != list(FORMS):
        return False
    there = {name: re.split(r"[\r\n]+", "\n".join(data.decode("utf-8", "replace") for data in files)) for name, files in FORMS.items()}
    return all({reader.words(0, data) for data in FORMS[name]} == {outcome} and {*spans} <= {*there[name]} for name, spans, outcome in rows)


def test_table_of_forms(trial):
    assert is_right(table_of_forms(), trial.reader)


def test_wrong_table(trial):
    (name, spans, _), *more = table_of_forms()
    assert not is_right([(name, spans, "unreadable"), *more], trial.reader)


# ---- The tool as a program: the file to fill in, wrong arguments, and items that don't exist.

@pytest.mark.parametrize("words, status, part", [
    ("record.json --lot K0", 0, f"{HEAD}\nI1,3,,\nI2,10,,\nTOTAL,,,\n"), ("record.json right.csv --lot K0", 0, "priced, 570 stated"),
    ("record.json wrong.csv --lot K0", 1, "add the line TOTAL,,,570"), ("utf16.json right.csv --lot K0", 0, "priced, 570 stated"),
    ("record.json right.csv", 2, "--lot K0 or --lot K1"), ("record.json right.csv --lot L1", 2, "has no lot L1"), ("refusal.json right.csv", 2, "NoSuch"),
    ("front.json right.csv", 2, "wait a while"), ("none.json", 2, "isn't the record of a notice"), ("right.csv", 2, "isn't the record of a notice"),
    ("record.json absent.csv --lot K0", 2, "No such file"), ("", 2, "usage"), ("--help", 0, "Exit status"),
])
def test_command_line(trial, words, status, part):
    record = trial.items[0].read_text(encoding="utf-8")
    given_files = {"utf16.json": record.encode("utf-16"), "refusal.json": b'{"name":"NoSuch","refusal":9,"what":"notice"}',
                   "front.json": b'{"front":"wait a while"}', "none.json": b"{}", "right.csv": lines(*RIGHT), "wrong.csv": lines(*RIGHT[:3])}
    for name, data in given_files.items():
        (trial.folder / name).write_bytes(data)
    done = subprocess.run([tenders.TOOL, *words.split()], cwd=trial.folder, capture_output=True, text=True)
    assert done.returncode == status and part in done.stdout + done.stderr
