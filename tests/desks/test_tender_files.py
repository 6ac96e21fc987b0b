"""The tenderer's desk (web/tender) reads a tender's file as `procure read-tender` does, and converts other files without changing an offer.

The files are those of test_check_tender.py, sheets that are written for known prices in many ways, and files whose meaning is unsure. `papers.js` must read the
prices that the program reads, and `faults.js` find the lines that tools/check_tender finds. `convert.js` must leave a file that the office reads as it is. A
converted file must be read by the program without a correction, and have a change to show. A refused one must have a fault at one of its lines. Each fault and
change has a sentence. In tender_files.toml are files, and rules that are changed, one at a time: these checks must find each change.
"""
import base64
import collections
from typing import NamedTuple

import pytest

from office_kit.api import tenders
from office_kit.api.tenders import KINDS, Case
from office_kit.desks import modules

pytestmark = pytest.mark.needs("node")
NAMES = "tender/papers tender/faults tender/convert"
DATA = modules.data_of("tender_files")
WANTED = {name: letters for letters, names in DATA["forms"].items() for name in names}
HEADS = {"english": [["Item", "Quantity", "Unit price", "Total"], ["Pos.", "Menge", "Einzelpreis", "Gesamtpreis"]],
         "german": [["item", "quantity", "unit", "total"], ["Item", "Quantity", "Unit price", "Total"], ["Pos.", "Menge", "Einzelpreis", "Gesamtpreis"]]}


class File(NamedTuple):
    """A file, the program's reading of it in the words of the minutes with the lines of the tool's faults, and the prices for which it was written, if any."""

    case: Case
    words: str
    lines: list
    units: list


def figure(chance, value, way):
    """A number as a sheet shows it: in groups or not, with places or not, with a currency or not."""
    point, gap = (",", chance.choice(".'\u00a0")) if way == "german" else (".", ",")
    text = chance.choice((f"{value:,}".replace(",", gap), str(value))) + chance.choice((f"{point}00", f"{point}00", ""))
    return text + chance.choice(("", "", " EUR", "\u00a0€"))


def sheet(chance):
    """A file as a sheet writes it for known prices, and these."""
    kind, way = chance.choice((0, 1, 4)), chance.choice(("german", "english"))
    items = [(item, quantity, chance.choice((0, 5, 150, 1500, 20000, 999999))) for item, quantity in KINDS[kind]]
    rows = [chance.choice(HEADS[way]), *[[item, str(many), figure(chance, unit, way), figure(chance, many * unit, way)] for item, many, unit in items]]
    rows += [[chance.choice(("TOTAL", "Summe", "Total")), "", "", figure(chance, sum(many * unit for _, many, unit in items), way)]]
    if chance.choice((True, False, False)):
        rows = [row[:1] + [title] + row[1:] for row, title in zip(rows, ["Title", *["x"] * len(items), ""])]
    sign, quoted = ";" if way == "german" else chance.choice(",;\t"), chance.choice((99, 99, 5, 1))
    text = "".join(sign.join(f'"{field}"' if sign in field or at % quoted == quoted - 1 else field for at, field in enumerate(row)) + "\r\n" for row in rows)
    return Case("sheet", kind, chance.choice((b"", tenders.MARK)) + text.encode()), [unit for *_, unit in items]


class Files:
    """All files, and the answers of the modules in a folder for some of them."""

    def __init__(self, reader, count):
        self.reader, self.tool = reader, tenders.tool()
        cases = [*tenders.known(), *tenders.samples(tenders.FILES, count), *[Case("unsure", 0, text.encode()) for text in DATA["unsure"]["files"]],
                 *[Case("firm", kind, text.encode()) for kind, text, _ in DATA["firms"]["files"]]]
        sheets = tenders.samples(tenders.CHANCE.map(sheet), 200)
        self.all = [self.read(case, []) for case in cases] + [self.read(*it) for it in sheets]
        # (Most of the made files are left out when rules are changed, since reading them takes long.)
        self.few = [file for at, file in enumerate(self.all) if file.case.source not in ("changed", "right") or at % 4 == 0]

    def read(self, case, units):
        words, items = self.reader.words(case.kind, case.data), [self.tool.Item(item, quantity, "x") for item, quantity in KINDS[case.kind]]
        faults = [] if words.startswith("priced") else self.tool.faults_of(case.data, items, self.tool.reading_of(case.data, items))
        return File(case, words, sorted(fault.line for fault in faults), units)

    def answers(self, web, files):
        """Each file with the answer of the modules in this folder."""
        with modules.Node("tender_files", NAMES, web) as node:
            return [(it, node.ask("whatBecomesOf", tenders.lot_of(it.case.kind)["items"], base64.b64encode(it.case.data).decode())) for it in files]

    def check(self, file, told):
        """The desk reads the file as the program and finds the tool's faults; it leaves, converts or refuses it as it must."""
        case = file.case
        assert (told["words"], sorted(told["lines"])) == (file.words, file.lines), case
        assert (told["kind"] == "as it is") == file.words.startswith("priced") and told["kind"] != "thrown", case
        made = base64.b64decode(told["made"])
        if told["kind"] == "refused":
            most = len(case.data.replace(b"\r\n", b"\n").replace(b"\r", b"\n").split(b"\n")) + 2
            assert told["faults"] and all(1 <= line <= most for line, _ in told["faults"]), case
        elif told["kind"] == "as it is":
            assert made == case.data
        else:
            word, stated, corrected = (self.reader.words(case.kind, made) + "  ").split(" ")[:3]
            assert word == "priced" and stated == corrected and told["changes"], case
            assert file.units in ([], units_of(made)), case
            assert tells_changes(case.data, made, {name for _, name in told["changes"]}), case


def units_of(made):
    return [int(line.split(",")[2]) for line in made.decode().split("\n")[1:-2]]


def tells_changes(data, made, names):
    """Whether the names of the changes have one for the order and one for figures, if these differ in a converted file."""
    old, new = ([line.split(",") for line in it.decode("latin-1").replace('"', "").splitlines() if line] for it in (data, made))
    if old == new:
        return True
    if sorted(map(tuple, old)) == sorted(map(tuple, new)):
        return "order" in names
    is_same = len(old) == len(new) and all(len(row) == 4 for row in old)
    others = is_same and any(row[0] == other[0] and row[1:] != other[1:] for row, other in zip(old[1:], new[1:]))
    return not others or bool(names & {"figure", "filled", "sum", "product", "sumCleared"})


@pytest.fixture(scope="module", params=[500, pytest.param(5000, marks=[pytest.mark.long])])
def files(program, tmp_path_factory, request):
    return Files(tenders.Reader(program, str(tmp_path_factory.mktemp("items"))), request.param)


@pytest.fixture(scope="module")
def told(files):
    """The answers of the modules as they are."""
    return files.answers(modules.WEB, files.all)


def test_files(files, told):
    for answer in told:
        files.check(*answer)


@pytest.mark.parametrize("name", tenders.FORMS)
def test_form(told, name):
    """The files of a form are left, converted or refused as they must be."""
    assert "".join(it["kind"][0] for file, it in told if file.case.source == name) == WANTED[name]


def test_unsure_files(told):
    assert [file.case.data for file, it in told if file.case.source == "unsure" and it["kind"] != "refused"] == []


def test_files_of_firms(told):
    """From each file of a firm these prices are made, or it is refused with these faults."""
    for (_, text, wanted), it in zip(DATA["firms"]["files"], (it for file, it in told if file.case.source == "firm"), strict=True):
        assert (units_of(base64.b64decode(it["made"])) or sorted(it["faults"])) == wanted, text


def test_sheets(told):
    """A third of the sheets or more are converted."""
    kinds = collections.Counter(it["kind"] for file, it in told if file.units)
    assert kinds["converted"] >= sum(kinds.values()) // 3, kinds


def test_texts(told):
    """Each fault and change that came has a sentence. (test_page_rules.py compares the languages.)"""
    came = {f"{kind}.{name}" for _, it in told for kind in ("fault", "change") for _, name in it[kind + "s"]}
    with modules.Node("tender_files", NAMES) as node:
        assert came <= set(node.ask("async () => Object.keys((await import(`${web}/tender/en.js`)).default)"))


@pytest.mark.parametrize("change", DATA["changed"].values(), ids=DATA["changed"])
def test_changed_rule(files, tmp_path, change):
    told = files.answers(modules.copy_of(str(tmp_path), change), files.few)
    with pytest.raises(AssertionError):
        test_files(files, told)
        for name in WANTED:
            test_form(told, name)
        test_unsure_files(told)
        test_files_of_firms(told)
