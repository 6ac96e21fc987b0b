"""`tools/audit` finds nothing wrong in an office that the program made, and each fault that is planted.

The office has eight notices (office_kit/store/life.py). Each fault (planted_faults.py and planted_lines.py there) is planted alone in a copy of the file, of
the answers or of the log. The rule named beside it must find it, on the row named beside it. Each rule of `tools/audit --rules` must find a fault. The file
alone must not expose a forgery; each witness named beside it must, and no other.
"""
import contextlib
import copy
import filecmp
import glob
import gzip
import hashlib
import json
import os
import re
import runpy
import shutil
import sqlite3
import subprocess
import tempfile
from pathlib import Path

import pytest

from office_kit.audit import answers as audit_answers
from office_kit.common import CLERK, FIELDS, ROOT, copy_into, free_port
from office_kit.front.throttled import OF_OPENED, Front
from office_kit.store.earlier import first
from office_kit.store.life import AuditedLife
from office_kit.store.planted_faults import FAULTS_OF_ANSWERS, FAULTS_OF_FILES, FORGERIES, filled, plant, take_over
from office_kit.store.planted_lines import FAULTS_OF_LINES, Logged, at, text_of
from office_kit.store.served import Serving

pytestmark = pytest.mark.time
AUDIT = os.path.join(ROOT, "tools", "audit")
TOOL = runpy.run_path(AUDIT)
NOTICES = [f"N{number}" for number in range(1, 9)]
OPENED = [notice for notice in NOTICES if notice not in ("N3", "N5")]
# The witnesses, each with the arguments by which an audit gets it: the public answers, those to the clerk and tenderers, the file, and the front's log.
WITNESSES = {"earlier answers": ["--earlier", "answers"], "what was handed out": ["--earlier", "held"], "an earlier copy": ["--earlier", "whole.db"],
             "the log of the clerks": ["--front-log", "front.log"]}


class Made:
    """An office that was made in a folder, with copies of its file and answers from before the deadline, those that tenderers and the clerk have kept, and the
    log of the front."""

    def __init__(self, program, folder):
        self.folder = folder
        with Serving(program, str(folder)) as serve:
            front = Logged(serve(folder / "office.db").port)
            self.life = life = AuditedLife(front)
            life.before_the_deadline()
            copied(folder / "office.db", folder / "early.db")
            self.save_answers("early", "releases", "record", "terms")
            life.after_the_deadline()
            self.save_answers("answers", "releases", "record", "terms", *OF_OPENED)
            self.save_held()
            # (Somebody tried what the role doesn't allow.)
            front.note("/notices/N6/cancel", 403, name="dora")
        self.lines = front.lines
        (folder / "front.log").write_bytes(text_of(self.lines))
        whole(folder / "office.db", folder / "whole.db")
        self.put_in_pages()
        self.put_further()

    def save(self, name, answers):
        """Saves answers in a folder."""
        (self.folder / name).mkdir()
        for file, answer in answers.items():
            (self.folder / name / file).write_bytes(answer.body)

    def save_answers(self, name, *kinds):
        """Saves the public answers."""
        answers = {"ledger.txt": self.life.ledger(), "notices.json": self.life.notices()}
        for kind in kinds:
            for notice in OPENED if kind in OF_OPENED else NOTICES:
                answers[f"{kind}-{notice}{audit_answers.OF_NOTICES[kind]}"] = getattr(self.life, kind)(notice)
        self.save(name, answers)

    def save_held(self):
        """Saves each receipt, register, security and contract, and the evaluation of a notice with an undecided lot, as the clerk is shown it."""
        life, held = self.life, {}
        for receipt, answer in life.kept.items():
            held[f"receipt-{receipt}.json"] = answer
            if answer["security"] == receipt:
                held[f"security-{receipt}.json"] = life.security("clerk", receipt)
        held |= {f"register-{notice}.txt": life.tender_register(notice) for notice in NOTICES}
        for contract in (life.contract, life.running, life.broken):
            held[f"performance-{contract}.json"] = life.performance_security("clerk", contract)
            held[f"contract-{contract}.json"] = life.contract_seen("clerk", contract)
        self.save("held", {**held, "evaluation-N6.txt": life.evaluation("N6", "clerk")})

    def put_in_pages(self, rows=3):
        """A copy of the answers in which the list of notices has so many on a page."""
        shutil.copytree(self.folder / "answers", folder := self.folder / "paged")
        listed = json.loads((folder / "notices.json").read_bytes())["notices"]
        ends = ["", *(listed[at - 1]["notice"] for at in range(rows, len(listed), rows)), None]
        for number, (after, end) in enumerate(zip(ends, ends[1:])):
            page = {"next": end, "notices": listed[number * rows:(number + 1) * rows]}
            (folder / (f"notices-{after}.json" if after else "notices.json")).write_text(json.dumps(page, separators=(",", ":")))

    def put_further(self):
        """The log in two files, of which one is compressed, and from the first opening on; a file of version 1; two that are no office; the clerk's key."""
        folder, lines = self.folder, (self.folder / "front.log").read_bytes().splitlines(keepends=True)
        (folder / "front-1.log.gz").write_bytes(gzip.compress(b"".join(lines[:20])))
        (folder / "front-2.log").write_bytes(b"".join(lines[20:]))
        opened = next(number for number, line in enumerate(self.lines) if line["route"].endswith("/open"))
        (folder / "front-later.log").write_bytes(b"".join(lines[opened:]))
        self.opened = self.lines[opened]["moment"].replace("+00:00", "Z")
        written(folder / "first.db", first("ten")[0])
        written(folder / "empty.db", "CREATE TABLE lots (x)")
        (folder / "text.db").write_text("no database " * 1000)
        (folder / "clerk.key").write_text("".join(f"{name.decode()}: {value.decode()}\n" for name, value in zip(FIELDS, CLERK)))
        # (A copy from after the deadline, when its tenders were still sealed: the copy from before, with a later clock.)
        written(whole(folder / "early.db", folder / "behind.db"), f"UPDATE office SET moment = {self.life.deadline + 1}")

    def audit(self, *words):
        """The exit status of an audit, and its output. It mustn't write into the folder."""
        before = digests(self.folder)
        run = subprocess.run([AUDIT, *words], cwd=self.folder, stdout=subprocess.PIPE, stderr=subprocess.STDOUT, text=True)
        assert digests(self.folder) == before
        return run.returncode, run.stdout

    def found(self, *words):
        """The findings of an audit, each a rule and a row. It runs in this process, which is three times as fast."""
        with tempfile.TemporaryDirectory() as room, contextlib.chdir(self.folder):
            found, _ = TOOL["Audit"](TOOL["arguments"]([str(word) for word in words]), room).run()
        return {(rule, row) for rule, row, _ in found}

    def changed(self, path, script):
        """A copy of the file into which this is written."""
        return written(shutil.copyfile(self.folder / "whole.db", path), script)

    def folder_of(self, to, name="answers"):
        """A copy of a folder of answers."""
        return shutil.copytree(self.folder / name, to / name)


def copied(source, path):
    """A copy of a file with its log."""
    for part in glob.glob(f"{source}*"):
        shutil.copyfile(part, str(path) + part[len(str(source)):])
    return path


def whole(source, path):
    """A copy of a file with its log moved into it."""
    return written(copied(source, path), "PRAGMA journal_mode = DELETE")


def written(path, script):
    """The path of a file into which this is written."""
    base = sqlite3.connect(path)
    base.executescript("PRAGMA synchronous = OFF; " + script)
    base.close()
    return path


def digests(folder):
    return {path.name: hashlib.sha256(path.read_bytes()).hexdigest() for path in folder.iterdir() if path.is_file()}


@pytest.fixture(scope="module")
def made(program, tmp_path_factory):
    return Made(program, tmp_path_factory.mktemp("audit"))


@pytest.fixture(scope="module")
def base(made, program, tmp_path_factory):
    """The address of the office, which runs over a copy of its file: ./served.db."""
    shutil.copyfile(made.folder / "whole.db", made.folder / "served.db")
    with Serving(program, str(tmp_path_factory.mktemp("served"))) as serve:
        yield f"http://127.0.0.1:{serve(made.folder / 'served.db').port}"


def each(faults):
    """A test of each fault, by its number and its rule."""
    return pytest.mark.parametrize("fault", faults, ids=[f"{number:03}-{fault[0]}" for number, fault in enumerate(faults)])


# ---- What is sound, and what can't be read.

@pytest.mark.parametrize("status, words", [
    (0, "office.db"),
    (0, "office.db --answers answers"),
    (0, "--answers answers --complete"),
    (0, "office.db --answers paged"),
    (0, "office.db --earlier early.db --earlier early --earlier held --earlier answers"),
    (0, "office.db --answers held"),
    (0, "--answers answers --earlier early"),
    (0, "whole.db --earlier behind.db"),
    (0, "office.db --front-log front.log"),
    (0, "office.db --front-log front-1.log.gz --front-log front-2.log"),
    (1, "office.db --front-log front-later.log"),
    (0, "office.db --front-log front-later.log --front-since {opened}"),
    (0, "first.db"),
    (2, "office.db --front-log nothing.log"),
    (2, "--answers answers --front-log front.log"),
    (2, "nothing.db"),
    (2, "text.db"),
    (2, "empty.db"),
    (2, "office.db --answers ."),
    (2, "--base http://127.0.0.1:{port} --notice N1"),
    (2, ""),
    (0, "served.db --base {base}"),
    (0, "served.db --base {base} --key clerk.key"),
    (0, "--base {base} --complete"),
    (0, "--base {base} --notice N1 --notice N4"),
])
def test_ends(made, base, status, words):
    got, said = made.audit(*words.format(opened=made.opened, port=free_port(), base=base).split())
    assert got == status, said


def test_who_gave_each_command(made, tmp_path):
    subprocess.run([AUDIT, made.folder / "office.db", "--front-log", made.folder / "front.log", "--who", tmp_path / "who"], check=True, capture_output=True)
    rows = [row.split("\t") for row in (tmp_path / "who").read_text(encoding="utf-8").splitlines()]
    due = [[it["name"], it["route"], hashlib.sha256(it["body"].encode()).hexdigest()] for it in made.lines if it["status"] == 200]
    assert [row[1:4] for row in rows] == due
    assert all(len(row) == 5 for row in rows)


# ---- Faults.

@each(FAULTS_OF_FILES)
def test_fault_of_the_file(made, tmp_path, fault):
    rule, row, script, words = filled(fault, made.life)
    assert (rule, row) in made.found(made.changed(tmp_path / "fault.db", script), *words.split())


@each(FAULTS_OF_ANSWERS)
def test_fault_of_answers(made, tmp_path, fault):
    rule, row, further, change, *given = filled(fault, made.life)
    change(answers := made.folder_of(tmp_path), *given)
    assert (rule, row) in made.found("--answers", answers, *further.split())


@each(FAULTS_OF_LINES)
def test_fault_of_the_log(made, tmp_path, fault):
    rule, row, change, *given = filled(fault, made.life)
    change(lines := copy.deepcopy(made.lines), *given)
    (tmp_path / "front.log").write_bytes(text_of(lines))
    assert (rule, placed(row, lines)) in made.found("whole.db", "--front-log", tmp_path / "front.log")


def placed(row, lines):
    """A row, with the place of the last line of a route in place of the route."""
    return f"front {at(lines, row[6:]) + 1}" if row.startswith("front ") else row


@pytest.mark.parametrize("contract, member, value", [("running", "paid", 90), ("running", "entries", []), ("broken", "how", "regular")])
def test_fault_of_a_contract(made, tmp_path, contract, member, value):
    """In a contract that the clerk is shown now, or was earlier."""
    number = getattr(made.life, contract)
    plant(held := made.folder_of(tmp_path, "held"), lambda shown: shown.update({member: value}), f"contract-{number}.json")
    assert ("contracts_are_of_the_rows", f"contracts {number}") in made.found("whole.db", "--answers", held)
    if contract == "broken":
        assert ("contracts_are_as_shown", f"contracts {number}") in made.found("whole.db", "--earlier", held)


def test_an_earlier_record(made, tmp_path):
    take_over(answers := made.folder_of(tmp_path))
    assert ("saved_records_are_merges", "notices N1") in made.found("whole.db", "--earlier", answers)


def test_ledgers_of_days(made, tmp_path):
    """An appropriation that was raised without a budget file: after the ledger of a day, and between those of two days."""
    (days := made.folder_of(tmp_path) / "ledgers").mkdir()
    ledger = (days.parent / "ledger.txt").read_text()
    for day in ("2037-01-05", "2037-01-07"):
        (days / f"{day}.txt").write_text(ledger)
    assert made.found("whole.db", "--earlier", days.parent) == set()
    raised = made.changed(tmp_path / "raised.db", "UPDATE lines SET appropriation = appropriation + 50000, free = free + 50000 WHERE line = '2000'")
    fault = ("appropriations_of_days_come_from_batches", "lines 2000")
    assert fault in made.found(raised, "--earlier", days.parent)
    lines = [line.split("\t") for line in ledger.split("\n")]
    changed = [[line[0], str(int(line[1]) + 50_000), *line[2:]] if line[0] == "2000" else line for line in lines]
    (days / "2037-01-06.txt").write_text("\n".join(map("\t".join, changed)))
    assert fault in made.found("whole.db", "--earlier", days.parent)


def test_fault_of_a_served_office(made, serving, tmp_path):
    """A compiled release that isn't the merge is found from the outside, if it is of its notice. The office shows no other notice's."""
    script = "UPDATE compiled SET text = replace(text, 'Kerbs', 'Curbs') WHERE notice = 'N1'"
    office = serving(made.changed(tmp_path / "office.db", script))
    assert ("compiled_is_the_merge", "notices N1") in made.found("--base", f"http://127.0.0.1:{office.port}", "--notice", "N1")


@pytest.mark.parametrize("forgery", FORGERIES, ids=[it[0].replace(" ", "_") for it in FORGERIES])
def test_forgery(made, tmp_path, forgery):
    _, script, *found_by = filled(forgery, made.life)
    path = made.changed(tmp_path / "forgery.db", script)
    assert made.found(path) == set()
    for witness, words in WITNESSES.items():
        found, due = made.found(path, *words), {(rule, placed(row, made.lines)) for name, rule, row in found_by if name == witness}
        assert found >= due, f"by {witness}"
        assert bool(found) == bool(due), f"by {witness}"


def test_table_of_forgeries():
    """The table of docs/AUDITOR.md names the witnesses that expose each forgery."""
    text = Path(ROOT, "docs", "AUDITOR.md").read_text(encoding="utf-8")
    (table,) = re.findall(r"\| Forged, .*\n\|[-|]*\n((?:\|.*\n)*)", text)
    told = [[cell.strip() for cell in line.split("|")[1:-1]] for line in table.splitlines()]
    assert told == [[what, *("yes" if name in {it[0] for it in found_by} else "" for name in WITNESSES)] for what, _, *found_by in FORGERIES]


def test_each_rule_finds_a_fault():
    """(The others are planted by tests of their own.)"""
    rules = {line.split(":")[0] for line in subprocess.run([AUDIT, "--rules"], capture_output=True, text=True, check=True).stdout.splitlines()}
    planted = {fault[0] for fault in FAULTS_OF_FILES + FAULTS_OF_ANSWERS + FAULTS_OF_LINES}
    planted |= {rule for _, _, *found_by in FORGERIES for _, rule, _ in found_by}
    own = "".join(path.read_text(encoding="utf-8") for path in Path(__file__).parent.glob("*.py"))
    assert {rule for rule in rules - planted if f'("{rule}", ' not in own} == set()


# ---- Fronts that are asked too often.

@pytest.mark.parametrize("status, how, words", [
    (0, {"failing": 4}, "--notice N1"),
    (2, {"failing": 6}, "--notice N1"),
    (2, {"burst": 2, "wait": 100_000}, "--notice N1"),
    (0, {"copied": "N3", "burst": 600}, " ".join(f"--notice K{number}" for number in range(501))),
    (0, {"old": (70, 50)}, "--notice N1"),
], ids=["fails_four_times", "fails_six_times", "asks_for_tomorrow", "lets_600_through_a_second", "keeps_the_ledger"])
def test_busy_front(made, status, how, words):
    with Front(str(made.folder / "answers"), **how) as front:
        got, said = made.audit("--base", front.address, *words.split())
    assert got == status, said
    if "copied" in how:
        assert front.refused >= 2 and not front.hasty
    if "old" in how:
        assert front.ledgers == 3, "it asks until the ledger is of now"


def test_list_in_pages(made, tmp_path):
    with Front(str(paged := made.folder_of(tmp_path, "paged"))) as front:
        assert made.audit("--base", front.address, "--complete")[0] == 0
        (paged / "notices-N6.json").unlink()
        assert made.audit("--base", front.address, "--complete")[0] == 2
    with Front(str(made.folder / "held")) as front:
        assert made.audit("--base", front.address)[0] == 2, "it has no list, and no notice is named"


def test_notice_that_isn_t_answered(made):
    with Front(str(made.folder / "answers"), lacking="N5") as front:
        assert ("kept_notices_are_answered", "notices N5") in made.found("office.db", "--base", front.address)


@pytest.mark.parametrize("text, due", [("7", 7), (" 0 ", 0), ("Thu, 01 Jan 1970 00:01:40 GMT", 40), ("Thu, 01 Jan 1970 00:00:10 GMT", 0), (None, 4),
                                       ("soon", 4), ("-5", 4)])
def test_retry_after(text, due):
    assert audit_answers.seconds_of(text, 2, lambda: 60) == due


@pytest.mark.needs("curl")
@pytest.mark.parametrize("waits", [True, False], ids=["waits", "hastens"])
def test_saving_loop(made, tmp_path, waits):
    """The block of docs/AUDITOR.md that saves an office's answers asks for page after page, and again if it is refused. One that doesn't wait is seen. (The
    front lets only nine requests through a second.)"""
    blocks = re.findall(r"```sh run\n(.*?)```", Path(ROOT, "docs", "AUDITOR.md").read_text(encoding="utf-8"), re.DOTALL)
    (block,) = [block for block in blocks if "\nsave() {\n" in block]
    words, answers = ["bash", "-ec", block if waits else re.sub(" --retry[a-z-]* [0-9]+", "", block)], made.folder / "paged"
    with Front(str(answers), burst=9) as front:
        run = subprocess.run(words, cwd=tmp_path, env={**os.environ, "office": front.address}, capture_output=True)
    names, saved = os.listdir(answers), tmp_path / "answers"
    same = sorted(os.listdir(saved)) == sorted([*names, "ledger-before.txt"]) and filecmp.cmpfiles(saved, answers, names, False)[1:] == ([], [])
    assert (run.returncode == 0 and same and front.refused > 0 and front.hasty == 0) == waits


# ---- The tool where a release puts it.

def test_installed(made, tmp_path):
    """It runs from elsewhere, by a link, with only its modules beside its own folder, and leaves nothing there."""
    copy_into(tmp_path, "tools/audit", "tools/office_kit.py", "office_kit/audit")
    (link := tmp_path / "procure-audit").symlink_to(tmp_path / "tools" / "audit")
    run = subprocess.run([link, made.folder / "office.db"], capture_output=True, text=True, cwd="/", env={"PATH": os.environ["PATH"]})
    assert run.returncode == 0, run.stdout + run.stderr
    assert sorted(os.listdir(tmp_path)) == ["office_kit", "procure-audit", "tools"] and not list(tmp_path.rglob("__pycache__"))
