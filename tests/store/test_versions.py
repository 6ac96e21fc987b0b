"""Files of earlier programs open to their own content, in version 2. Files that can't, or that are no version 2 as they claim, are refused and stay unchanged.

The files are those of crates/tests_of_stores. A program of version 1 made them, as `sqlite3 .dump` printed them, with the ledgers that it showed. `running` has
one contract, raised and paid in part; version_1.db.xz is its file as the program itself left it. `ten` has ten notices: receiving, cancelled, past their
deadline, opened, awarded, signed, ended; four of them have tenders that were withdrawn late. An older file has no table of late withdrawals. Some have tables
of other software beside them (beside.sql).

Each row of each table is unchanged, except for notices: they are in `notices_2`, with no performance security required. Queries are answered as tools/audit
computes it from the rows.
"""
import lzma
import os
import subprocess
import time

import pytest

from office_kit.audit import looks as audit_looks
from office_kit.audit.office import Office
from office_kit.client import Client, Port, data_of
from office_kit.common import ROOT
from office_kit.store import pages
from office_kit.store.earlier import first, in_version_2, made, statements_in, texts_of
from office_kit.store.files import REFUSED, VERSION_1, dump, ledger_of, printed, rows_of, sqlite, told
from office_kit.store.life import Life, key_of, offer, part
from office_kit.store.served import Serving

pytestmark = [pytest.mark.needs("sqlite3"), pytest.mark.time]
# Tables of others, and obstacles to version 2.
BESIDE = statements_in("beside.sql")
OTHERS, *IN_THE_WAY = BESIDE


def earliest(more=""):
    """The statements that make the file from before late withdrawals, and its ledger."""
    texts = texts_of("earlier_file.rt")
    return texts["EARLIER_TABLES"] + texts["EARLIER_ROWS"] + texts["EARLIER_LOTS"] + more, texts["EARLIER_LEDGER"]


# The files: the statements that make each, and its ledger.
KEPT = {
    "before late withdrawals": earliest(),
    "before late withdrawals, beside tables of others": earliest(BESIDE[OTHERS]),
    "running": first("running"),
    "ten": first("ten"),
}


def try_looks(program, path):
    """The list of notices, and the terms and evaluation of each, are answered and printed as tools/audit makes them of the rows."""
    folder = os.path.dirname(path)
    audited = Office(path, folder)
    notices, rows = audited.notices(), audit_looks.listed_of(audited)
    evaluations = {it: audit_looks.evaluation_of(audited, it) for it in notices}
    with Serving(program, folder) as serve:
        looks = Client(Port(serve(path, stdout=subprocess.DEVNULL).port, strict=False), key_of)
        assert looks.notices().value() == {"next": None, "notices": [rows[it] for it in notices]}
        for notice in notices:
            assert looks.terms(notice).value() == audit_looks.terms_of(audited, notice)
            answer = looks.evaluation(notice)
            assert (answer.body.decode() if answer.status == 200 else answer["name"]) == (evaluations[notice] or "NotOpened")
    columns = ("notice", "state", "published", "deadline", "opened", "amendments", "releases", "title")
    lines = [["-" if rows[it][name] is None else str(rows[it][name]) for name in columns] for it in notices]
    assert printed(program, path, "notices").stdout == "".join("\t".join(line) + "\n" for line in lines)
    for notice, text in evaluations.items():
        assert told(printed(program, path, "evaluation", notice)) == ((0, text, "") if text else (1, "", "procure: NotOpened\n"))


def try_opened(program, path, ledger, size):
    """A file is opened twice. The first time a line says that it was migrated. Then it is queried."""
    later = in_version_2(rows_of(path))
    for line in (f"procure: an office of version 1 in {path} was migrated to version 2\n", ""):
        assert told(printed(program, path)) == (0, ledger, line)
        assert rows_of(path) == later
    try_looks(program, path)
    pages.check_size(path, size)


@pytest.mark.parametrize("name", KEPT)
def test_opened(program, name, size, tmp_path):
    statements, ledger = KEPT[name]
    try_opened(program, made(tmp_path / "office.db", statements, size), ledger, size)


def test_opened_as_the_program_left_it(program, tmp_path):
    path = tmp_path / "office.db"
    path.write_bytes(lzma.decompress((VERSION_1 / "version_1.db.xz").read_bytes()))
    try_opened(program, str(path), first("running")[1], pages.FORMER)


class Migrated(Life):
    """The office `running`, in version 2: a contract of 750 of which 300 are paid, and nothing else."""

    def __init__(self, port):
        super().__init__(Port(port))
        self.looks = Client(Port(port, strict=False), key_of)

    def has_line(self, **pots):
        shown = {"appropriation": 1000, "contracted": 0, "free": 0, "line": "1000", "paid": 0, "reserved": 0, "title": "Roads", **pots}
        assert self.looks.line("1000").body == data_of(shown)

    def has_security(self, contract, who, status, body):
        answer = self.looks.performance_security(who, contract)
        assert (answer.status, answer.body) == (status, data_of(body))

    def has_looks(self):
        """The notice as it is shown in the list, in its terms, in its evaluation and with its contract."""
        terms, seen = self.looks.terms("N1"), self.looks.contract_seen("T1", 1)
        assert [terms[name] for name in ("late_withdrawal", "performance", "price_weight", "state")] == ["refused", 0, None, "opened"]
        assert terms["lots"][0]["items"] == [{"id": "I1", "quantity": 1, "title": "Paving"}]
        assert [(it["notice"], it["releases"], it["state"]) for it in self.looks.notices()["notices"]] == [("N1", 6, "opened")]
        lines = self.looks.evaluation("N1").body.decode().split("\n")
        assert (lines[:2], lines[-3:]) == (["EVALUATION\tN1", "lot\tL1\tcontracted"], ["award\t1\t1\t700\tsigned", "END", ""])
        assert [seen[name] for name in ("how", "outstanding", "paid", "released", "signed")] == [None, 450, 300, 0, 700]

    def settle(self):
        self.has_line(free=250, contracted=450, paid=300)
        self.has_looks()
        for who in ("clerk", "T1"):
            self.has_security(1, who, 404, {"name": "NoSuch", "refusal": 9, "what": "security"})
        ended = self.end(1)
        assert (ended["contract"], ended["outstanding"], ended["release"]) == (1, 0, 7)
        self.has_line(free=700, paid=300)

    def begin(self):
        """Publishes another notice, makes a contract of it, and ends that."""
        self.announce("N2", self.deadline, part("L1", "1000", 500, 0), performance=70)
        self.submit("A", "T1", "N2", "L1", offer(20, 30))
        self.wait()
        self.open("N2")
        self.judge("A")
        contract = self.contract_of(self.award_of("N2", "L1"), security=70)
        held = {"amount": 70, "contract": 2, "reference": "P2", "state": "held", "tenderer": "T1"}
        self.has_security(contract, "T1", 200, held)
        self.end(contract, "default")
        self.has_security(contract, "clerk", 200, {**held, "state": "forfeited"})


def test_served(program, size, tmp_path):
    """The office of a running contract is served. Its contract is ended, and another procurement is done, with a security. The audit finds nothing."""
    path = made(tmp_path / "office.db", first("running")[0], size)
    (_, moment, *_), = rows_of(path)["office"]
    with Serving(program, str(tmp_path)) as serve:
        port = serve(path, stdout=subprocess.DEVNULL).port
        Migrated(port).settle()
        assert time.time() > moment, "this machine's clock is before the office's"
        Migrated(port).begin()
    assert ledger_of(program, path) == "LEDGER\nline\tappropriation\tfree\treserved\tcontracted\tpaid\n1000\t1000\t700\t0\t0\t300\n"
    rows = rows_of(path)
    assert ([row[0] for row in rows["office"]], rows["notices"], rows["performance"]) == ([2], [], [(2, "P2", 70, "forfeited")])
    assert sorted((row[0], row[-1]) for row in rows["notices_2"]) == [("N1", 0), ("N2", 70)]
    audit = subprocess.run([os.path.join(ROOT, "tools", "audit"), path], capture_output=True, text=True)
    assert audit.returncode == 0, audit.stdout + audit.stderr
    pages.check_size(path, size)


def is_refused(program, path):
    """The program refuses a file, which stays unchanged."""
    before = dump(path)
    assert told(printed(program, path)) == REFUSED
    assert dump(path) == before


@pytest.mark.parametrize("what", IN_THE_WAY)
def test_refused(program, what, size, tmp_path):
    is_refused(program, made(tmp_path / "office.db", earliest(BESIDE[what])[0], size))


@pytest.mark.parametrize("table", ["late_rules", "notices_2", "performance"])
def test_version_2_without_a_table(program, table, size, tmp_path):
    """The program doesn't make the table of a file that claims version 2."""
    path = made(tmp_path / "office.db", earliest()[0], size)
    ledger_of(program, path)
    sqlite(path, f"DROP TABLE {table};")
    is_refused(program, path)
