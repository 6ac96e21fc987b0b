"""Publishing costs in proportion to the text of the stored merge: the instructions of one more publication for each byte of the merge.

A notice is published into a new file. Python's sqlite3 then writes 225 payments into the stored merge of its releases, so that it has about 38 kB. (No commands
lead to such an office; only its cost matters here.) Deadline moves are served under valgrind, which counts the program's instructions, over the long merge and
over the one that the program made. The difference, divided by the additional bytes of the long merge, is the cost of the merge, with reading and writing its
row. It must be at most MOST instructions a byte. For a long merge with a sign in it the program uses a tree: its cost must be above MOST.

Counts of instructions don't depend on other work of the machine.
"""
import contextlib
import json
import re
import shutil
import sqlite3
import subprocess

import pytest

from office_kit.client import Client, Port, budget, lot, notice
from office_kit.store.files import wrong
from office_kit.store.served import server

pytestmark = pytest.mark.needs("valgrind")
# Seconds to wait for a server under valgrind.
PATIENCE = 300
AMENDMENTS, PAYMENTS, MOST = 5, 225, 75
VALGRIND = 'exec valgrind --tool=cachegrind --cache-sim=no --cachegrind-out-file=/dev/null PROGRAM "$@"'


def with_payments(text, amount):
    """The text of a merge with a contract and its payments, of which the first has this amount."""
    payment = {"date": "2026-04-01T09:00:00Z", "payee": {"id": "T-acme", "name": "Acme"}, "payer": {"id": "B-city", "name": "City Office"}}
    paid = [{**payment, "id": f"P{number}", "value": {"amount": 12 if number else amount, "currency": "EUR"}} for number in range(PAYMENTS)]
    contract = {"awardID": "A1", "id": "C1", "implementation": {"transactions": paid}, "status": "active", "value": {"amount": 600, "currency": "EUR"}}
    return json.dumps({**json.loads(text), "contracts": [contract]}, separators=(",", ":"), sort_keys=True)


class Merges:
    """A program over copies of a file in which a notice is published."""

    def __init__(self, program, folder):
        self.counting, self.file = wrong(folder, VALGRIND, program), folder / "office.db"
        with server(program, self.file, 2) as (process, port):
            office = Client(Port(port))
            office.import_budget("B1", budget("1000,add,100000,Roads"))
            office.publish("N1", notice("2099-03-01T12:00:00Z", lot()))
            assert process.wait(PATIENCE) == 0
        self.least, self.few = self.cost()

    def cost(self, amount=None):
        """The instructions of amendments over a copy of the file, and the bytes of the merge; with payments in it, if the first one's amount is given."""
        path = shutil.copy(self.file, f"{self.file}.copy")
        with contextlib.closing(sqlite3.connect(path)) as base, base:
            (text,), = base.execute("SELECT text FROM compiled")
            if amount is not None:
                text = with_payments(text, amount)
                base.execute("UPDATE compiled SET text = ?", (text,))
        with server(self.counting, path, AMENDMENTS, stderr=subprocess.PIPE, text=True) as (process, port):
            for turn in range(AMENDMENTS):
                Client(Port(port, PATIENCE)).amend_notice("N1", f"2099-04-01T12:00:{turn:02}Z")
            _, said = process.communicate(timeout=PATIENCE)
        assert process.returncode == 0, said
        count = re.search(r"I +refs: +([\d,]+)", said)
        return int(count[1].replace(",", "")), len(text.encode())

    def rate(self, amount):
        count, size = self.cost(amount)
        rate = (count - self.least) / AMENDMENTS / (size - self.few)
        print(f"a merge of {size} bytes: {rate:.1f} instructions a byte")
        return rate


@pytest.fixture(scope="module")
def merges(plain_program, tmp_path_factory):
    return Merges(plain_program, tmp_path_factory.mktemp("merges"))


def test_kept_merge(merges):
    assert merges.rate(12) <= MOST


def test_merge_by_a_tree(merges):
    """(A number below 0 makes the program read the text into a tree.)"""
    assert merges.rate(-12) > MOST
