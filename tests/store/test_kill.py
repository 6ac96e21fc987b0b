"""`procure serve` is killed at random moments, and the file that it leaves has each answered import, and none in part.

The program starts over the file as the last kill left it. Imports are sent one after another, each of five lines of its own. At a random moment, sometimes
before the program listens, it is killed (`kill -9`). `sqlite3` opens a copy, and the program opens the file itself again and answers its ledger: both show
the same lines. Faults of such a file, and programs that are wrong, are found. (test_formats.py kills a program that migrates a file.)
"""
import contextlib
import copy
import os
import random
import re
import sqlite3
import threading
import time

import pytest

from office_kit.common import exchange, free_port, import_of, is_whole, look, running, serve_words, timed_exchange, what_came
from office_kit.store import pages
from office_kit.store.files import EMPTY, copied, rows_of, sqlite, wrong
from office_kit.store.served import MANY, server

pytestmark = pytest.mark.needs("sqlite3")
LINES, LISTENS = 5, 60
# The kills over one file, and the most seconds before a kill.
EACH_FILE, LONGEST = 10, 0.4


def import_request(batch):
    return import_of(batch.encode(), [f"{batch}-{line},add,{line + 1},Roads".encode() for line in range(LINES)])


class File:
    """An office's file, the imports that were sent to it and those that were answered with 200."""

    def __init__(self, folder, number):
        self.path, self.number, self.size = os.path.join(folder, f"office{number}.db"), number, pages.SIZES[number % len(pages.SIZES)]
        self.sent, self.answered = set(), set()
        pages.begin(self.path, self.size)

    def send(self, port, listens, stopped):
        while not stopped.is_set():
            batch, response = f"F{self.number}B{len(self.sent)}", b""
            self.sent.add(batch)
            # Nobody knows whether an import was accepted before the connection broke, so it may be sent again and then be refused.
            while not stopped.is_set() and not response:
                response = what_came(port, import_request(batch))
                time.sleep(0 if response else 0.002)
            if response:
                listens.set()
            if is_whole(response):
                self.answered.add(batch)


def kill_once(program, file):
    """In four of five times the program is killed once it listens, else perhaps before."""
    port, listens, stopped = free_port(), threading.Event(), threading.Event()
    sender, is_late = threading.Thread(target=file.send, args=(port, listens, stopped), daemon=True), random.random() < 0.8
    try:
        with running(serve_words(program, file.path, port, MANY)) as process:
            sender.start()
            assert not is_late or listens.wait(LISTENS)
            time.sleep(random.uniform(0, LONGEST if is_late else LONGEST / 4))
            assert process.poll() is None, "the program ended before it was killed"
    finally:
        stopped.set()
        sender.join()


def found_by_sqlite(file):
    """The lines that SQLite finds in a copy: those of whole imports, of all that were answered, and of none that wasn't sent."""
    if not os.path.exists(file.path):
        assert not file.answered, "no file is left"
        return set()
    rows = rows_of(file.path)
    if "lines" not in rows:
        assert not file.answered, "no tables"
        return set()
    batches = {batch for batch, *_ in rows["batches"]}
    lines = {f"{line} {appropriation} {free}" for line, _, appropriation, free in rows["lines"]}
    wanted = {f"{batch}-{line} {line + 1} {line + 1}" for batch in batches for line in range(LINES)}
    assert file.answered <= batches, "it lacks imports that were answered"
    assert batches <= file.sent, "it has imports that were not sent"
    assert lines == wanted, "an import is there in part"
    return lines


def found_by_program(program, file):
    """The lines of the ledger that the program answers for the file."""
    with server(program, file.path, 1) as (process, port):
        response, _ = exchange(port, look(b"/ledger"))
        assert process.wait(LISTENS) == 0 and is_whole(response), "it isn't opened again"
    return {" ".join(row.split("\t")[:3]) for row in response.decode().partition(EMPTY)[2].splitlines()}


def judge(program, file):
    """A file that a kill left is as it must be."""
    lines = found_by_sqlite(file)
    assert found_by_program(program, file) == lines, "the program and sqlite3 tell different lines"
    pages.check_size(file.path, file.size)


def test_kills(program, tmp_path, seed, is_long):
    random.seed(seed)
    files = [File(tmp_path, number) for number in range(20 if is_long else 2)]
    for file in files:
        for _ in range(EACH_FILE):
            kill_once(program, file)
            judge(program, file)
    print(f"{sum(len(file.answered) for file in files)} imports were answered, and all are there whole")
    assert any(file.answered for file in files)


def three_imports(program, folder):
    """A file that a kill left after three imports. The last counts as one that wasn't answered."""
    file = File(folder, 0)
    with server(program, file.path) as (_, port):
        for batch in ("F0B0", "F0B1", "F0B2"):
            timed_exchange(port, import_request(batch), LISTENS)
            file.sent.add(batch)
    file.answered = file.sent - {"F0B2"}
    return file


@pytest.fixture(scope="module")
def left(program, tmp_path_factory):
    return three_imports(program, tmp_path_factory.mktemp("left"))


# Lines of an import F0B3, which wasn't sent.
NEXT = "INSERT INTO lines SELECT replace(line, 'B2', 'B3'), title, appropriation, free FROM lines WHERE line LIKE 'F0B2%';"
# The changes to a file with the imports F0B0 and F0B1, which were answered, and F0B2, which wasn't, and the words that must be said of each, if any.
PLANTED = {
    "nothing": (None, None),
    "all of an import that wasn't answered is missing": ("DELETE FROM batches WHERE batch = 'F0B2'; DELETE FROM lines WHERE line LIKE 'F0B2-%';", None),
    "a line of an answered import is missing": ("DELETE FROM lines WHERE line = 'F0B0-2';", "in part"),
    "a line of another import is missing": ("DELETE FROM lines WHERE line = 'F0B2-4';", "in part"),
    "the batch of an answered import is missing": ("DELETE FROM batches WHERE batch = 'F0B1';", "lacks"),
    "the batch of another import is missing": ("DELETE FROM batches WHERE batch = 'F0B2';", "in part"),
    "an answered import is missing": ("DELETE FROM batches WHERE batch = 'F0B1'; DELETE FROM lines WHERE line LIKE 'F0B1-%';", "lacks"),
    "the lines of an import are missing": ("DELETE FROM lines WHERE line LIKE 'F0B2-%';", "in part"),
    "a line has another sum": ("UPDATE lines SET appropriation = 7, free = 7 WHERE line = 'F0B0-0';", "in part"),
    "lines that weren't sent": (NEXT, "in part"),
    "an import that wasn't sent": (f"INSERT INTO batches SELECT 'F0B3', moment, rows FROM batches WHERE batch = 'F0B2'; {NEXT}", "not sent"),
    "no tables": ("DROP TABLE lines;", "no tables"),
    "no file": (os.remove, "no file is left"),
    "an index that no table has": ("PRAGMA writable_schema = ON; DELETE FROM sqlite_schema WHERE name = 'notices';", "orphan index"),
    "a page that no table has": ("PRAGMA writable_schema = ON; DELETE FROM sqlite_schema WHERE tbl_name = 'notices';", "integrity_check"),
    "pages of another size": (f"PRAGMA journal_mode = DELETE; PRAGMA page_size = {pages.NEW}; VACUUM;", "has pages of"),
}
# Programs that open such a file after the kill, and the words that must be said of each.
WRONG = {
    "it doesn't open the file": ("exit 1", "the program ended with status 1"),
    "it ends without an answer": ("exit 0", "the program ended with status 0"),
    "it ends with 1 behind its answer": ('PROGRAM "$@"; exit 1', "isn't opened again"),
    "it opens it without a line": ('sqlite3 "$3" "DELETE FROM lines WHERE line = \'F0B1-3\';"; exec PROGRAM "$@"', "different lines"),
}


@pytest.mark.parametrize("what", [*PLANTED, *WRONG])
def test_planted(program, left, what, tmp_path):
    """In a copy of the file."""
    change, said = {**PLANTED, **WRONG}[what]
    with copied(left.path) as path:
        twin = copy.copy(left)
        twin.path = path
        if what in WRONG:
            program = wrong(tmp_path, change, program)
        elif callable(change):
            change(path)
        elif change:
            sqlite(path, change)
        with pytest.raises((AssertionError, SystemExit, sqlite3.DatabaseError), match=re.escape(said)) if said else contextlib.nullcontext():
            judge(program, twin)


def test_wrong_program_with_another_file(program, tmp_path):
    elsewhere = wrong(tmp_path, 'exec PROGRAM serve "$2" "$3.other" "$4" "$5"', program)
    file = three_imports(elsewhere, tmp_path)
    with pytest.raises(AssertionError, match="no tables"):
        judge(program, file)
