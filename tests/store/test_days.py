"""An office lives from day to day over one file. Each day ends by a kill in a command, and the file has the rows before the command or those after it.

Each of the sixteen commands occurs, by a clock that the test sets (office_kit/store/fault_plays.py has the life). First each server ends on its own: this gives
the rows of every table after each command, and the time that it takes. Then each is killed at a random moment between just before its command is sent and just
after its answer, and the next one continues from these files. At the end `tools/audit` finds nothing, and the ledger is that of the life without kills. Then
the life happens with another clerk's key on every other day. Faults that are planted in copies of the file are found.
"""
import contextlib
import hashlib
import os
import random
import re
import shutil
import signal
import sqlite3
import subprocess
import threading
import time
from collections import Counter, namedtuple

import pytest

from office_kit.client import COMMANDS
from office_kit.common import CLERK, CONFIG, OK, ROOT, connect, exchange, is_whole, look, made_shim, what_came
from office_kit.store import fault_plays, pages
from office_kit.store.files import ledger_of, rows_of, unlike
from office_kit.store.served import MANY, server

pytestmark = pytest.mark.needs("cc")
# The second of each day, and its request: first that of the ledger, and then one command a day.
LEDGER = look(b"/ledger")
LIFE = [(fault_plays.BEGUN, LEDGER), *((step.second, step.text) for step in fault_plays.life().steps)]
DAYS = {f"{number} {text.split()[1].decode()}": number for number, (_, text) in enumerate(LIFE) if number}
# Seconds for which a server may open its file; those between the first moment of a kill and the sending; and those after the time that the command took.
LISTENS, BEFORE, AFTER = 300, 0.002, 0.002
# Seconds after the first write to the log, at most, if a kill is counted from that. (Most are far less.)
WRITING = 0.002
OTHER_KEY, BAD_KEY = b"another key", b"HTTP/1.1 401 "
OUT, IN, UNANSWERED = "out", "in", "in though no answer had come"
# A day on which nothing was killed: the seconds of its command, the rows after it, and a copy of the file.
Day = namedtuple("Day", "seconds rows copy")


class Office:
    """An office's file in a folder of its own, which a program serves on days."""

    def __init__(self, program, shim, folder, size):
        self.program, self.shim, self.folder, self.path, self.size, self.days = program, shim, folder, str(folder / "office.db"), size, []
        if not folder.exists():
            folder.mkdir()
            pages.begin(self.path, size)

    def on(self, number, count=MANY, settings=CONFIG):
        """A server of so many connections on a day, and its port. If it doesn't end on its own, it is killed."""
        clock = {"LD_PRELOAD": self.shim, "SECOND": str(LIFE[number][0])}
        return server(self.program, self.path, count, settings, env={**os.environ, **clock})

    def asked(self, number, request, settings=CONFIG, answer=OK, is_killed=False):
        """The seconds of a request, on a day that ends on its own after it, or is killed."""
        with self.on(number, MANY if is_killed else 1, settings) as (process, port):
            response, took = exchange(port, request, LISTENS)
            assert response.startswith(answer) and is_whole(response) == (answer == OK)
            assert is_killed or process.wait(LISTENS) == 0
        return took

    def killed(self, number, request, delay, by_log):
        """Whether a request was answered as a whole, on a day with a kill after so many seconds. (It is sent after the first ones of these, BEFORE.) If
        `by_log`, they are counted from the first write to the log."""
        with self.on(number) as (process, port):
            connect(port, LISTENS).close()
            killer = threading.Thread(target=self.kill_in_time, args=(process, delay, self.log() if by_log else None))
            killer.start()
            time.sleep(BEFORE)
            response = what_came(port, request)
            killer.join()
            assert process.wait() == -signal.SIGKILL, "it ended by itself"
        assert not response or OK.startswith(response[:len(OK)]), "refused"
        return is_whole(response)

    def kill_in_time(self, process, delay, log):
        """Kills a server after this many seconds; if the log as it was is given, counted from the first write to it."""
        end = time.monotonic() + LISTENS
        while log and self.log() == log and time.monotonic() < end:
            time.sleep(0.0001)
        time.sleep(delay)
        process.kill()

    def log(self):
        """The size of the log and its last change; of one that doesn't exist, two that none has."""
        with contextlib.suppress(FileNotFoundError):
            found = os.stat(self.path + "-wal")
            return found.st_size, found.st_mtime_ns
        return -1, -1

    def rows(self):
        return rows_of(self.path, schema=True)


def what_is_left(before, after, found, answered):
    """Whether a command is out or in, by the rows before it, the rows after it, and the rows found."""
    if found == after:
        return IN if answered else UNANSWERED
    assert found == before, f"in part: not as before the command {unlike(found, before)}, and not as after it {unlike(found, after)}"
    assert not answered, f"answered, and not there: {unlike(found, after)}"
    return OUT


# ---- The life without kills.

@pytest.fixture(scope="module", params=[pages.NEW, pytest.param(pages.FORMER, marks=pytest.mark.long)])
def whole(request, program, tmp_path_factory):
    """An office that was served on all days, with these."""
    folder = tmp_path_factory.mktemp("days")
    office = Office(program, made_shim("store/clock.c", str(folder)), folder / "whole", request.param)
    for number, (_, text) in enumerate(LIFE):
        seconds = office.asked(number, text)
        office.days.append(Day(seconds, office.rows(), shutil.copy(office.path, folder / f"day-{number}.db")))
    return office


def test_each_command_is_in_the_life():
    """(A command is known by the first part of its path and the last one.)"""
    kinds = {re.match(rb"POST /(\w+)/\w+(?:/lots/\w+)?/?(\w*)", text).groups() for _, text in LIFE[1:]}
    assert len(kinds) == len(COMMANDS)


def take_back(path, before, tables):
    """Gives tables of a file the rows that they had before."""
    with contextlib.closing(sqlite3.connect(path)) as base, base:
        for table in tables:
            base.execute(f"DELETE FROM {table}")
            for row in before[table]:
                base.execute(f"INSERT INTO {table} VALUES ({', '.join('?' * len(row))})", row)


@pytest.mark.parametrize("name", DAYS)
def test_planted(whole, name, tmp_path):
    """After a command only one table's rows are taken back, for each that it changed: it is then stored in part. If all are, an answered command is lost."""
    before, after = (day.rows for day in whole.days[DAYS[name] - 1:DAYS[name] + 1])
    changed = unlike(before, after)
    assert len(changed) > 1, "it can't be in by a half"
    for tables, answered, said in [*(([table], False, "in part") for table in changed), (changed, True, "answered, and not there")]:
        path = shutil.copy(whole.days[DAYS[name]].copy, tmp_path / "office.db")
        take_back(path, before, tables)
        with pytest.raises(AssertionError, match=said):
            what_is_left(before, after, rows_of(str(path), schema=True), answered)


def test_planted_page(whole, tmp_path):
    """The second page of the file is overwritten."""
    path = shutil.copy(whole.days[-1].copy, tmp_path / "office.db")
    with open(path, "r+b") as file:
        file.seek(whole.size)
        file.write(b"\xa5" * whole.size)
    with pytest.raises((AssertionError, sqlite3.DatabaseError), match="integrity_check|malformed"):
        rows_of(str(path))


# ---- The life with kills.

class Moments:
    """The moments of the kills in one command, in seconds. A third of them, with the only one of a single round, are spread over the time that it takes, and a
    little more. On a busy machine that time says little. So a third lies between the last moment that left the command out so far and the first one after its
    answer. Another third is counted from the first write to the log."""

    def __init__(self, seconds, rounds):
        self.longest, self.rounds = BEFORE + 1.25 * seconds + AFTER, rounds
        self.out, self.answered = 0.0, self.longest

    def choose(self, turn):
        """A moment, and whether it is counted by the log."""
        if turn % 3 == 1:
            return WRITING * random.random() ** 4, True
        if turn % 3 == 2:
            return random.uniform(*sorted((self.out, self.answered))), False
        return self.longest * (turn + random.random()) / self.rounds, False

    def learn(self, delay, found):
        if found == OUT:
            self.out = max(self.out, delay)
        if found == IN:
            self.answered = min(self.answered, delay)


def kill_in(office, whole, number, moments, turn):
    """Kills in a command, and serves again. Returns the state that the kill left."""
    before, after = (day.rows for day in whole.days[number - 1:number + 1])
    request, (delay, by_log) = LIFE[number][1], moments.choose(turn)
    answered = office.killed(number, request, delay, by_log)
    found = what_is_left(before, after, office.rows(), answered)
    if not by_log:
        moments.learn(delay, found)
    office.asked(number, request if found == OUT else LEDGER, is_killed=True)
    assert office.rows() == after
    return found


def test_killed(whole, tmp_path, seed, is_long):
    """With more than one kill in each command all but the last are over copies, as the files were before it."""
    random.seed(seed)
    rounds, office, counts = 20 if is_long else 1, Office(whole.program, whole.shim, tmp_path / "killed", whole.size), Counter()
    office.asked(0, LEDGER, is_killed=True)
    assert office.rows() == whole.days[0].rows
    for number in DAYS.values():
        moments = Moments(whole.days[number].seconds, rounds)
        for turn in range(1, rounds):
            copy = shutil.copytree(office.folder, tmp_path / f"{number}-{turn}")
            counts[kill_in(Office(whole.program, whole.shim, copy, whole.size), whole, number, moments, turn)] += 1
            shutil.rmtree(copy)
        counts[kill_in(office, whole, number, moments, 0)] += 1
    print(counts)
    assert rounds == 1 or len(counts) == 3, "not all came that may come of a kill"
    audit = subprocess.run([os.path.join(ROOT, "tools", "audit"), office.path], capture_output=True, text=True)
    assert audit.returncode == 0, audit.stdout + audit.stderr
    assert ledger_of(office.program, office.path) == ledger_of(whole.program, whole.path)
    assert office.rows() == whole.days[-1].rows
    pages.check_size(office.path, whole.size)


# ---- The life under two keys.

def test_two_keys(whole, tmp_path):
    """The rows are those under one key. When the clerk gives a command under another one, the old key is answered 401."""
    other = tmp_path / "other.toml"
    with open(CONFIG, encoding="utf-8") as file:
        other.write_text(file.read().replace(hashlib.sha256(CLERK[1]).hexdigest(), hashlib.sha256(OTHER_KEY).hexdigest()), encoding="utf-8")
    office = Office(whole.program, whole.shim, tmp_path / "keyed", whole.size)
    office.asked(0, LEDGER)
    assert office.rows() != whole.days[-1].rows, "an office that was forgotten"
    for number, (_, text) in enumerate(LIFE[1:], 1):
        settings, key = (str(other), OTHER_KEY) if number % 2 else (CONFIG, CLERK[1])
        keyed = text.replace(b"\r\nOffice-Key: %s\r\n" % CLERK[1], b"\r\nOffice-Key: %s\r\n" % key)
        if keyed != text:
            office.asked(number, text, settings, BAD_KEY)
        office.asked(number, keyed, settings)
        assert office.rows() == whole.days[number].rows
