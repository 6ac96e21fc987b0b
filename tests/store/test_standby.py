"""A first machine is lost under load, and a second one is put into service from the copies of deploy/follow. Two folders are the two machines.

Firms submit tenders and the clerk imports, while `procure-follow` copies. The server is killed and its disk is gone. `take-over` makes the file, and a server
over it answers within a minute. The rows and the server's answers have each command that was answered more than ten seconds before the kill, as its receipt
says. They have no command in part, and none that wasn't sent. Followers with planted faults are found.
"""
import contextlib
import getpass
import hashlib
import itertools
import json
import os
import random
import re
import shutil
import sqlite3
import subprocess
import sys
import tempfile
import threading
import time
from concurrent.futures import ThreadPoolExecutor
from pathlib import Path

import pytest

from office_kit.client import Client, Port, budget, lot, notice, text_of
from office_kit.common import CONFIG, HOST, ROOT, free_port, need, place_of, planted, running, stand_in
from office_kit.store.files import copied, ledger_of
from office_kit.store.served import server

pytestmark = [pytest.mark.needs("rsync"), pytest.mark.time]
SCRIPT, CHECK = (os.path.join(ROOT, "deploy", name) for name in ("follow", "check"))
FIRMS, LOTS = [f"T{number}" for number in range(1, 41)], [f"L{number}" for number in range(1, 21)]
# Seconds: which commands may be lost, how long a machine may need, and how long the load runs before the kill.
WITHIN, SERVES, LOAD = 10, 60, 16
# Commands a second of each client, and the bytes of a tender.
RATE, SIZE = 20, 30_000
# The exceptions of a client whose answer doesn't come, or comes in part.
BROKEN = OSError, SystemExit, ValueError
# A command in the place of `ssh`, which runs the first machine's command here.
NO_SSH = 'while [ "$1" != here ]; do shift; done; shift; exec sh -c "$*"'


class Trial:
    """Two machines, a folder each. It keeps the second of each answer to the load, what the receipts say, and the imports that were sent."""

    def __init__(self, program, folder):
        self.program, self.folder, self.script = program, folder, SCRIPT
        self.first, self.file, self.log = folder / "first", folder / "first" / "office.db", folder / "first" / "office.db-wal"
        self.copies, self.made = folder / "second" / "copies", folder / "second" / "office.db"
        self.good, self.newest, self.said = self.copies / "good.db", self.copies / "newest" / "office.db", folder / "said"
        self.first.mkdir()
        self.copies.mkdir(parents=True)
        self.said.touch()
        self.source, self.count, self.size, self.rate = self.file, 0, SIZE, RATE
        self.ends, self.answered, self.receipts, self.sent = threading.Event(), {}, {}, set()

    @contextlib.contextmanager
    def served(self, file=None, is_prepared=True):
        """A server that answers, over a file or the first machine's. A new file gets a notice to which firms submit, unless it isn't to be prepared."""
        file = file or self.file
        is_prepared = is_prepared and not file.exists()
        with server(self.program, file, stderr=subprocess.DEVNULL) as (process, self.port):
            self.client = Client(Port(self.port))
            self.client.ledger()
            if is_prepared:
                self.client.import_budget("B1", budget("1000,add,1000000,Roads"))
                for firm in FIRMS:
                    self.client.register(firm)
                self.client.publish("N1", notice(text_of(time.time() + 86_400), *(lot(place) for place in LOTS)))
            yield process

    @contextlib.contextmanager
    def loaded(self):
        """While this lasts, or the server, firms submit tenders and a clerk imports."""
        with ThreadPoolExecutor() as pool, contextlib.ExitStack() as stack:
            stack.callback(self.ends.set)
            works = [pool.submit(work, Client(Port(self.port, patience=0))) for work in (self.submit_all, self.import_all)]
            yield
        for work in works:
            with contextlib.suppress(*BROKEN):
                work.result()

    def submit_all(self, client):
        for place, firm in itertools.product(LOTS, FIRMS):
            tender = random.randbytes(self.size)
            told = client.present(firm, "N1", place, tender).value()
            self.answered[f"receipt {told['receipt']}"] = time.monotonic()
            self.receipts[told["receipt"]] = (firm, place, told["digest"])
            assert (told["digest"], told["state"]) == (hashlib.sha256(tender).hexdigest(), "sealed")
            if self.ends.wait(1 / self.rate):
                return

    def import_all(self, client):
        for name in (f"I{number}" for number in itertools.count()):
            self.sent.add(name)
            client.import_budget(name, budget(f"{name},add,7,Roads", "1000,add,1,Roads")).value()
            self.answered[f"import {name}"] = time.monotonic()
            if self.ends.wait(1 / self.rate):
                return

    def submit(self, size=SIZE):
        """Submits a tender, or another one in its place."""
        data = random.randbytes(size)
        told = self.client.modify("T40", self.count, data) if self.count else self.client.present("T40", "N1", "L20", data)
        self.count = told["receipt"]

    def move_logs(self, times):
        """Submits tenders until the log was begun again so often, and one more."""
        for _ in range(times):
            before = self.head()
            while self.head() == before:
                self.submit()
        self.submit(1)

    def fill_log(self):
        """Submits tenders until the log was begun again, and then so many that most of it is written, but not all. The follower has most of it then."""
        self.submit()
        self.move_logs(1)
        begun = self.count
        self.move_logs(1)
        for _ in range((self.count - begun) * 2 // 3):
            self.submit()
        self.copy()

    def head(self):
        return self.log.read_bytes()[:32]

    def words(self, kind, *places):
        return [sys.executable, self.script, kind, *places, "--program", self.program, "--config", CONFIG]

    @contextlib.contextmanager
    def followed(self, every="1"):
        """While this lasts, a follower runs. Then it is killed."""
        words = [*self.words("run", self.source, self.copies), "--every", every]
        with open(self.said, "a") as out, running(words, stdout=out, stderr=out) as process:
            yield process

    def state(self):
        return json.loads((self.copies / "state").read_text(encoding="utf-8"))

    def wait_for(self, holds):
        for _ in range(600):
            with contextlib.suppress(OSError, ValueError, KeyError):
                if holds():
                    return
            time.sleep(0.1)
        pytest.fail(f"it waits for a minute: {self.said.read_text(encoding='utf-8')}")

    def ended(self, words):
        """The status of a script, and its output."""
        ran = subprocess.run(words, stdout=subprocess.PIPE, stderr=subprocess.STDOUT, text=True)
        return ran.returncode, ran.stdout

    def once(self):
        return self.ended(self.words("once", self.source, self.copies))

    def copy(self):
        """Takes a good copy with all receipts. Whether the whole file was copied."""
        status, told = self.once()
        assert status == 0
        assert rows(self.good, "SELECT receipts FROM office") == [(self.count,)]
        return "the whole file was copied" in told

    def is_same(self):
        return self.file.read_bytes() == self.newest.read_bytes()

    def take_over(self):
        return self.ended(self.words("take-over", self.copies, self.made))

    def standby(self, *words):
        return self.ended([sys.executable, CHECK, "standby", "--standby", self.copies, *words])


@pytest.fixture
def trial(program, tmp_path):
    return Trial(program, tmp_path)


# ---- A lost machine.

def lose(trial, stopped=False):
    """Loses the first machine under load; before that, if asked, the follower. The second of the kill, the output of `take-over`, and the faults."""
    with trial.served() as office, trial.followed() as follower, trial.loaded():
        trial.wait_for(lambda: trial.state()["good"] and trial.receipts)
        if stopped:
            follower.kill()
        before = trial.head()
        time.sleep(LOAD)
        trial.wait_for(lambda: trial.head() != before or trial.size < SIZE)
        assert stopped or follower.poll() is None
        office.kill()
        office.wait()
        killed = time.monotonic()
        shutil.rmtree(trial.first)
    status, told = trial.take_over()
    return killed, told, [told] if status else list(faults_of(trial, killed))


def rows(file, query):
    with contextlib.closing(sqlite3.connect(f"file:{file}?immutable=1", uri=True)) as office:
        return office.execute(query).fetchall()


def faults_of(trial, killed):
    """The commands that are missing in the file though they were answered more than ten seconds before the kill, and the faults of its rows."""
    receipts = {number: tuple(told) for number, *told in rows(trial.made, "SELECT receipt, tenderer, lot, lower(hex(digest)) FROM envelopes")}
    sealed = {number: hashlib.sha256(data).hexdigest() for number, data in rows(trial.made, "SELECT receipt, bytes FROM seals")}
    imports = {name for name, in rows(trial.made, "SELECT batch FROM batches WHERE batch LIKE 'I%'")}
    lines = dict(rows(trial.made, "SELECT line, appropriation FROM lines"))
    kept = {f"receipt {number}" for number in receipts} | {f"import {name}" for name in imports}
    for name, answered in trial.answered.items():
        if name not in kept and answered < killed - WITHIN:
            yield f"{name} is lost, {killed - answered:.1f} seconds after its answer"
    for number, told in trial.receipts.items():
        if number in receipts and receipts[number] != told:
            yield f"receipt {number} says {told}, and the row {receipts[number]}"
    if {number: digest for number, (_, _, digest) in receipts.items()} != sealed or sorted(receipts) != list(range(1, len(receipts) + 1)):
        yield "tenders are there in part, or out of order"
    if not imports <= trial.sent or lines != {"1000": 1_000_000 + len(imports)} | dict.fromkeys(imports, 7):
        yield "imports are there in part, or weren't sent"


def test_a_lost_machine(trial):
    """The missing receipts are those above the number that `take-over` prints. A server over the file that was made answers as the others say. The office began
    its log again meanwhile, and the whole file was copied once."""
    killed, told, faults = lose(trial)
    assert not faults and "LEDGER\n" in told
    last = int(re.search(r"its last receipt the number (\d+)", told)[1])
    assert len(trial.receipts) > LOAD * RATE / 4
    assert rows(trial.made, "SELECT max(receipt) FROM envelopes") == [(last,)] and last >= min(trial.receipts)
    with trial.served(trial.made):
        client = Client(Port(trial.port, strict=False))
        assert told.endswith(client.ledger().body.decode())
        assert time.monotonic() - killed < SERVES
        for number, (firm, place, digest) in trial.receipts.items():
            answer = client.tender(firm, number)
            shown = (answer.status, answer.value().get("lot"), answer.value().get("digest"))
            assert shown == ((200, place, digest) if number <= last else (404, None, None))
    assert trial.said.read_text(encoding="utf-8").count("the whole file was copied") == 1


def test_over_ssh(trial, monkeypatch):
    """The same by a real `sshd` on this machine, with a key that may only read the office's folder (rrsync). Without `sshd`, a local command takes the place of
    `ssh`."""
    with contextlib.ExitStack() as stack:
        sshd = place_of("sshd")
        monkeypatch.setenv("RSYNC_RSH", served_by(sshd, trial, stack) if sshd else stand_in(str(trial.folder / "ssh"), NO_SSH))
        trial.source = "here:office.db" if sshd else f"here:{trial.file}"
        assert lose(trial)[-1] == []


def served_by(sshd, trial, stack):
    """Starts a server of ssh for this user, whose key may read the first machine's folder only. The command that reaches it."""
    # (The path of ssh's own socket may be no longer than 100 bytes.)
    at, port = Path(stack.enter_context(tempfile.TemporaryDirectory())), free_port()
    os.makedirs("/run/sshd", exist_ok=True)
    for name in ("host", "key"):
        subprocess.run([need("ssh-keygen", "openssh-client"), "-q", "-t", "ed25519", "-N", "", "-f", f"{at}/{name}"], check=True)
    (at / "allowed").write_text(f'restrict,command="{need("rrsync", "rsync")} -ro {trial.first}" {(at / "key.pub").read_text()}')
    (at / "config").write_text(f"Port {port}\nListenAddress {HOST}\nHostKey {at}/host\nAuthorizedKeysFile {at}/allowed\n"
                               "StrictModes no\nPidFile none\nUsePAM no\n")
    stack.enter_context(running([sshd, "-D", "-f", f"{at}/config"], stderr=subprocess.DEVNULL))
    return (f"ssh -F none -p {port} -i {at}/key -l {getpass.getuser()} -o HostName={HOST} -o StrictHostKeyChecking=no -o UserKnownHostsFile={at}/known "
            f"-o BatchMode=yes -o LogLevel=ERROR -o ControlMaster=auto -o ControlPersist=5 -o ControlPath={at}/%C")


def test_a_stopped_follower(trial):
    """`procure-check standby` reports it. The drill then finds lost commands."""
    assert any("is lost" in it for it in lose(trial, stopped=True)[-1])
    assert [trial.standby("--lag", lag)[0] for lag in ("10", "3", "600")] == [1, 2, 0]
    (trial.copies / "state").unlink()
    assert trial.standby()[0] == 2


def test_a_file_without_its_log(trial):
    """A planted follower copies the file without the log. The drill finds lost commands."""
    # (The file is an office before. The load is too slow and too small for the log to be moved into it on any machine.)
    trial.script = planted(SCRIPT, trial.folder, '        if head_of(log):\n            put(f"{room}/office.db-wal", log)', "        pass")
    with trial.served():
        trial.move_logs(1)
    trial.size, trial.rate = 100, RATE / 4
    assert any(f"receipt {trial.count + 1} is lost" in it for it in lose(trial)[-1])


# ---- Copies, one after another.

def test_half_a_copy(trial):
    """A planted follower takes half of the file. Its check finds it, good.db stays, and `take-over` makes the file of good.db. The next follower copies the
    whole file again."""
    with trial.served():
        trial.submit()
        trial.copy()
        good = trial.state()["good"]
        # (The log is begun again more than once, so that the file is copied again.)
        trial.move_logs(2)
        line = '        os.rename(place, os.path.join(folder, "office.db"))'
        trial.script = planted(SCRIPT, trial.folder, line, f"        os.truncate(place, os.path.getsize(place) // 2)\n{line}")
        status, told = trial.once()
        assert status == 1 and "isn't good" in told and trial.state()["good"] == good
        status, told = trial.standby()
        assert status == 2 and "isn't good" in told
        status, told = trial.take_over()
        assert status == 0 and "newest/office.db isn't used" in told
        assert rows(trial.made, "SELECT receipts FROM office") == [(1,)]
        trial.script = SCRIPT
        assert trial.copy() and trial.standby()[0] == 0


def test_an_earlier_office(trial):
    """An empty office in the place of the office is a fault, and good.db stays. A follower that doesn't compare moments accepts it."""
    with trial.served():
        assert trial.once()[0] == 0
    ledger = rows(trial.good, "SELECT * FROM lines")
    shutil.rmtree(trial.first)
    trial.first.mkdir()
    with trial.served(is_prepared=False):
        status, told = trial.once()
        assert status == 1 and "its last command has the moment" in told
        assert rows(trial.good, "SELECT * FROM lines") == ledger and ledger
        assert trial.standby()[0] == 2
        trial.script = planted(SCRIPT, trial.folder, "if (moment, receipts) < (had, most):", "if False:")
        assert trial.once()[0] == 0 and not rows(trial.good, "SELECT * FROM lines")


def test_a_followed_log(trial):
    """After the office began its log again, the copy's file is the office's file to the byte, without a copy of the whole file. After it did so twice between
    two steps, the follower copies the whole file. Each copy has all receipts."""
    with trial.served():
        trial.submit()
        assert trial.copy()
        for _ in range(3):
            trial.fill_log()
            before = trial.head()
            trial.submit()
            assert not trial.copy() and trial.head() == before
            trial.move_logs(1)
            assert not trial.copy()
            assert trial.is_same()
        trial.move_logs(2)
        assert trial.copy()
        assert trial.is_same()
    assert not trial.copy()
    ledger_of(trial.program, str(trial.file))
    trial.copy()
    assert trial.is_same()


def test_a_lost_log(trial):
    """The log loses its last commands, as after a power cut of the first machine. The follower copies the file again, and reports that it goes back."""
    with trial.served():
        for _ in range(3):
            trial.submit()
        log = trial.log.read_bytes()
        trial.submit()
        trial.copy()
    good = trial.state()["good"]
    trial.log.write_bytes(log)
    status, told = trial.once()
    assert status == 1 and "the whole file was copied" in told and "and it has 3 receipts; good.db has" in told
    assert trial.state()["good"] == good and rows(trial.good, "SELECT receipts FROM office") == [(4,)]


def test_a_forgotten_end(trial):
    """A planted follower moves the earlier log into the copy without the pages that it missed. Then the copy isn't good, or differs."""
    with trial.served():
        trial.fill_log()
        trial.script = planted(SCRIPT, trial.folder, "return earlier[:end] + later[end:] if is_next and is_kept else None", "return earlier[:end]")
        trial.move_logs(1)
        status, told = trial.once()
        assert status == 1 and "isn't good" in told or not trial.is_same()


def test_a_killed_follower(trial):
    """A follower is killed again and again. Its newest copy opens each time, with at least the receipts that it had before."""
    had = 0
    with trial.served(), trial.loaded():
        trial.wait_for(lambda: trial.receipts)
        for number in range(12):
            begun = time.time()
            with trial.followed(every="0.1"):
                # (On a busy machine some followers don't live long enough for a copy.)
                if number % 3 == 0:
                    trial.wait_for(lambda: trial.state()["taken"] > begun)
                time.sleep(random.uniform(0.2, 1.2))
            if trial.newest.exists():
                with copied(str(trial.newest)) as path:
                    ledger_of(trial.program, path)
                    (has,), = rows(path, "SELECT receipts FROM office")
                assert has >= had
                had = has
    assert had


@pytest.mark.parametrize("words", [[], ["run"], ["run", "a"], ["walk", "a", "b"], ["once", "office.db", "/absent"], ["take-over", "copies", "made"]])
def test_wrong_words(tmp_path, words):
    """Wrong arguments, a folder that doesn't exist, and a file that exists."""
    (tmp_path / "copies").mkdir()
    (tmp_path / "made").touch()
    ran = subprocess.run([sys.executable, SCRIPT, *words], cwd=tmp_path, capture_output=True, text=True)
    assert ran.returncode == 2 and ran.stdout + ran.stderr


def test_nothing_to_copy(trial):
    assert trial.take_over()[0] == 1 and not trial.made.exists()
    status, told = trial.once()
    assert status == 1 and "there is no file office.db" in told
    (trial.copies / "state").unlink()
    with trial.followed():
        trial.wait_for(lambda: "no file" in trial.state()["trouble"])
        assert trial.take_over()[0] == 2, "a folder in use is used"
