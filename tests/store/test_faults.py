"""The disk fails under `procure serve`, or is full. The server is started again, as a supervisor does, and no answered command is lost.

- flush: `fdatasync` or `fsync` fails with EIO, once, at its N-th call, four times for each N. The file then has everything that was written since its last good
  flush, or nothing of it, or each second write, the even ones or the odd ones.
- write: a `pwrite` fails with EIO, once, at its N-th call, and writes nothing.
- full: the disk, a small tmpfs, has space for N more pages. In one run space is made while the server runs. In a second run it is made after the server was
  restarted on the full disk.

Each run plays over a new file (office_kit/store/fault_plays.py, office_kit/store/faulty_disk.py). The fault shows when the server ends, or when a command
isn't answered with 200. The test then sends a query and the same command, to find out what the server does, and restarts it. In a copy of the files and by
the server's answers, each command that was answered with 200 is stored, and none in part; the next one may be. The play continues from there to its end. A
server whose file is shut, so that it answers 503 to everything, has ended with `procure: store` on its own.
"""
import contextlib
import os
import shutil
import socket
import subprocess
import time
from collections import Counter

import pytest

from office_kit.common import HOST, look, read_all
from office_kit.store import pages
from office_kit.store.fault_plays import PLAYS
from office_kit.store.faulty_disk import ALL, EVEN, FAILED, FLUSHES, NONE, ODD, WRITES, FaultyDisk, SmallDisk
from office_kit.store.files import REFUSED, made_line, rows_of
from office_kit.store.served import server

pytestmark = pytest.mark.needs("cc")
LISTENS, IDLE = 60, look(b"/lines/none")
# Things that a server did after a fault.
LOOKED, WENT_ON = "answered looks, and 503 to commands, and was killed", "did the same command at the next try"
IN_PLACE = "did the same command once there was room"
# The most places at which a fault is tried, in the short form and in the long form.
MOST, LONG_MOST = 6, {"life": 60, "imports": 20}


def rows_in(path, room):
    """All rows of all tables; none if no database was made yet: until its first page is written, a new file isn't one. (A copy is made in the room, since the
    disk may be full.)"""
    if not os.path.exists(path):
        return {}
    with open(path, "rb") as file:
        return rows_of(path, room=room) if file.read(16) == b"SQLite format 3\0" else {}


class Office(contextlib.ExitStack):
    """An office's file, and the server over it, as a supervisor runs it. It serves so many connections, or three times those of a run without a fault. `close`
    kills it."""

    def __init__(self, trial, path, count=None):
        super().__init__()
        self.trial, self.path, self.count = trial, path, count or 3 * (len(trial.play.steps) + len(trial.play.looks) + 2)

    def start(self):
        """Whether the server listens; else it has ended with `procure: store`."""
        how = {"may_end": True, "env": self.trial.disk.environment(), "stderr": subprocess.PIPE}
        self.process, self.port = self.enter_context(server(self.trial.program, self.path, self.count, **how))
        self.taken, end = 0, time.monotonic() + LISTENS
        while self.ask(IDLE)[0] is None:
            if self.process.poll() is not None:
                self.end()
                return False
            assert time.monotonic() < end, "the server doesn't listen"
            time.sleep(0.002)
        return True

    def ask(self, text):
        """The status and the whole of a response, or nothing if none came."""
        try:
            with socket.create_connection((HOST, self.port), LISTENS) as stream:
                self.taken += 1
                stream.sendall(text)
                response = read_all(stream)
        except OSError:
            return None, b""
        return (int(response.split(b" ", 2)[1]), response) if response.startswith(b"HTTP/1.1 ") else (None, response)

    def send(self, step):
        self.trial.disk.set_clock(step.second)
        return self.ask(step.text)

    def looks(self):
        return [self.ask(it)[1] for it in self.trial.play.looks]

    def end(self):
        """Waits for a server that ends on its own, and returns its status. Before its last connection it ends with `procure: store`."""
        errors = self.process.communicate(timeout=LISTENS)[1].decode().replace(made_line(self.path), "", 1)
        assert (self.process.returncode, errors) in ((0, ""), (REFUSED[0], REFUSED[2]))
        assert self.process.returncode != 0 or self.taken >= self.count, "the server ended with status 0 before its last connection"
        return self.process.returncode

    def use_up(self):
        """Asks until the server has served all connections, and returns its status."""
        while self.taken < self.count:
            self.ask(IDLE)
        return self.end()


class Trial:
    """A play, the states that its commands leave without a fault (answers and rows), and runs with one."""

    def __init__(self, program, play, page_size, room):
        self.program, self.play, self.page_size, self.room, self.disk = program, PLAYS[play](), page_size, str(room), FaultyDisk(str(room))
        self.made, self.size, self.small, self.is_patient, self.tally = 0, 0, None, False, Counter()
        self.disk.begin()
        count = (len(self.play.steps) + 1) * (len(self.play.looks) + 2)
        with Office(self, self.new_file(self.room), count) as office:
            assert office.start()
            self.states = [self.reached(office, step) for step in (None, *self.play.steps)]
            assert office.use_up() == 0 and rows_in(office.path, self.room) == self.states[-1][1], "without a fault the server doesn't leave what it answered"
            pages.check_size(office.path, page_size)

    def new_file(self, folder):
        """The path of a new file in pages of the size."""
        self.made += 1
        path = os.path.join(folder, f"office{self.made}.db")
        pages.begin(path, self.page_size)
        return path

    def reached(self, office, step):
        """The state that a command leaves without a fault."""
        assert not step or office.send(step)[0] == 200, f"without a fault {step.name} is refused"
        self.size = max(self.size, sum(os.path.getsize(it) for it in (office.path, office.path + "-wal") if os.path.exists(it)))
        return office.looks(), rows_in(office.path, self.room)

    def position(self, office, answered):
        """How many commands the files have: those that were answered, or the next one too."""
        rows = rows_in(office.path, self.room)
        if rows == {} and answered == 0:
            return 0
        found = [at for at in (answered, answered + 1) if at < len(self.states) and self.states[at][1] == rows]
        assert found, f"{answered} commands were answered, and {office.path} has others"
        return found[0]

    def begins(self, office, at):
        """Whether the server starts with so many commands in its file, and shows them. Otherwise it has reported that it doesn't."""
        if not office.start():
            return False
        assert office.looks() == self.states[at][0], f"{at} commands are in {office.path}, and the looks are others"
        return True

    def behaves(self, office, step):
        """The server's behaviour after a command that it didn't carry out."""
        looked = office.ask(self.play.looks[0])[0]
        if looked is None:
            office.end()
            return "ended behind the answer"
        answers = [office.send(step)[0]]
        if answers[0] == 503:
            answers.append(office.send(step)[0])
        assert looked in (200, 503) and answers[-1] in (200, 503), f"after a fault a look is answered with {looked}, and {step.name} with {answers}"
        assert (looked, answers[-1]) != (503, 503), "the file is shut, and the server goes on"
        return WENT_ON if answers[-1] == 200 else LOOKED

    def repaired(self, office, at, did):
        """How many commands are stored once the server continues after a fault. The fault came after so many commands."""
        if did == LOOKED and self.small and self.small.is_full() and self.is_patient:
            self.small.make_room()
            did = IN_PLACE if office.send(self.play.steps[at])[0] == 200 else did
        self.tally[did] += 1
        if did in (WENT_ON, IN_PLACE):
            self.tally["answered"] += 1
            return at + 1
        office.close()
        found = self.position(office, at)
        if self.small and self.small.is_full():
            self.tally["listened on the full disk"] += self.begins(office, found)
            office.close()
            self.small.make_room()
        assert self.begins(office, found), f"{office.path} isn't opened again"
        return found

    def run(self, path):
        """A play over a new file with the fault that was chosen before. The file of a failed run stays."""
        at = 0
        with Office(self, path) as office:
            if not office.start():
                at = self.repaired(office, 0, "ended before it listened")
            while at < len(self.play.steps):
                step = self.play.steps[at]
                status, response = office.send(step)
                assert status in (200, 503, None), f"{step.name} is answered with {response!r}"
                self.tally["answered"] += status == 200
                at = at + 1 if status == 200 else self.repaired(office, at, self.behaves(office, step))
            self.finish(office)
        self.tally["runs"] += 1
        for part in filter(os.path.exists, (path, path + "-wal")):
            os.remove(part)

    def finish(self, office):
        """Every command is stored at the end, even after the server has ended."""
        at = len(self.play.steps)
        assert office.looks() == self.states[at][0]
        has_failed = office.use_up() != 0
        assert self.position(office, at) == at
        pages.check_size(office.path, self.page_size)
        if has_failed:
            self.tally["ended with status 1 behind its last answer"] += 1
            assert self.begins(office, at)

    def spread(self, what, is_long):
        """Numbers of the places of a fault, evenly spread. A run without one counts its flushes and its writes. The third is the pages of its files at most."""
        self.disk.begin()
        self.run(self.new_file(self.room))
        count = {"flush": self.disk.fields[FLUSHES], "write": self.disk.fields[WRITES], "full": self.size // SmallDisk.PAGE}[what]
        most = LONG_MOST[self.play.name] if is_long else MOST
        self.tally.clear()
        return range(1, count + 1) if count <= most else [1 + at * (count - 1) // (most - 1) for at in range(most)]

    def fail_once(self, **order):
        self.disk.begin(**order)
        self.run(self.new_file(self.room))
        assert self.disk.fields[FAILED] == 1, f"no call failed by {order}"
        self.tally[f"on {self.disk.place()}"] += 1


LONG = {"life": [], "imports": [pytest.mark.long]}


@pytest.fixture(scope="module", params=[pytest.param((play, size), marks=LONG[play], id=f"{play}-{size}") for play in PLAYS for size in pages.SIZES])
def trial(request, program, tmp_path_factory):
    return Trial(program, *request.param, tmp_path_factory.mktemp("faults"))


@pytest.mark.parametrize("call, lefts", [("flush", (ALL, NONE, ODD, EVEN)), ("write", (ALL,))], ids=["flush", "write"])
def test_one_call(trial, is_long, call, lefts):
    for number in trial.spread(call, is_long):
        for left in lefts:
            trial.fail_once(**{call: number}, left=left)
    print(trial.tally)


@pytest.mark.long
def test_full(trial, is_long, tmp_path):
    try:
        trial.small = SmallDisk(str(tmp_path))
    except subprocess.CalledProcessError:
        pytest.skip("missing: a small disk. Get it: run this as root, or by `unshare --user --map-root-user --mount`")
    try:
        for room in trial.spread("full", is_long):
            for trial.is_patient in (True, False):
                trial.disk.begin()
                trial.small.clear()
                path = trial.new_file(str(tmp_path))
                trial.small.leave(room - 1)
                trial.run(path)
    finally:
        # (The files of a failed run stay, even when the disk is unmounted.)
        shutil.copytree(tmp_path, f"{tmp_path}-kept", ignore=shutil.ignore_patterns("ballast"))
        trial.small.close()
        trial.small = None
    print(trial.tally)
