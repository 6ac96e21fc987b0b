"""The copies of deploy/backup.sh, of running and stopped offices: whole, checked, and deleted in turn. Scripts without one of its checks accept bad ones."""
import functools
import lzma
import os
import subprocess
import threading

import pytest

from office_kit.client import budget
from office_kit.common import CONFIG, ROOT, planted, stand_in
from office_kit.store import pages
from office_kit.store.files import VERSION_1, sqlite
from office_kit.store.served import served

pytestmark = pytest.mark.needs("sqlite3")
SCRIPT = os.path.join(ROOT, "deploy", "backup.sh")
LINES = 300


def rows(count, first=0, title="Roads"):
    """A budget file that adds 5 to each of so many lines."""
    return budget(*(f"{line},add,5,{title}" for line in range(first, first + count)))


class Trial:
    """A folder with an office's file, its pages of this size, and the words that stop and start its server."""

    def __init__(self, program, folder, size):
        self.program, self.folder, self.size, self.count = program, folder, size, 0
        self.file, self.log, self.copies, self.said = (folder / name for name in ("office.db", "office.db-wal", "copies", "said"))
        self.copies.mkdir()
        self.said.touch()
        say = stand_in(str(folder / "say"), f'echo "$1" >> {self.said}')
        self.words = {**os.environ, "PROCURE": program, "TRIES": "1", "STOP": f"{say} stop", "START": f"{say} start"}
        pages.begin(str(self.file), size)

    def fill(self):
        with served(self.program, self.file, 1) as office:
            office.client.import_budget("B1", rows(LINES))

    def fill_without_log(self):
        self.fill()
        sqlite(self.file, "PRAGMA wal_checkpoint(TRUNCATE)")

    def back_up(self, *plant, **more):
        """Runs the script, with a part of it replaced by another one if they are given."""
        script = planted(SCRIPT, self.folder, *plant) if plant else SCRIPT
        return subprocess.run(["sh", script, CONFIG, self.file, self.copies], env={**self.words, **more}, capture_output=True, text=True)

    def left(self, ending=""):
        return sorted(it for it in os.listdir(self.copies) if it.endswith(ending))

    def copy(self):
        return self.copies / self.left(".db")[-1]

    def asked(self, query):
        return sqlite(self.copy(), query)[0]

    def is_one_copy(self):
        """One copy and its ledger are left, and nothing else."""
        assert len(self.left()) == len(self.left(".db") + self.left(".ledger")) == 2
        pages.check_size(self.copy(), self.size)

    def is_refused(self, run, told=""):
        """The script ends with status 1 and says what is wrong, and the copy is named .wrong."""
        assert run.returncode == 1 and told in run.stderr
        assert len(self.left(".wrong")) == 1 and not self.left(".db")

    def works_between(self, *works):
        """A piece of work is done after each copy of the file, before the copy of the log."""
        asked, done, tools = (self.folder / name for name in ("asked", "done", "tools"))
        os.mkfifo(asked)
        os.mkfifo(done)
        tools.mkdir()
        stand_in(str(tools / "cp"), f'/bin/cp "$@" || exit\ncase $2 in {self.file}) echo >{asked}; read -r _ <{done} ;; esac')
        self.words["PATH"] = f"{tools}:{os.environ['PATH']}"

        def answer_each():
            for work in works:
                asked.read_bytes()
                work()
                done.write_text("\n")
        threading.Thread(target=answer_each, daemon=True).start()

    def move_log(self, client):
        """Imports until the log was moved, and then one more time."""
        before, is_moved = self.log.read_bytes()[:32], False
        while not is_moved:
            is_moved = self.log.read_bytes()[:32] != before
            self.count += 1
            # (Each changes pages of its own, so that the log is soon moved, and a pair has not all of them.)
            client.import_budget(f"M{self.count}", rows(250, 1000 * self.count, "Roads".ljust(200, ".")))


@pytest.fixture
def trial(program, tmp_path, size):
    return Trial(program, tmp_path, size)


# ---- Good copies.

def test_a_good_copy(trial):
    """A copy of an office that is being served is one file with everything that was answered. Nothing is stopped."""
    with served(trial.program, trial.file) as office:
        office.client.import_budget("B1", rows(LINES))
        ledger = office.client.ledger().body
        run = trial.back_up()
        assert run.returncode == 0 and "nothing was stopped" in run.stdout and "is good" in run.stdout
        assert not trial.said.read_text() and office.client.ledger().body == ledger
    trial.is_one_copy()
    assert trial.copy().with_suffix(".ledger").read_bytes() == ledger
    assert trial.copy().stat().st_mode & 0o077 == 0, "others can't read the copy"
    with served(trial.program, trial.copy(), 1) as office:
        assert office.client.ledger().body == ledger


def test_a_moved_log(trial):
    """If the log is moved between the two copies, the script makes them again. Without this check it takes a pair in which answered commands are missing."""
    batches = "SELECT count(*) FROM batches"
    with served(trial.program, trial.file) as office:
        office.client.import_budget("B1", rows(LINES))
        moves = functools.partial(trial.move_log, office.client)
        trial.works_between(moves, lambda: None, moves)
        run = trial.back_up(TRIES="2")
        assert run.returncode == 0 and "whole at try 2" in run.stdout
        before = trial.count + 1
        assert trial.asked(batches) == str(before) and before > 1
        run = trial.back_up('    [ "$(head_of_log)" = "$before" ]\n', "", TRIES="2")
        assert "whole at try 1" in run.stdout and trial.count >= before
        assert run.returncode or int(trial.asked(batches)) < before


def moved(file, log, share):
    """The bytes of a file into which this share of a log's pages was moved, the last ones first."""
    size, content, found = int.from_bytes(log[8:12], "big"), bytearray(file), {}
    for at in range(32, len(log) - 24 - size + 1, 24 + size):
        if log[at + 8:at + 16] != log[16:24]:
            break
        found[int.from_bytes(log[at:at + 4], "big")] = log[at + 24:at + 24 + size]
    # (a page of a number that no database has counts the pages that are missing in a commit)
    real = sorted((number for number in found if number < 0xff00_0000), reverse=True)
    for number in real[:max(1, int(len(real) * share))]:
        content[(number - 1) * size:number * size] = found[number]
    return bytes(content)


def is_whole(trial, file, log, early, late):
    """Whether sqlite3 finds no fault in a file and its log, and, after the first import, so many of the early ones and of the late ones."""
    pair = trial.folder / "pair.db"
    pair.write_bytes(file)
    pair.with_name("pair.db-wal").write_bytes(log)
    told = sqlite(pair, "PRAGMA integrity_check; SELECT count(*), (SELECT sum(appropriation) FROM lines) FROM batches;", may_fail=True)
    return told == ["ok", f"{1 + early + late}|{5 * (LINES + early + late * LINES)}"]


def test_half_moved(trial):
    """While an office's log is being moved into the file, the file is whole with a log that was copied after it, and isn't with one copied before it."""
    trial.fill_without_log()
    with served(trial.program, trial.file) as office:
        # Imports of one line first, and then of all: so the later log has pages that the earlier one doesn't have.
        for number in range(3):
            office.client.import_budget(f"C{number}", rows(1))
        earlier = trial.log.read_bytes()
        for number in range(3):
            office.client.import_budget(f"D{number}", rows(LINES))
        file, log = trial.file.read_bytes(), trial.log.read_bytes()
    assert log[:32] == earlier[:32], "the log has one head"
    assert is_whole(trial, file, log, 3, 3) and is_whole(trial, file, earlier, 3, 0)
    halves = [moved(file, log, share) for share in (0.25, 0.5, 0.75, 1)]
    assert all(is_whole(trial, half, log, 3, 3) for half in halves)
    assert not any(is_whole(trial, halves[-1], earlier, 3, late) for late in range(4))


def test_no_log(trial):
    """Without a log that has a head, the script stops the service and starts it again."""
    trial.fill_without_log()
    run = trial.back_up()
    assert run.returncode == 0 and "the service was stopped for " in run.stdout and trial.said.read_text() == "stop\nstart\n"
    trial.is_one_copy()


def test_an_earlier_version(program, tmp_path):
    """The copy of an office of version 1 keeps that version. A script that opens the copy itself turns it into version 2."""
    trial = Trial(program, tmp_path, pages.NEW)
    trial.file.write_bytes(lzma.decompress((VERSION_1 / "version_1.db.xz").read_bytes()))
    assert trial.back_up().returncode == 0
    assert trial.asked("SELECT version FROM office") == "1"
    trial.copy().unlink()
    trial.back_up('ledger "$config" "$copy.trial"', 'ledger "$config" "$copy.part"')
    assert trial.asked("SELECT version FROM office") == "2"


def test_rotation(trial):
    """Of older copies the newest stay, and of earlier ones the last of each day; of bad ones the newest three. The script deletes nothing else."""
    trial.fill()
    earlier = [f"202601{day:02}T{hour}0000Z" for day in range(1, 8) for hour in ("01", "13")]
    others = ["notes", "office-old.db", "other-20260101T010000Z.db"]
    for name in [*others, *(f"office-{moment}.{ending}" for moment in earlier for ending in ("db", "ledger", "wrong"))]:
        (trial.copies / name).touch()
    assert trial.back_up(KEEP="4", DAYS="3").returncode == 0
    left = [name for name in trial.left(".db") if name not in others]
    # (of the newest four one is new; the last of the 6th is the fourth)
    assert left[:-1] == [f"office-202601{moment}0000Z.db" for moment in ("03T13", "04T13", "05T13", "06T13", "07T01", "07T13")]
    assert [it[:-2] for it in left] == [it[:-6] for it in trial.left(".ledger")]
    assert {*others} <= {*trial.left()} and len(trial.left(".wrong")) == len(earlier)
    trial.file.write_text("no database\n" * 1000)
    trial.back_up()
    wrong = trial.left(".wrong")
    assert len(wrong) == 3 and wrong[0] == "office-20260107T010000Z.wrong"
    assert [name for name in trial.left(".db") if name not in others] == left, "a wrong copy takes no good one away"


# ---- Bad copies.

def test_a_page_of_zeros(trial):
    trial.fill_without_log()
    trial.file.write_bytes(trial.file.read_bytes()[:-trial.size] + bytes(trial.size))
    trial.is_refused(trial.back_up())
    assert trial.said.read_text() == "stop\nstart\n"


def test_a_row_that_its_table_forbids(trial):
    """The program finds it when it opens the copy. sqlite3 finds it too; without both the copy is accepted."""
    trial.fill()
    sqlite(trial.file, "PRAGMA ignore_check_constraints = 1; UPDATE batches SET rows = 501;")
    run = trial.back_up()
    assert run.returncode == 1 and "the copy is no office" in run.stderr
    trial.words["PROCURE"] = stand_in(str(trial.folder / "blind"), "echo LEDGER")
    run = trial.back_up()
    assert run.returncode == 1 and "the copy is broken: CHECK" in run.stderr
    assert trial.back_up('[ "$told" = ok ]', "true").returncode == 0


def test_no_database(trial):
    trial.file.write_text("no database\n" * 1000)
    trial.is_refused(trial.back_up(), "the copy is no office")


def test_no_office(trial):
    """Without asking `procure` the script accepts a database that is no office."""
    sqlite(trial.file, "CREATE TABLE office (version INTEGER); PRAGMA journal_mode = wal;")
    trial.is_refused(trial.back_up(), "the copy is no office")
    assert trial.back_up('''|| wrong 'the copy is no office\'''', "|| true").returncode == 0


def test_no_room(trial):
    """If the copy can't be written, nothing of it is left, and nothing was stopped."""
    with served(trial.program, trial.file) as office:
        for number in range(20):
            office.client.import_budget(f"C{number}", rows(LINES))
        run = trial.back_up("set -eu\n", "set -eu\nulimit -f 4\n")
    assert run.returncode == 1 and "the copy can't be written" in run.stderr
    assert not trial.left() and not trial.said.read_text()


@pytest.mark.parametrize("word, said", [("STOP", "could not be stopped"), ("START", "could not be started")])
def test_no_service(trial, word, said):
    """If the server can't be stopped, the script copies nothing. If it can't be started again, the copy is checked and kept."""
    trial.fill_without_log()
    run = trial.back_up(**{word: "false"})
    assert run.returncode == 1 and said in run.stderr
    if word == "STOP":
        assert not trial.left()
    else:
        trial.is_one_copy()


@pytest.mark.parametrize("words", ["", "CONFIG office.db", "CONFIG office.db copies", "CONFIG CONFIG office.db", "office.db CONFIG copies"])
def test_wrong_words(program, tmp_path, words):
    """The status is 2 for wrong arguments, or a file or folder that doesn't exist, before anything is stopped."""
    trial = Trial(program, tmp_path, pages.NEW)
    run = subprocess.run([SCRIPT, *words.replace("CONFIG", CONFIG).split()], cwd=tmp_path, env=trial.words, capture_output=True, text=True)
    assert run.returncode == 2 and run.stderr
    assert not trial.said.read_text()
