"""The program refuses at once a file that it can't use, or that isn't an office's, and leaves it unchanged.

Refused means: within three seconds the program has ended with status 1 and `procure: store` on standard error. It has printed nothing else. Every file of the
folder has its bytes and its mode; only an empty log may be new or different. A database that uses none of the office's names becomes an office too. Stand-in
programs that behave wrongly are found.
"""
import os
import re
import shutil
import stat
import subprocess
import tempfile
import time
from pathlib import Path

import pytest

from office_kit.client import budget
from office_kit.common import CONFIG, free_port, running, within
from office_kit.store import pages
from office_kit.store.files import EMPTY, REFUSED, dump, made_line, scripts_of, sqlite, unlike, wrong
from office_kit.store.served import served

pytestmark = pytest.mark.needs("sqlite3")
AT_ONCE, LISTENS = 3 * float(os.environ["SLOWNESS"]), 60
# The bytes of a log's head, of a page's head in it and of the smallest page: a shorter log holds nothing.
LEAST = 32 + 24 + 512
# The bytes of a log's head and of the first page's head in it. One of them is a gate: before it is written, the log holds nothing.
HEADS, GATE = 32 + 24, 40
# The scripts that make files which are refused. Their file says how they run.
SCRIPTS = {name: script for (name,), script in scripts_of(Path(__file__).with_name("refused_files.txt"), "# ")}
ALL_JOBS = ("serve", "ledger", "notices", "minutes", "evaluation", "record")
# A user who has only the rights of all users, if the tests run as root.
NOBODY = {"user": 65534, "group": 65534, "extra_groups": []} if os.geteuid() == 0 else {}


class Folder:
    """A folder of one trial, where everybody may read and write, and the size of its file's pages."""

    def __init__(self, program, size, path):
        self.program, self.size, self.path = program, size, Path(path)
        self.file, self.log = self.path / "office.db", self.path / "office.db-wal"
        self.path.chmod(0o777)

    def found(self):
        """By the names of the folder, without empty logs: the mode, the size, and a file's bytes if they may be read."""
        found = {}
        for path in self.path.iterdir():
            about = path.lstat()
            is_file = stat.S_ISREG(about.st_mode)
            if not is_file or about.st_size >= LEAST or not path.name.endswith("-wal"):
                found[path.name] = about.st_mode, about.st_size, path.read_bytes() if is_file and os.access(path, os.R_OK) else None
        return found

    def run(self, job="ledger", name="office.db", seconds=LISTENS, **how):
        """Runs a program over the file of that name, in the folder. It must end in so many seconds. (What it prints fits into a pipe.)"""
        more = {"serve": [str(free_port()), "1"], "ledger": [], "notices": []}.get(job, ["N1"])
        words = [self.program, job, os.path.join(os.path.dirname(self.program), "office.toml"), name, *more]
        pipes, in_time = {"stdin": subprocess.DEVNULL, "stdout": subprocess.PIPE, "stderr": subprocess.PIPE}, within(seconds)
        with running(words, cwd=self.path, text=True, **pipes, **how) as process:
            while process.poll() is None:
                assert in_time(), f"{job} takes more than {seconds} s to refuse or to end"
                time.sleep(0.002)
            return process.returncode, *process.communicate()

    def refused(self, name="office.db", jobs=("serve", "ledger"), why="", **how):
        """These programs refuse the file at once, and nothing changes. A fault is reported with the reason for which they must refuse it."""
        for job in jobs:
            before, ended = self.found(), self.run(job, name, AT_ONCE, **how)
            assert ended == REFUSED, f"{why}{job} ended with {ended}"
            changed = unlike(before, self.found())
            assert not changed, f"{why}{job} changed {changed}"

    def database(self, script):
        """A database that sqlite3 makes."""
        sqlite(self.file, f"PRAGMA page_size = {self.size};{script}")

    def office(self, script="SELECT count(*) FROM lines;"):
        """An office in the file alone, changed by a script of sqlite3."""
        pages.begin(self.file, self.size)
        assert self.run()[1] == EMPTY, "an office is made"
        pages.check_size(self.file, self.size)
        sqlite(self.file, script)


@pytest.fixture(scope="module")
def everybody(program):
    """A copy of the program, beside the settings, that everybody may run."""
    with tempfile.TemporaryDirectory(prefix="procure-files-") as folder:
        for path, mode in ((folder, 0o755), (shutil.copy(CONFIG, folder), 0o644), (copy := shutil.copy(program, folder), 0o755)):
            os.chmod(path, mode)
        yield copy


@pytest.fixture
def folder(everybody, size):
    with tempfile.TemporaryDirectory(prefix="procure-files-") as path:
        yield Folder(everybody, size, path)


def test_two_servers(folder):
    """While a file is served, other programs are refused, even through a link. The server keeps running."""
    pages.begin(folder.file, folder.size)
    with served(folder.program, folder.file, 3) as office:
        office.client.import_budget("B1", budget("1000,add,600,Roads"))
        (folder.path / "link.db").symlink_to("office.db")
        folder.refused("office.db", ALL_JOBS)
        folder.refused("link.db", ALL_JOBS)
        office.client.import_budget("B2", budget("1000,add,1,Roads"))
        assert b"1000\t601\t601\t0\t0\t0\n" in office.client.ledger().body
    assert "1000\t601" in folder.run()[1], "then it can be opened"


def test_a_reader(folder):
    """While a file is served, `sqlite3` finds it locked. While `sqlite3` reads it, the program refuses it, and the reader continues."""
    pages.begin(folder.file, folder.size)
    with served(folder.program, folder.file, 2) as office:
        office.client.ledger()
        before = folder.found()
        ran = subprocess.run(["sqlite3", "-batch", folder.file, "SELECT count(*) FROM lines;"], capture_output=True, text=True)
        assert ran.returncode == 5 and "database is locked" in ran.stderr, f"sqlite3 finds the file locked, and not {ran}"
        assert folder.found() == before
        office.client.ledger()
    with running(["sqlite3", "-batch", folder.file], stdin=subprocess.PIPE, stdout=subprocess.PIPE, text=True, bufsize=1) as reader:
        reader.stdin.write("BEGIN; SELECT count(*) FROM lines;\n")
        assert reader.stdout.readline() == "0\n"
        folder.refused("office.db", ALL_JOBS)
        reader.stdin.write("SELECT count(*) FROM office;\n")
        assert reader.stdout.readline() == "1\n"
        reader.stdin.close()
        reader.wait(LISTENS)
    assert folder.run()[1] == EMPTY, "then it can be opened"


@pytest.mark.parametrize("what", SCRIPTS)
def test_refused(folder, what):
    """In other databases and in unknown offices `sqlite3` also finds the same rows afterwards."""
    kind = what.partition(": ")[0]
    if kind not in ("no file", "no database", "another database"):
        folder.office("INSERT INTO lines VALUES ('1000', 'Roads', 5, 5);")
    how = {"cwd": folder.path, "env": {**os.environ, "SIZE": str(folder.size)}, "stdout": subprocess.PIPE, "text": True, "check": True}
    printed = subprocess.run(["sh", "-ec", SCRIPTS[what]], **how).stdout
    has_rows = kind in ("another database", "an unknown office")
    before = dump(folder.file) if has_rows else None
    folder.refused(printed.strip() if printed else "office.db", **(NOBODY if kind == "no right" else {}))
    assert not has_rows or dump(folder.file) == before
    assert kind != "no file" or not folder.log.exists() or not folder.log.stat().st_size


# The changes that sqlite3 makes to a table.
CHANGES = {what: script for (what,), script in scripts_of(Path(__file__).with_name("changed_tables.sql"))}


def test_another_form(folder):
    """An office in which one of its tables was changed, each in turn, is refused. One with an additional index that isn't unique is opened."""
    folder.office()
    tables = sqlite(folder.file, "SELECT name, (SELECT name FROM pragma_table_info(sqlite_master.name)) FROM sqlite_master WHERE type = 'table';")
    whole = folder.file.read_bytes()
    assert len(tables) == 17
    for table, column in (line.split("|") for line in tables):
        for what, script in CHANGES.items():
            folder.file.write_bytes(whole)
            sqlite(folder.file, script.format(table=table, column=column))
            ended = folder.run()
            assert ended == REFUSED, f"{table} {what}: ledger ended with {ended}"
        folder.file.write_bytes(whole)
        sqlite(folder.file, f"CREATE INDEX more ON {table} ({column});")
        ended = folder.run()
        assert ended == (0, EMPTY, ""), f"{table} has an index more: ledger ended with {ended}"


def test_foreign_log(folder):
    """Changes in the log of another database may be moved into its file. `sqlite3` finds the same rows in the two afterwards."""
    folder.database("PRAGMA journal_mode = WAL;\n.dbconfig no_ckpt_on_close on\nCREATE TABLE seals (animal TEXT); INSERT INTO seals VALUES ('a');")
    assert folder.log.stat().st_size > LEAST
    before = dump(folder.file)
    assert folder.run() == REFUSED, "changes in the log of another database: refused"
    assert dump(folder.file) == before, "what sqlite3 finds in it has changed"


def test_beside(folder):
    """A database that uses none of the names becomes an office too, and keeps its own tables. A line says so, once."""
    folder.database("CREATE TABLE notes (text TEXT); INSERT INTO notes VALUES ('a'), ('b');")
    first, second = folder.run(), folder.run()
    assert (first[1], second[1]) == (EMPTY, EMPTY), "it becomes an office"
    assert (first[2], second[2]) == (made_line("office.db"), ""), f"it is said once, and not {first[2]!r} and {second[2]!r}"
    pages.check_size(folder.file, folder.size)
    assert sqlite(folder.file, "SELECT text FROM notes; SELECT version FROM office;") == ["a", "b", "2"], "its own rows stay"


def said_until_killed(folder, line):
    """The standard error of a server that is killed after an import of this line."""
    with served(folder.program, "office.db", cwd=folder.path, stderr=subprocess.PIPE) as office:
        office.client.import_budget(f"B{line}", budget(f"{line},add,600,Roads"))
        office.process.kill()
        return office.process.stderr.read().decode()


def test_used_log(folder):
    """A server that is killed early leaves everything in the log, beside a file without a table. With another bit in the log's head, without the file, or
    beside an empty file, the log is refused. Its own bytes give the ledger again."""
    pages.begin(folder.file, folder.size)
    assert [said_until_killed(folder, line) for line in (1000, 2000)] == [made_line("office.db"), ""], "a new office is said once"
    assert folder.file.stat().st_size <= folder.size and folder.log.stat().st_size > LEAST, "the file has no table"
    whole = folder.log.read_bytes()
    for at in (*range(GATE), *range(GATE + 1, HEADS)):
        folder.log.write_bytes(whole[:at] + bytes([whole[at] ^ 1 << at % 8]) + whole[at + 1:])
        folder.refused(why=f"bit {at % 8} of byte {at} of the log: ")
    folder.log.write_bytes(whole)
    aside = folder.file.rename(folder.path / "aside")
    folder.refused()
    folder.file.touch()
    folder.refused()
    aside.replace(folder.file)
    _, ledger, errors = folder.run()
    assert (ledger.count("\t600\t600\t"), errors) == (2, ""), "its own bytes give the ledger"


# Programs that are wrong: the fault, the test that finds it, with its case, the words that it must say, and the script.
WRONG = {fault: (test, said, script) for (fault, test, said), script in scripts_of(Path(__file__).with_name("wrong_programs.txt"), "# ")}


@pytest.mark.parametrize("fault", WRONG)
def test_planted(folder, fault):
    test, said, script = WRONG[fault]
    name, *case = test.split(" ", 1)
    folder.program = wrong(os.path.dirname(folder.program), script.replace("AT_ONCE", str(10 * AT_ONCE)), folder.program)
    with pytest.raises(AssertionError, match=re.escape(said)):
        globals()[name](folder, *case)
