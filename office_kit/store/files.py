"""An office's file in a test: copies of it, what the `sqlite3` program and ours find in it, and programs that do something wrong with it."""
import contextlib
import glob
import os
import shutil
import sqlite3
import subprocess
import tempfile
from collections.abc import Iterator
from pathlib import Path
from typing import Any

from office_kit.audit.office import SUMS
from office_kit.common import CONFIG, check, stand_in

EMPTY = "LEDGER\nline\tappropriation\tfree\treserved\tcontracted\tpaid\n"
# The end of a program that can't use its file: its status, its output and its line on standard error.
REFUSED = 1, "", "procure: store\n"
VERSION_1 = Path(__file__).parents[2] / "tests" / "version_1"


def scripts_of(name: str | Path, mark: str = "-- ") -> list[tuple[list[str], str]]:
    """The scripts of a file, which is in this folder unless its path is absolute, each with the lines of the comment before it. The next comment or a blank
    line ends a script."""
    found: list[tuple[list[str], list[str]]] = []
    for line in (Path(__file__).parent / name).read_text(encoding="utf-8").splitlines():
        if not line or line.startswith(mark) and (not found or found[-1][1]):
            found.append(([], []))
        if line:
            found[-1][not line.startswith(mark)].append(line.removeprefix(mark))
    return [(said, "\n".join(script)) for said, script in found if script]


def made_line(path: str) -> str:
    return f"procure: an empty office was made in {path}\n"


def printed(program: str, path: str, *words: str, **how: Any) -> "subprocess.CompletedProcess[str]":
    """Runs `procure ledger` over a file, or the job that the words name."""
    job, *named = words or ("ledger",)
    return subprocess.run([program, job, CONFIG, path, *named], stdin=subprocess.DEVNULL, capture_output=True, text=True, **how)


def told(ran: "subprocess.CompletedProcess[str]") -> tuple[int, str, str]:
    return ran.returncode, ran.stdout, ran.stderr


def ledger_of(program: str, path: str) -> str:
    ran = printed(program, path)
    check(f"{path}: the program ended with {ran.returncode}: {ran.stderr}", not ran.returncode)
    return ran.stdout


def sqlite(path: str, script: str, may_fail: bool = False) -> list[str]:
    """The lines that sqlite3 prints for a script. As it ends it moves the log into the file, and removes it."""
    ran = subprocess.run(["sqlite3", "-batch", path], input=script, capture_output=True, text=True)
    check(f"sqlite3 says of {path}: {ran.stderr}", may_fail or not ran.returncode)
    return ran.stdout.splitlines()


@contextlib.contextmanager
def copied(path: str, room: str | None = None) -> Iterator[str]:
    """The path of a copy of a file and of its log, as long as this lasts: in a folder beside them, or in this one."""
    with tempfile.TemporaryDirectory(dir=room or os.path.dirname(path)) as folder:
        for part in filter(os.path.isfile, glob.glob(glob.escape(path) + "*")):
            shutil.copy(part, folder)
        yield os.path.join(folder, os.path.basename(path))


def dump(path: str) -> list[str]:
    """All rows and tables that sqlite3 finds in a copy."""
    with copied(path) as copy:
        return sqlite(copy, ".dump")


def rows_of(path: str, schema: bool = False, room: str | None = None) -> dict[str, list[tuple[Any, ...]]]:
    """The rows of each table, in an order, as SQLite finds them in a copy of the file and its log; with `schema`, also those of the list of tables."""
    with copied(path, room) as copy, contextlib.closing(sqlite3.connect(copy)) as base:
        sound = base.execute("PRAGMA integrity_check").fetchall()
        check(f"integrity_check: {sound}", sound == [("ok",)])
        names = [name for name, in base.execute("SELECT name FROM sqlite_master WHERE type = 'table'")] + ["sqlite_master"] * schema
        return {name: sorted(base.execute(f"SELECT * FROM {name}").fetchall(), key=repr) for name in names}


def sums_in(path: str, lines: str = "SELECT line FROM lines") -> list[tuple[Any, ...]]:
    """The lines of a file, or those that a query names, in order: each with its appropriation, free, reserved, contracted and paid units, by SQLite."""
    with contextlib.closing(sqlite3.connect(path)) as base:
        base.executescript(SUMS)
        return base.execute(f"SELECT line, appropriation, free, reserved, contracted, paid FROM pots WHERE line IN ({lines}) ORDER BY line").fetchall()


def unlike(some: dict[str, Any], others: dict[str, Any]) -> list[str]:
    return sorted(name for name in some.keys() | others.keys() if some.get(name) != others.get(name))


def wrong(folder: Any, script: str, program: str) -> str:
    """A program that runs this shell script, with our program for each PROGRAM."""
    return stand_in(os.path.join(str(folder), "wrong"), script.replace("PROGRAM", program))
