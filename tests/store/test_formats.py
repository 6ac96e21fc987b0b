"""Two large files of version 1 open with their content, also after the program is killed while it migrates them to version 2.

SQLite makes the files of `ten`, of version 1, and copies.sql. (test_versions.py opens the small ones.) The first has many more notices and nothing else:
the program rewrites notices, so this is the worst case. The second has many more procurements, each from its publication to the end of its contract. The ledger
is the one that SQLite computes from the rows of the original file. Each row is unchanged, except that notices have an additional 0. All notices are printed,
page by page. A kill leaves version 1 or version 2, whole. Each test prints the ratio of the first opening's time to that of the next ones, and its additional
memory (`pytest -s`); `make soak` takes larger files.
"""
import os
import random
import shutil
import statistics
import subprocess
import time

import pytest

from office_kit.common import CONFIG, peak, running
from office_kit.store import pages
from office_kit.store.earlier import first, in_version_2, made, statements_in
from office_kit.store.files import ledger_of, printed, rows_of, sums_in, unlike

# How often a file is opened again, and the seconds between two looks at the memory.
OPENINGS, LOOK = 5, 0.002
# The counts of copies, and of those of the long form.
FILES = {"notices": (20_000, 20_000), "procurements": (500, 2_000)}


def opened(program, path):
    """The seconds of an opening, and the program's peak memory in bytes."""
    begun, memory = time.monotonic(), 0
    process = subprocess.Popen([program, "ledger", CONFIG, path], stdout=subprocess.DEVNULL)
    while process.poll() is None:
        memory = peak(process, memory)
        time.sleep(LOOK)
    assert process.returncode == 0
    return time.monotonic() - begun, memory * 1024


def measured(program, path, rows):
    """Opens a file often, and prints what the first opening took. Returns its seconds."""
    ledger, size = sums_in(path), os.path.getsize(path)
    longest, memory = opened(program, path)
    assert unlike(rows_of(path), rows) == []
    assert ledger_of(program, path).splitlines()[2:] == ["\t".join(map(str, row)) for row in ledger]
    again = [opened(program, path) for _ in range(OPENINGS)]
    assert unlike(rows_of(path), rows) == []
    ratio, more = longest / statistics.median(took for took, _ in again), max(0, memory - max(it for _, it in again)) / size
    print(f"{size} bytes: the first opening took {ratio:.2f} of the next ones, and {more:.2f} of the file's size more memory")
    return longest


def killed(program, path, rows, seconds):
    """Kills a first opening after so many seconds, and opens the file again. Returns the version that the kill left."""
    with running([program, "ledger", CONFIG, path], stdout=subprocess.DEVNULL):
        time.sleep(seconds)
    found = rows_of(path)
    assert unlike(in_version_2(found), rows) == []
    ledger_of(program, path)
    assert unlike(rows_of(path), rows) == []
    return found["office"][0][0]


@pytest.mark.parametrize("what", FILES)
def test_large_file(program, tmp_path, what, size, seed, is_long):
    random.seed(seed)
    path, kills, left = str(tmp_path / "opened.db"), 50 if is_long else 10, []
    large = made(tmp_path / "large.db", first("ten")[0] + statements_in("copies.sql")[what].replace("MANY", str(FILES[what][is_long])), size)
    rows = in_version_2(rows_of(large))
    shutil.copy(large, path)
    longest = measured(program, path, rows)
    assert [line.split("\t")[0] for line in printed(program, path, "notices").stdout.splitlines()] == sorted(row[0] for row in rows["notices_2"])
    pages.check_size(path, size)
    for _ in range(kills):
        for part in tmp_path.glob("opened.db*"):
            part.unlink()
        shutil.copy(large, path)
        # (The changes are committed towards the end.)
        left.append(killed(program, path, rows, random.triangular(0, longest, longest)))
    print(f"{kills} kills left version 1 {left.count(1)} times and version 2 {left.count(2)} times, whole")
