"""Each allocation of a run fails in turn, of the program and of crates' proved tests.

The program runs over plays of transcripts. If one request is answered Unavailable, all others must be answered as if it had never been sent. If it couldn't be
read whole, the place of the next one is unknown: those before it must be answered as always, and the program ends there. A crate's `rt test` leaves its tests
as a program, out/CRATE_tests. Each test there tries a step a second time if the first try finds no memory, so it must pass whichever single allocation is
refused. One that asks for its own memory only once may end for that reason. (tests/refused_rows compares all rows too.)
"""
import os
import re
import subprocess
from collections import Counter
from concurrent.futures import ThreadPoolExecutor

import pytest

from office_kit.common import CONFIG, ROOT, made_shim, parts_of
from office_kit.gate.transcripts import request_of
from office_kit.store.refusing import counted, plays

pytestmark = [pytest.mark.long, pytest.mark.needs("cc")]
# The crates whose tests try a step a second time if the first try finds no memory, and the most refusals in each test, spread evenly over its allocations.
CRATES, MOST = ("tests_of_stores", "tests_of_faults", "tests_of_looks"), int(os.environ.get("MOST", "300"))
# The plays of transcripts: their files and titles.
PLAYS = (("imports.txt", "a file without rows"), ("imports.txt", "a batch is taken once"), ("imports.txt", "a file has 500 rows at most"),
         ("imports.txt", "a bad row is numbered"), ("imports.txt", "an appropriation has a bound"), ("imports.txt", "a cut takes no more than is free"),
         ("published_lives.txt", "two lots"), ("cancellations.txt", "unopened"), ("cancellations.txt", "awarded"), ("performances.txt", "forfeited"),
         ("lists.txt", "notices"), ("terms.txt", "by points"), ("own_tenders.txt", "lot by lot"), ("evaluations.txt", "every state"),
         ("desk_looks.txt", "default"))
# The words of a test that asks for its own memory once and finds none.
OWN_WANT = r"memory|AllocError|no settings|no changes|no row|no command|no plan|error: Unavailable"
UNAVAILABLE = (b"HTTP/1.1 503 Service Unavailable\r\nContent-Type: application/json\r\nContent-Length: 35\r\nConnection: close\r\n\r\n"
               b'{"name":"Unavailable","refusal":32}')


@pytest.fixture(scope="module")
def shim(tmp_path_factory):
    return made_shim("store/refusing.c", str(tmp_path_factory.mktemp("shim")))


def run_desk(program, requests, **env):
    """Whether an allocation was refused, the exit status and the responses."""
    run = subprocess.run([program, "desk", CONFIG], input=b"".join(requests), env=env, capture_output=True, timeout=60)
    return b"allocation refused" in run.stderr, run.returncode, parts_of(run.stdout)


def kind_of(status, told, ample, without):
    """How a run ended whose allocation was refused: nothing for a wrong end."""
    places = [at for at, response in enumerate(told) if response == UNAVAILABLE]
    if status == 0 and told == ample:
        return "answered as with ample memory"
    if status == 0 and len(places) == 1 and told[:places[0]] + told[places[0] + 1:] == without[places[0]]:
        return "one request Unavailable, and all others as if it had not been sent"
    if status == 1 and places == [len(told) - 1] and told[:-1] == ample[:len(told) - 1]:
        return "ended at a request that was not read whole"
    return "ended before a request was read" if status == 1 and not told else None


def refuse_each(program, shim, requests):
    ample, number, counts = run_desk(program, requests)[2], 1, Counter()
    assert len(ample) == len(requests) and UNAVAILABLE not in ample
    without = [run_desk(program, requests[:at] + requests[at + 1:])[2] for at in range(len(requests))]
    while (run := run_desk(program, requests, LD_PRELOAD=shim, REFUSED=str(number)))[0]:
        kind = kind_of(*run[1:], ample, without)
        assert kind, f"allocation {number} refused: {run}"
        counts[kind] += 1
        number += 1
    assert counts
    print(counts)


@pytest.mark.parametrize("name, title", PLAYS)
def test_play(plain_program, shim, name, title):
    refuse_each(plain_program, shim, [request_of(it) for it in plays()[name, title]])


# ---- Tests of crates.

def run_test(tests, name, shim, number):
    """The status and the output of a test whose allocation of that number is refused."""
    run = subprocess.run([tests, name], env={"LD_PRELOAD": shim, "REFUSED": str(number)}, capture_output=True, text=True, timeout=300)
    return run.returncode, run.stdout + run.stderr


def refuse_in_test(tests, name, shim, number):
    status, told = run_test(tests, name, shim, number)
    if "allocation refused" not in told:
        return "nothing was refused"
    assert status == 0 or re.search(OWN_WANT, told), f"{name} failed where allocation {number} was refused: {told}"
    return "ended for want of its own memory" if status else "passed"


@pytest.mark.proofs
@pytest.mark.parametrize("crate", CRATES)
def test_crate(shim, crate):
    tests = os.path.join(ROOT, "crates", crate, "out", f"{crate}_tests")
    if not os.path.exists(tests):
        pytest.skip(f"missing: {tests}. Get it: make test")
    listed = subprocess.run([tests, "--list"], capture_output=True, text=True, check=True).stdout
    names = re.findall(r"^(\S+): test$", listed, re.M) or listed.split()
    assert names
    with ThreadPoolExecutor() as pool:
        for name in names:
            count, _ = counted(run_test(tests, name, shim, 0)[1])
            numbers = sorted({1 + step * (count - 1) // (MOST - 1) for step in range(MOST)}) if count > MOST else range(1, count + 1)
            print(name, Counter(pool.map(lambda number, name=name: refuse_in_test(tests, name, shim, number), numbers)))
