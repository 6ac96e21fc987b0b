"""Nobody makes a tender late or shuts it out. Sixty tenders come in the last 0.3 seconds before a deadline, by TLS through the front (deploy/nginx/). Meanwhile
others ask (office_kit/front/strangers.py). One office has 100,000 budget lines, and one 100,000 contracts.

The offices' files (office_kit/store/large_office.py) are made once, and kept under build/large/; each run has a copy. The front keeps no answer yet when the
strangers begin. So the office must read the whole ledger for the first of them. All tenderers connect when they send.

As root, the test gives the processor first to the office and the front, then to tenderers, as if each had a machine of its own. Strangers have more of it than
other programs, but don't come before the kernel's threads. The disk and the network need these. (When strangers came first, on a busy machine, such
threads got no processor for long. 61 flushes took 1.03 seconds, now 0.03, and eight tenders were late that the front had let through at once.)

A tender is in time until the second of its deadline ends, and it may wait for one ledger. So that must take clearly less than a second (INSTALL.md says
what to do in a larger office). Where 100,000 rows take longer, on a slower machine, the office has fewer.

Each tender must be `sealed`, with status 200, within two seconds, or more on a slower machine. Each flush of the disk takes five milliseconds, whatever else
uses this machine's. With a careless front some tender to the office of many lines must be late or wait longer, else the test has shown nothing. (The other
office remembers its few sums.)
"""
import collections
import contextlib
import hashlib
import json
import os
import random
import shutil
import statistics
import subprocess
import sys
import tempfile
import time
import tomllib
from concurrent.futures import ThreadPoolExecutor
from pathlib import Path

import pytest

from office_kit.client import AHEAD, Client, Port, lot, notice, text_of, wait_until
from office_kit.common import CLERK, CONFIG, ROOT, exchange, look, made_shim
from office_kit.front.nginx import Front, fields_of
from office_kit.front.nginx import exchange as ask_on
from office_kit.front.strangers import NEIGHBOUR
from office_kit.store import large_office
from office_kit.store.served import server

pytestmark = [pytest.mark.needs("nginx", "openssl"), pytest.mark.nginx, pytest.mark.time, pytest.mark.xdist_group("machine")]
# How many times slower this machine is than a usual one; and the most tenders that may be late because this process sent them after the deadline.
SLOW, OWN_LATE = max(1.0, AHEAD / 4), 6
MANY, TENDERERS, LAST, LONGEST, PATIENCE = 100_000, 60, 0.3, 2.0 * SLOW, 120 * SLOW
# The strangers begin so many seconds after the start of a run and before the deadline, and end after it.
START, BEGIN, AFTER = 8 * SLOW, 4, 2
# The most seconds that the office may take for its ledger.
LEDGER = 0.5
# Priorities on the processor: a higher number comes first. When strangers begin, they share it with all others. They have 87 times a usual share,
# in a session of their own by its `autogroup` (sched(7)), or else by `nice`.
TENDERERS_TURN, SERVERS = 1, 2
STRANGERS = ["sh", "-c", '(echo -20 > /proc/$$/autogroup) 2>&-; exec nice -n -20 "$0" "$@"', sys.executable, "-m", "office_kit.front.strangers"]
# Beside whom tenders come: their kinds, how many seconds before the deadline they begin, and the answers that they must have at least. With fewer they tried
# nothing. (A citizen or the rival has one answer a request.)
BESIDE = {"crowd": (["crowd", "eager"], 4, {"": 1_000}), "neighbour": (["neighbour"], 4, {"neighbour 401": 100}),
          "rival": (["rival"], 0.6, {"rival 200": 20, "rival 429": 300}), "citizens": (["citizens"], 0.6, {"citizen 200": 800}),
          "health": (["health"], 0.6, {"monitor 200": 11})}
CARELESS = tomllib.loads(Path(__file__).with_suffix(".toml").read_text(encoding="utf-8"))["careless"]
FIRM = json.dumps({"name": "Late", "address": "1 Row", "key": "0" * 64}).encode()


def comes_before(others):
    """Gives this process, and those that it starts from now on, the processor before lower numbers and all other programs, if it may."""
    with contextlib.suppress(PermissionError):
        os.sched_setscheduler(0, os.SCHED_FIFO, os.sched_param(others))


def submit(front, number, at, deadline, beside):
    """Submits a tender at a moment: its state, or why there is none, and the seconds to the whole answer. One half of the tenderers have addresses of their
    own, the others share two. Beside a neighbour all share one. The number 0 is the clerk, who registers a firm. A late tender whose last byte was sent after
    the deadline is `sent late`."""
    source = "127.0.1.1" if not number else NEIGHBOUR if beside == "neighbour" else f"127.0.7.{number + 1}" if number % 2 else f"127.0.8.{number % 4 + 1}"
    path, who, body = ("/notices/D/lots/L1/tenders", (f"T{number}".encode(), b"hello"), b"x" * 2000) if number else ("/tenderers/T99", CLERK, FIRM)
    wait_until(at)
    begun = sent = time.time()
    try:
        with contextlib.closing(front.connection(source)) as connection:
            connection.request("POST", path, body, fields_of(who))
            sent = time.time()
            answer = connection.getresponse()
            state = json.loads(answer.read()).get("state", "registered") if answer.status == 200 else str(answer.status)
    except OSError as why:
        state = type(why).__name__
    return "sent late" if state == "returned" and sent > deadline else state, time.time() - begun


def last_seconds(front, deadline, lines, beside):
    """The strangers, sixty tenders and a clerk in the last 0.3 seconds: what each of the latter got, and the strangers' counts."""
    kinds, before, _ = BESIDE[beside]
    words = [[*STRANGERS, kind, *map(str, (front.port, deadline - before, deadline + AFTER, lines))] for kind in kinds]
    moments = random.Random(2)
    comes_before(TENDERERS_TURN)
    with ThreadPoolExecutor(TENDERERS + 1 + len(words)) as pool:
        strangers = [pool.submit(subprocess.check_output, it, cwd=ROOT, start_new_session=True) for it in words]
        tenders = [pool.submit(submit, front, number, deadline - moments.uniform(0.01, LAST), deadline, beside) for number in range(TENDERERS + 1)]
    return [it.result() for it in tenders], collections.Counter(dict(item for it in strangers for item in json.loads(it.result()).items()))


@contextlib.contextmanager
def served(program, kind, many):
    """An office of so many rows: a folder of its own, its port, and the seconds that its ledger takes."""
    comes_before(SERVERS)
    with tempfile.TemporaryDirectory(prefix="office-deadline-") as folder:
        file = shutil.copy(large_office.file_of(kind, many), os.path.join(folder, "office.db"))
        with server(program, file, env={**os.environ, "LD_PRELOAD": made_shim("store/slow_disk.c", folder)}) as (_, port):
            yield folder, port, exchange(port, look(b"/ledger"), PATIENCE)[1]


def run(program, kind, beside, changes=()):
    """One deadline: whether all tenders are in time, and whether the strangers asked enough. If its ledger takes too long, the office has fewer rows."""
    with served(program, kind, MANY) as (_, _, ledger):
        many = MANY if ledger <= LEDGER else max(1_000, int(MANY * LEDGER / ledger) // 1_000 * 1_000)
    with served(program, kind, many) as (folder, port, ledger):
        deadline, client = int(time.time() + START + BEGIN), Client(Port(port))
        for name in ("R", *(f"T{number}" for number in range(1, TENDERERS + 1))):
            client.register(name)
        for name, lots in (("D", 1), *((f"R{number}", 20) for number in range(20 if beside == "rival" else 0))):
            client.publish(name, notice(text_of(deadline), *(lot(f"L{number}", "100000", 600) for number in range(1, lots + 1))))
        with Front(folder, port, changes) as front:
            assert time.time() < deadline - BEGIN - 3, "the deadline came before all was prepared"
            got, counts = last_seconds(front, deadline, many if kind == "lines" else large_office.IMPORT, beside)
    states, waits = collections.Counter(state for state, _ in got), [wait for _, wait in got]
    print(f"{kind}, {beside}: {dict(states)}; waits: median {statistics.median(waits):.3f} s, longest {max(waits):.3f} s; its ledger alone, of {many:,} rows, "
          f"takes {ledger:.3f} s; strangers: {dict(counts)}")
    asked_enough = all(sum(many for name, many in counts.items() if kind in name) >= least for kind, least in BESIDE[beside][2].items())
    is_good = {*states} - {"sent late"} == {"sealed", "registered"} and states["sent late"] <= OWN_LATE and max(waits) < LONGEST
    return is_good, asked_enough


@pytest.fixture(autouse=True)
def usual_turn():
    """The test may have a priority of its own, which ends with it."""
    yield
    os.sched_setscheduler(0, os.SCHED_OTHER, os.sched_param(0))


@pytest.mark.parametrize("kind, beside", [("lines", beside) for beside in BESIDE] + [("contracts", "crowd")])
def test_none_is_late(program, kind, beside):
    assert run(program, kind, beside) == (True, True)


def test_a_careless_front_is_found(program):
    is_good, _ = run(program, "lines", "crowd", CARELESS)
    assert not is_good


def test_the_clerk_waits_little(program, tmp_path):
    """A query of the clerk takes less than two milliseconds through the front, if the key is as long as it should be. The median of the fastest of five rounds
    counts: other work of the machine makes some rounds slow, and a slow front all of them."""
    times, key = [], b"key" * 16
    settings = tmp_path / "office.toml"
    text = Path(CONFIG).read_text(encoding="utf-8").replace(hashlib.sha256(CLERK[1]).hexdigest(), hashlib.sha256(key).hexdigest())
    settings.write_text(text, encoding="utf-8")
    comes_before(SERVERS)
    with server(program, tmp_path / "office.db", settings=str(settings)) as (_, port), Front(str(tmp_path), port) as front:
        comes_before(TENDERERS_TURN)
        exchange(port, look(b"/ledger"), PATIENCE)
        with contextlib.closing(front.connection("127.0.1.1")) as connection:
            for _ in range(100):
                begun = time.monotonic()
                assert ask_on(connection, "GET", "/tenderers", b"", (b"clerk", key)).status == 200
                times.append(time.monotonic() - begun)
    median = min(statistics.median(times[first:first + 20]) for first in range(0, 100, 20))
    print(f"a clerk's query: median {median * 1000:.2f} ms, longest {max(times) * 1000:.2f} ms")
    assert median < 0.002 * SLOW
