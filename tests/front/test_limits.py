"""The front (deploy/front.conf, deploy/nginx/) with nginx alone. In place of the office, a small server records the requests that reach it. The office and a
browser aren't needed. Each check also runs over files in which a fault was planted (test_limits.toml): there it must fail.
"""
import contextlib
import email.utils
import functools
import http.client
import os
import re
import runpy
import subprocess
import time
import tomllib
from collections import Counter
from concurrent.futures import ThreadPoolExecutor
from pathlib import Path

import pytest

from office_kit.common import CLERK, HOST, ROOT, busy, unread, until
from office_kit.front.checks import is_own, placed, routes
from office_kit.front.nginx import OUTSIDE, PATIENCE, Front, exchange, fields_of
from office_kit.front.office import WRONG, Office

pytestmark = [pytest.mark.needs("nginx", "openssl", "curl"), pytest.mark.nginx]
PLANTS = tomllib.loads(Path(__file__).with_suffix(".toml").read_text())
SMALLER = PLANTS.pop("smaller")
TENDERS, ONE, SECURITY, CLERKS_OWN, EVALUATION = "/notices/N1/lots/L1/tenders", "/tenders/1", "/securities/1", "/notices/N1/register", "/notices/N1/evaluation"
# Public queries that read many rows, and the others.
DEAR = ["/ledger", "/lines/1000", "/notices/N1/record", "/notices/N1/releases", "/notices/N1/minutes", EVALUATION]
PUBLIC = DEAR + ["/notices", "/notices/N1/terms"]
WITH_KEYS = [(ONE, "T1"), (SECURITY, "T1"), (CLERKS_OWN, "clerk"), ("/notices/N1/tenders", "T1"), ("/notices/N1/securities", "clerk"), ("/tenderers", "clerk"),
             ("/contracts/1", "T1"), (EVALUATION, "clerk")]
SITE = "https://example.org"
# A right key that is long enough for the front to know it again, and a wrong one.
LONG, WRONG_KEY = "right" * 8, "wrong" * 8


def caller(name, key="right"):
    return name.encode(), key.encode()


def waits(answer):
    """Waits as long as an answer says, and no longer."""
    assert is_own(answer, 429) and answer.head["Retry-After"] == "2"
    time.sleep(int(answer.head["Retry-After"]))


def become_known(front, *callers):
    """These callers ask something, and the front makes a file of each."""
    assert set(statuses_of(front, callers)) == {200}
    assert until(lambda: all(os.path.exists(f"{front.folder}/known/keys/{name.decode()}.{key.decode()[-8:]}") for name, key in callers), 20)


def paths_at(office):
    return [it.path for it in office.came]


def queued(office):
    """How many connections wait in the queue of the office's socket, or are served."""
    return len(unread(office.port))


def are_in(front, asked):
    """Whether each of these requests is answered, or waits on a connection of which nginx has read everything."""
    left = unread(front.port)
    return len(left) + sum(it.done() for it in asked) >= len(asked) and not any(left)


def status_of(front, method, path, who=None, source=HOST, stays=True):
    """The status of the answer to a request on a connection of its own; 0 if none came, or the connection was closed soon."""
    with contextlib.closing(front.connection(source)) as connection, contextlib.suppress(OSError):
        connection.request(method, path, b"x" if method == "POST" else b"", fields_of(who))
        if stays:
            return connection.getresponse().status
        time.sleep(0.3)
    return 0


# Requests beside others: more than any check has at a time.
asking = functools.partial(ThreadPoolExecutor(500).submit, status_of)


def ended(asked, patience=5.0):
    return until(lambda: all(it.done() for it in asked), patience)


def count(asked, status):
    """How many of them have this status by now; 0 is for those that wait, too."""
    return sum((it.result() if it.done() else 0) == status for it in asked)


# ---- What each answer is.

def by_http_2(front, office):
    words = ["curl", "-sS", "-o", os.devnull, "-w", "%{http_version} %{http_code}", "--cacert", front.certificate, front.address("ledger")]
    assert subprocess.run(words, capture_output=True, text=True).stdout == "2 200"


def compressed(front, office):
    """Public answers and files are compressed for clients that accept it. Answers with a key aren't."""
    for path in ["/ledger", "/notices/N1/record", "/page.css", "/openapi.yaml"]:
        plain, answer = front.ask("GET", path), front.ask("GET", path, Accept_Encoding="gzip")
        assert (plain.head["Content-Encoding"], answer.head["Content-Encoding"]) == (None, "gzip"), path
        assert "Accept-Encoding" in answer.head["Vary"] and len(answer.body) < len(plain.body), path
    for path, name in WITH_KEYS:
        answer = front.ask("GET", path, caller=caller(name), Accept_Encoding="gzip")
        assert (answer.status, answer.head["Content-Encoding"]) == (200, None), path


def for_all_sites(front, office):
    """Scripts of any site's page may read public answers and openapi.yaml, and nothing else."""
    asked = [(path, None, ["*", "Retry-After", "cross-origin"]) for path in PUBLIC + ["/health", "/openapi.yaml"]]
    asked += [(path, caller(name), [None, None, "same-origin"]) for path, name in [*WITH_KEYS, ("/", "T1"), ("/page.js", "T1"), ("/nothing", "T1")]]
    for path, who, due in asked:
        head = front.ask("GET", path, caller=who, Origin=SITE).head
        told = [head[name] for name in ("Access-Control-Allow-Origin", "Access-Control-Expose-Headers", "Cross-Origin-Resource-Policy")]
        assert told == due, path


def asked_first(front, office):
    """A browser may ask whether a script of any site may read a public answer that it has already. The front alone says so, and of nothing else."""
    fields = {"Origin": SITE, "Access_Control_Request_Method": "GET", "Access_Control_Request_Headers": "if-none-match"}

    def ask(method, path):
        answer = front.ask(method, path, **(fields if method == "OPTIONS" else {}))
        return answer.status, [answer.head[f"Access-Control-Allow-{name}"] for name in ("Origin", "Methods", "Headers")]
    for path in PUBLIC + ["/health", "/openapi.yaml", "/data/tables.csv"]:
        assert ask("OPTIONS", path) == (204, ["*", "GET, HEAD", "If-None-Match, If-Modified-Since"]), path
        assert ask("GET", path)[1][1:] == [None, None], path
    office.came.clear()
    for path in (TENDERS, CLERKS_OWN, "/", "/nothing", "/notices//x"):
        status, told = ask("OPTIONS", path)
        assert status != 204 and told == [None, None, None], path
    assert not set(PUBLIC) & set(paths_at(office))


def in_the_clear(front, office):
    """Without TLS the pages lead to their addresses with it. A request with a key, and any other path, is refused."""
    def ask(method, path, who=None, port=front.plain_port):
        with contextlib.closing(http.client.HTTPConnection(HOST, port, timeout=PATIENCE)) as connection:
            answer = exchange(connection, method, path, caller=who)
        return answer.status, answer.head["Location"]
    for path in ("/", "/tender", "/tender/", "/clerk/", "/data/", "/data/lots.csv?x=1"):
        for method in ("GET", "HEAD"):
            assert ask(method, path) == (301, f"https://{HOST}{path}"), (method, path)
    refused = [("GET", "/tender/", caller("T1")), ("GET", "/", caller("T1")), ("POST", "/tender/", None), ("GET", "/tenderers", None), ("GET", "/ledger", None),
               ("GET", "/tenders/1", None), ("GET", "/database", None), ("GET", "/ledger", CLERK), ("POST", "/notices/N1/open", CLERK), ("POST", "/", CLERK)]
    for method, path, who in refused:
        assert ask(method, path, who) == (403, None), (method, path, who)
    assert ask("GET", "/ledger", port=front.port) == (400, None)
    assert not office.came


def for_people(front, office):
    """A browser that shows a page gets a page about a wrong address, and about the clerk's desk from elsewhere. Programs get JSON."""
    page = "text/html,application/xhtml+xml,*/*;q=0.8"
    for path, source, status, said in (("/nothing", HOST, 404, "doesn't exist"), ("/tender/none", HOST, 404, "doesn't exist"),
                                       ("/%6cedger", HOST, 404, "doesn't exist"), ("/clerk/", OUTSIDE, 403, "only from the clerks' networks")):
        answer = front.ask("GET", path, source=source, Accept=page)
        text = answer.body.decode()
        assert (answer.status, answer.head["Content-Type"], text.count(said)) == (status, "text/html; charset=utf-8", 2), path
        assert text.startswith("<!DOCTYPE html>") and 'href="/"' in text and 'lang="de"' in text and text.count("<main>") == 1, path
        assert "default-src 'none'" in answer.head["Content-Security-Policy"] and answer.head["X-Content-Type-Options"], path
        for accept in ("*/*", "application/json"):
            assert is_own(front.ask("GET", path, source=source, Accept=accept), status), (path, accept)
    assert is_own(front.ask("GET", "/for_people", Accept="*/*"), 404)
    assert is_own(front.ask("POST", TENDERS, b"x" * 65_537, caller("T1"), Accept=page), 413)


def the_list(front, office):
    """Each page of the list of notices is an answer of its own."""
    for after in ["", "?after=N1", "?after=N2", "?%61fter=N1"] * 2:
        assert front.ask("GET", "/notices" + after).status == 200
    assert len(set(paths_at(office))) == 4 == len(office.came)


def as_the_clerk(front, office):
    """The clerk's key reaches the office with dear public queries, from the clerks' networks alone, and those answers aren't kept. All others get the public
    answer."""
    clerks = [(caller("clerk"), HOST)] * 2
    others = [(None, HOST), (None, OUTSIDE), (caller("T1"), HOST), (caller("clerk"), OUTSIDE), (caller("T1", "wrong"), OUTSIDE)]
    for path in DEAR:
        for asked, keys in ((clerks, [True, True]), (others, [False])):
            office.came.clear()
            for who, source in asked:
                assert front.ask("GET", path, caller=who, source=source).status == 200, (path, who, source)
            assert ["Office-Key" in it.head for it in office.came] == keys, path


def heads(front, office):
    """The front answers HEAD with the head of a GET, which it sends to the office. For public queries, HEAD and GET share one kept answer."""
    for path, who in [(path, None) for path in PUBLIC + ["/health"]] + [(ONE, caller("T1")), (CLERKS_OWN, caller("clerk")), (EVALUATION, caller("clerk"))]:
        office.came.clear()
        answer = front.ask("HEAD", path, caller=who)
        assert answer.status == 200 and not answer.body and answer.head["Content-Type"], path
        assert [it.method for it in office.came] == ["GET"], path
        answer = front.ask("GET", path, caller=who)
        assert answer.status == 200 and answer.body, path
        assert len(office.came) == (1 if path in PUBLIC and not who else 2), path


def the_interface(front, office):
    answer = front.ask("GET", "/openapi.yaml")
    assert answer.head["Content-Type"] == "application/yaml" and answer.body == Path(ROOT, "docs", "openapi.yaml").read_bytes()


def the_health(front, office):
    """/health asks the office each time, for an empty page of its notices, without a key. It can't be asked without end, and monitors are still answered
    then. (Here the rate is smaller.)"""
    for _ in range(4):
        answer = front.ask("GET", "/health", caller=caller("T1", "wrong"))
        assert answer.status == 200 and answer.body.startswith(b"{")
    assert [(it.method, it.path) for it in office.came] == [("GET", "/notices?after=" + "z" * 32)] * 4
    assert not any(name in it.head for it in office.came for name in ("Office-Caller", "Office-Key"))
    with contextlib.closing(front.connection(OUTSIDE)) as connection:
        statuses = [exchange(connection, "GET", "/health").status for _ in range(200)]
    # (Without the limit a few find the place of the way still taken.)
    assert statuses.count(429) > 150
    assert [front.ask("GET", "/health").status for _ in range(5)] == [200] * 5


def no_office(front, office):
    """The front's own answers at locations with keys are JSON."""
    answer = front.ask("POST", "/budget/B1", b"x", caller("clerk"), OUTSIDE)
    assert answer.status == 403 and b"clerks' networks" in answer.body
    office.server_close()
    assert front.ask("POST", f"{TENDERS}?reference=G1&amount=70707", b"x", caller("T1")).status == 502
    assert front.ask("POST", f"{TENDERS}?reference=G1&amount=70707", b"x" * 65_537, caller("T1")).status == 413
    assert "70707" not in front.logged("errors.log") + front.logged("access.log"), "the amount of a tender's security"
    for path in (TENDERS, "/budget/B1", "/health"):
        answer = front.ask("POST", path, b"x", caller("T1"))
        assert answer.status == 502 and b"the office didn't answer" in answer.body, path
        answer = front.ask("POST", path, b"x" * 65_537, caller("T1"))
        assert answer.status == 413 and answer.body.startswith(b'{"front":'), path


def counts(front, office):
    """Each answer is one line that deploy/procure.mtail reads, without an address or a path."""
    form = re.search(r"(?m)^/(\^.*\$)/ \{$", Path(ROOT, "deploy", "procure.mtail").read_text())[1]
    requests = (("GET", "/ledger"), ("GET", "/nothing"), ("HEAD", "/"), ("POST", "/budget/B1", b"", caller("clerk", "wrong")), ("BREW", "/ledger"))
    asked = [front.ask(*it).status for it in requests]
    assert until(lambda: front.logged("counts.log").count("\n") == len(asked))
    told = [re.match(form, line) for line in front.logged("counts.log").splitlines()]
    assert all(told), front.logged("counts.log")
    assert [(it["method"], int(it["status"])) for it in told] == list(zip(("GET", "GET", "HEAD", "POST", "other"), asked))


# ---- How long answers are kept, and how many the office makes at a time.

def kept(front, office):
    """`Last-Modified` is the moment of the office's answer. (nginx counts the age of an answer in whole seconds. So it asks the office again after three to
    four seconds, if it keeps the answer for three, and after one to two, if it keeps it for one.)"""
    begun, seen = time.monotonic(), {}
    given = {path: front.ask("GET", path).head["Last-Modified"] for path in PUBLIC}
    for path, moment in given.items():
        assert moment and abs(email.utils.parsedate_to_datetime(moment).timestamp() - time.time()) < 9, path
    slower = busy()
    while time.monotonic() - begun < 5.5 * slower:
        for number, path in enumerate(PUBLIC, 1):
            answer, at = front.ask("GET", path, source=f"127.0.2.{number}"), time.monotonic() - begun
            if answer.head["Last-Modified"] != given[path]:
                seen.setdefault(path, at)
        time.sleep(0.1)
    assert all(seen.get(path, 99) < 2.7 * slower for path in ("/notices", "/notices/N1/terms")), seen
    assert all(2.5 < seen.get(path, 99) < 4.8 * slower for path in DEAR if path != "/ledger"), seen
    assert "/ledger" not in seen and paths_at(office).count("/ledger") == 1


def shown_meanwhile(front, office):
    """While the front asks for the ledger again, it shows the one before. (Here it is kept for a second, and the office doesn't answer the second time.)"""
    given = front.ask("GET", "/ledger").head["Last-Modified"]
    time.sleep(2.1)
    office.held.clear()
    asked = [asking(front, "GET", "/ledger") for _ in range(5)]
    assert until(lambda: count(asked, 200) == 5, 2)
    office.held.set()
    assert until(lambda: paths_at(office) == ["/ledger"] * 2)
    assert until(lambda: front.ask("GET", "/ledger").head["Last-Modified"] != given)


def the_ledger_rests(front, office):
    """In the seconds in which the front may not ask for the ledger, it shows the one before, or answers 429 and when it may be asked for. Other queries aren't
    affected. (Here it may ask in the first half of each ten seconds, and keeps the ledger for a second.)"""
    def comes(second):
        until(lambda: int(time.time()) % 10 == second, 11)
        return front.ask("GET", "/ledger")
    answer = comes(6)
    assert answer.status == 429 and answer.head["Retry-After"] in ("5", "15", "25", "35") and not office.came
    assert front.ask("GET", "/lines/1000").status == 200
    given = comes(3)
    assert given.status == 200
    later = comes(6)
    assert (later.status, later.head["Last-Modified"]) == (200, given.head["Last-Modified"])
    time.sleep(0.5)
    assert paths_at(office).count("/ledger") == 1


def few_at_a_time(front, office):
    """The office gets two dear queries at a time, however many clients ask, even if they disconnect, and eight others. If one waits too long, the answer is
    429. Of the clerk's queries the office gets two at a time."""
    clerk = caller("clerk", LONG)
    become_known(front, clerk)
    office.held.clear()
    for round_ in range(3):
        asked = [asking(front, "GET", path.format(f"{round_}-{number}"), source=f"127.0.2.{number + 1}", stays=number % 2)
                 for number in range(20) for path in ("/notices/{}/record", "/lines/{}")]
        asked += [asking(front, "GET", CLERKS_OWN, clerk) for _ in range(10)]
        assert until(lambda: queued(office) == 12)
    # (Of the last round 30 stay.)
    assert until(lambda: count(asked, 0) <= 32 and count(asked, 429) >= 16, 20) and queued(office) == 12
    office.held.set()
    assert ended(asked)
    office.pause = 0.02
    asked = [asking(front, "GET", f"/notices/{number}/record", source=f"127.0.3.{number}") for number in range(1, 17)]
    assert ended(asked) and count(asked, 200) == 16


def one_ledger(front, office):
    """The office makes one ledger at a time, for the public and the clerk together."""
    become_known(front, caller("clerk", LONG))
    office.held.clear()
    for _ in range(2):
        asked = [asking(front, "GET", "/ledger", caller("clerk", LONG)) for _ in range(4)]
        asked += [asking(front, "GET", "/ledger", source=f"127.0.2.{number + 1}") for number in range(4)]
        assert until(lambda: queued(office) == 1)
    office.held.set()
    assert ended(asked)


def ten_of_an_address(front, office):
    """An address may have ten dear queries in the front."""
    office.held.clear()
    asked = [asking(front, "GET", "/ledger") for _ in range(30)]
    assert until(lambda: count(asked, 429) == 20)
    office.held.set()
    assert until(lambda: count(asked, 200) == 10)


def ways_are_full(front, office):
    """All ways are full, and the office answers nobody. Ninety tenders of known callers reach its socket, and all succeed once it answers. So do two
    hundred."""
    known = [caller("clerk", LONG), *(caller(f"T{number}", LONG) for number in range(200))]
    become_known(front, *known)
    for many in (90, 200):
        office.held.clear()
        others = [asking(front, "GET", path.format(f"{many}-{number}"), who, f"127.0.4.{number + 1}") for number in range(20)
                  for path, who in (("/notices?{}", None), ("/notices/{}/record", None), (ONE, known[number + 1]), (ONE, caller(f"X{many}-{number}", LONG)),
                                    ("/health", None))]
        others += [asking(front, "POST", "/tenderers/T5", known[0]) for _ in range(20)] + [asking(front, "GET", "/health") for _ in range(5)]
        others += [asking(front, "GET", CLERKS_OWN, known[0]) for _ in range(5)]
        assert until(lambda: are_in(front, others) and queued(office) >= 38, 40) and queued(office) <= 39, queued(office)
        tenders = [asking(front, "POST", TENDERS, known[number + 1], f"127.0.5.{number % 4}") for number in range(many)]
        assert until(lambda: are_in(front, others + tenders), 8) and (many > 90 or until(lambda: queued(office) >= 127, 8)) and count(tenders, 0) == many
        office.held.set()
        assert until(lambda: count(tenders, 0) == 0, 30) and count(tenders, 200) == many
        assert ended(others, 8)


# ---- How often clients may ask.

def too_often(front, office):
    """A client that asks too often learns how long to wait, and then gets its answer. (Here the burst is smaller, and the rate.)"""
    with contextlib.closing(front.connection()) as connection:
        for _ in range(300):
            answer = exchange(connection, "GET", "/lines/1000")
            if answer.status == 429:
                break
    assert answer.head["Access-Control-Allow-Origin"] == "*"
    waits(answer)
    assert front.ask("GET", "/lines/1000").status == 200


def sixty_tenderers(front, office):
    """Sixty tenderers share one address. Each presents three tenders at once, and all reach the office."""
    names = [f"T{number}" for number in range(60)]
    with ThreadPoolExecutor(60) as pool:
        statuses = Counter(pool.map(lambda name: front.ask("POST", TENDERS, b"An offer", caller(name, f"key-of-{name}".ljust(40, "x"))).status, names * 3))
    assert statuses == {200: 180}
    assert Counter(it.head["Office-Caller"] for it in office.came) == Counter(names * 3)


def statuses_of(front, callers, source=HOST, path=TENDERS, **fields):
    """The statuses of requests of these callers, one after another on a connection."""
    with contextlib.closing(front.connection(source)) as connection:
        return [exchange(connection, "POST", path, b"An offer", who, fields).status for who in callers]


def one_caller(front, office):
    """Of one caller's two hundred requests at once, from ten addresses, the office gets some forty, however the caller writes its name and key. Another caller
    of these addresses is answered meanwhile, also under the same name."""
    for key in ("right", LONG):
        begun, sources = time.monotonic(), [f"127.0.2.{number}" for number in range(1, 11)]
        statuses = [status for source in sources for status in statuses_of(front, [caller("T1", key), caller("\tT1\t", f"{key}\t")] * 10, source)]
        # (two more are free each second)
        assert 40 <= statuses.count(200) <= 42 + 2 * (time.monotonic() - begun) and set(statuses) <= {200, 429}
        assert statuses_of(front, [caller("T2"), caller("T1", "another")], sources[0]) == [200, 200]


def invented_names(front, office):
    """A client that comes under a new name each time is limited by its address, also without keys. (Here the burst is smaller, and one more is free each
    minute.)"""
    begun, source = time.monotonic(), "127.0.2.1"
    statuses = statuses_of(front, [caller(f"X{number}", "") for number in range(100)], source)
    assert 40 <= len(office.came) == statuses.count(200) <= 42 + (time.monotonic() - begun) / 60
    office.came.clear()
    begun = time.monotonic()
    statuses = statuses_of(front, [caller(f"X{number}", "wrong" * (1 + 100 * (number % 2))) for number in range(200)])
    assert 60 <= len(office.came) <= 62 + (time.monotonic() - begun) / 60
    assert Counter(statuses) == {401: len(office.came), 429: 200 - len(office.came)}


def one_network(front, office):
    """All IPv6 addresses of a /64 have one limit. (Here a field of the head says the address, the burst is smaller, and one more is free each minute.)"""
    begun, statuses = time.monotonic(), Counter()
    for number in range(4):
        statuses.update(statuses_of(front, [caller(f"X{number}-{it}", "wrong") for it in range(50)], Address=f"2001:db8::{number}:a"))
    assert 60 <= statuses[401] <= 62 + (time.monotonic() - begun) / 60 and statuses[429] == 200 - statuses[401]
    for address in ("2001:db8:0:1::1", "198.51.100.1", "198.51.100.2"):
        assert set(statuses_of(front, [caller(f"X{it}", "wrong") for it in range(50)], Address=address)) == {401}, address


def wrong_keys(front, office):
    """Wrong keys are answered as the office does. However many come from an address, they hold up no caller whom the front knows, at that address or another,
    and nobody at another. Anyone else at that address must wait. (Here the limit is smaller.)"""
    for path, name, source in ((TENDERS, "T1", OUTSIDE), ("/budget/B1", "clerk", HOST), (EVALUATION, "clerk", "127.0.1.7")):
        become_known(front, caller(name, LONG))
        office.came.clear()
        answer = front.ask("POST", path, b"x", caller(name, WRONG_KEY), source)
        assert (answer.status, answer.body, answer.head["Content-Type"]) == (401, WRONG, "application/json") and answer.head["WWW-Authenticate"]
        statuses = statuses_of(front, [caller(name, f"{WRONG_KEY}{it}") for it in range(100)], source, path)
        assert set(statuses) == {401, 429} and len(office.came) == 1 + statuses.count(401)
        others = [(caller(name, LONG), source), (caller(name, LONG), "127.0.1.9"), (caller("T2"), "127.0.1.8")]
        assert [front.ask("GET", ONE, b"", who, at).status for who, at in others] == [200] * 3
        assert statuses_of(front, [caller(name, LONG)] * 20, source, path) == [200] * 20
        assert 429 in statuses_of(front, [caller(f"F{it}", LONG) for it in range(9)], source)


def sixty_behind_wrong_keys(front, office):
    """An address sends three wrong keys under each of sixty names, and in the clerk's. The sixty tenderers of that address, who come for the first time, are
    still answered, and so is the clerk."""
    statuses = statuses_of(front, [caller(name, "wrong") for name in ["clerk", *(f"T{number}" for number in range(60))] * 3])
    assert statuses == [401] * 183
    office.came.clear()
    sixty_tenderers(front, office)
    assert statuses_of(front, [caller("clerk", LONG)], path="/budget/B1") == [200]


# ---- The table of routes.

CALLERS = {"tenderers": ("tenderer", "its tenderer"), "both": ("clerk, its tenderer",)}


def test_routes():
    """The table of routes has the routes and callers of docs/API.md, and the files beside it are made of it. A table with another route or caller is found."""
    folder = Path(ROOT, "deploy", "nginx")
    table, files, made = (folder / "routes.txt").read_text(), ("routes.conf", "route_maps.conf"), runpy.run_path(f"{ROOT}/tools/front_routes")["made"]
    due = {(method, path, who) for method, path, who in routes()}
    assert (folder.parent / "front.conf").read_text().count("\n") <= 40, "what people edit"

    def is_right(text):
        rows = [line.split() for line in text.splitlines() if not line.startswith("#")]
        have = {(method, placed(path), who) for asked_by, _, _, _, method, path in rows for who in CALLERS.get(asked_by, (asked_by,))}
        return due <= have and len(rows) == len(due) and made(text) == {name: (folder / name).read_text() for name in files}
    assert is_right(table)
    faults = [("POST /budget/", "POST /budgets/"), ("both         names", "clerk        names"), ("light      3", "light      4"), ("GET /ledger", "GET /led"),
              ("tenders    0", "names      0"), ("commands   0     budget", "clerk      0     budget")]
    for old, new in faults:
        assert table.count(old) and not is_right(table.replace(old, new)), old


CHECKS = [by_http_2, compressed, for_all_sites, asked_first, in_the_clear, for_people, the_list, as_the_clerk, heads, the_interface, the_health, no_office,
          counts, kept, shown_meanwhile, the_ledger_rests, few_at_a_time, one_ledger, ten_of_an_address, ways_are_full, too_often, sixty_tenderers,
          one_caller, invented_names, one_network, wrong_keys, sixty_behind_wrong_keys]


@pytest.mark.parametrize("one, faults", [pytest.param(one, [fault] if fault else [], id=f"{one.__name__}-fault-{number}" if fault else one.__name__)
                                         for one in CHECKS for number, fault in enumerate([None, *PLANTS[one.__name__]])])
def test_front(tmp_path, one, faults):
    """A check over a front and a server of its own. It must fail if there is a fault."""
    changes = [*SMALLER.get(one.__name__, []), *faults]
    with pytest.raises(AssertionError) if faults else contextlib.nullcontext():
        with Office() as office, Front(str(tmp_path), office.port, changes) as front, contextlib.suppress(BrokenPipeError):
            one(front, office)
