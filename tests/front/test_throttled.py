"""The loop of docs/TENDERER-API.md by which a tenderer finds a receipt that didn't come, if the front answers some requests with 429.

A server passes requests on to the program, but answers the first ones for some receipts itself: 429, with `Retry-After` or without, or 503. The lines of the
document run unchanged, in bash. They must wait, ask again and end with the tenderer's receipt. If nothing answers any more, they must end, and show none. Two
wrong loops are found: an earlier one that took 429 for another's tender, and the document's own without waiting.
"""
import json
import re
import subprocess
import time
from collections import Counter

import pytest

from office_kit.client import budget, lot, notice, tender, text_of
from office_kit.common import HOST, free_port
from office_kit.docs import documents
from office_kit.front.office import StandIn

pytestmark = pytest.mark.needs("curl")
FOREVER = 3600
# The most seconds for a loop.
LONGEST = 300
# The receipts, in turn: another's, one that the tenderer changed, and the one that is sought.
MINE = 3
OWN = {f"/tenders/{MINE}": 1}
# An earlier loop: it skips everything that isn't a tender of one's own.
EARLIER = "n=1; until alpha $office/tenders/$n | grep -e sealed -e NoSuch; do n=$((n + 1)); done"
WAIT = {"Retry-After": "1"}
ANSWERS = {429: {"front": "too many requests came from this address: wait a while"}, 503: {"name": "Unavailable", "refusal": 32}}
STEPS = [step.text for step in documents.steps_of("docs/TENDERER-API.md")]
# The functions that the document's loop uses, and the loop.
[ALPHA, PLAIN] = [line for text in STEPS for line in text.split("\n") if re.match(r"(alpha|plain)\(\) \{", line)]
[LOOP] = [text for text in STEPS if re.search(r"(?m)^while .*tenders/\$n", text)]


class Front(StandIn):
    """Passes requests on to an office, but for the first ones at a path, which it answers itself; `left` counts these."""

    def __init__(self, client, first, status, fields):
        self.client, self.left, self.status, self.fields = client, Counter(first), status, fields
        super().__init__()

    def answer(self, request):
        if self.left[request.path] > 0:
            self.left[request.path] -= 1
            return self.status, json.dumps(ANSWERS[self.status]).encode(), self.fields
        told = self.client.tender(request.head["Office-Caller"], int(request.path.rpartition("/")[2]))
        return told.status, told.body, {}


@pytest.fixture
def client(serving, tmp_path):
    """The client of an office with the receipts. The folder gets the tenderer's key."""
    (tmp_path / "T1.key").write_text("Office-Caller: T1\nOffice-Key: hello\n")
    client = serving(strict=False).client
    client.import_budget("B1", budget("1000,add,1000,Roads"))
    for name in ("T1", "T2"):
        client.register(name)
    client.publish("N1", notice(text_of(time.time() + FOREVER), lot()))
    client.present("T2", "N1", "L1", tender((3, 140)))
    first = client.present("T1", "N1", "L1", tender((3, 150)))["receipt"]
    assert client.modify("T1", first, tender((3, 145)))["receipt"] == MINE
    return client


def run(loop, address, folder):
    """The output of a loop."""
    script = "\n".join(["rm -f answer", f"office={address}", ALPHA, PLAIN, loop])
    return subprocess.run(["bash", "-c", script], cwd=folder, stdin=subprocess.DEVNULL, capture_output=True, text=True, timeout=LONGEST).stdout


def finds(client, folder, loop, first, status=429, fields=WAIT):
    """Whether a loop finds the receipt. The front must have answered some requests itself."""
    with Front(client, first, status, fields) as front:
        told = run(loop, front.address, folder)
    assert front.left != Counter(first)
    return client.tender("T1", MINE)["digest"] in told and f'"receipt":{MINE}' in told


@pytest.mark.parametrize("least, first, how", [
    (1, OWN, {}),
    (4, {f"/tenders/{MINE}": 2}, {"fields": {"Retry-After": "2"}}),
    (3, {f"/tenders/{number}": 1 for number in range(1, MINE + 1)}, {}),
    (1, OWN, {"fields": {}}),
    (1, OWN, {"status": 503, "fields": {}}),
], ids=["429_at_ones_own", "429_twice_for_two_seconds", "429_at_each", "429_without_retry_after", "503_at_ones_own"])
def test_loop(client, tmp_path, least, first, how):
    """It finds the receipt, and waits for so many seconds."""
    begun = time.monotonic()
    assert finds(client, tmp_path, LOOP, first, **how) and time.monotonic() - begun >= least


@pytest.mark.parametrize("loop", [EARLIER, LOOP.replace("--retry 60 ", "")], ids=["earlier", "without_waiting"])
def test_wrong_loop(client, tmp_path, loop):
    """It misses the receipt."""
    assert not finds(client, tmp_path, loop, OWN)


def test_nothing_answers(client, tmp_path):
    """The loop ends, and shows no receipt."""
    assert "receipt" not in run(LOOP, f"http://{HOST}:{free_port()}", tmp_path)
