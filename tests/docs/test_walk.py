"""The walk of README.md, its blocks that are fenced as ```sh run, prints what README.md shows (tools/check_docs says how blocks run).

If another program has the port, the walk stops where the office would begin. It sends that program no key, and nothing but queries.
"""
import re

import pytest

from office_kit.common import FIELDS, free_port, need
from office_kit.docs import documents
from office_kit.front.office import StandIn
from office_kit.needs import TOOLS

WALK = "README.md"
PORT = re.compile(r"^port=\d+$", re.M)


class Other(StandIn):
    """Gives all requests the same answer, and keeps them."""

    def __init__(self, status, body):
        self.told, self.came = (status, body, {}), []
        super().__init__()

    def answer(self, request):
        self.came.append((request.method, request.path, [name.decode() for name in FIELDS if name.decode() in request.head]))
        return self.told


def steps_at(port):
    """The blocks of the walk with another port. README.md explains this to readers whose port is taken."""
    steps, found = documents.steps_of(WALK), 0
    for step in steps:
        step.text, count = PORT.subn(f"port={port}", step.text)
        found += count
    assert found == 1 and any(step.shown for step in steps)
    for tool in documents.missing_tools(steps):
        need(tool, TOOLS[tool])
    return steps


def test_walk(program):
    assert documents.run_steps(WALK, steps_at(free_port()), program) >= 1


@pytest.mark.parametrize("told", [(200, b"<html>hello</html>"), (404, b""), (200, b"LEDGER\nline\n")], ids=["something_else", "nothing", "as_an_office"])
def test_other_program(program, told):
    """The answers of another program at the port to any request: something of its own, an error, and an office's page."""
    with Other(*told) as other, pytest.raises(documents.Wrong):
        documents.run_steps(WALK, steps_at(other.port), program)
    assert [it for it in other.came if it[0] != "GET" or it[2]] == []
