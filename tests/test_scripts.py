"""Tests and checks that are scripts: each runs, and its exit status says how it ended (0 passed, 3 a tool is missing).

The groups run side by side, and the scripts of a group one after another, since they use the same port or most of the machine.
"""
import os

import pytest

from office_kit.common import ROOT, ended
from office_kit.docs import documents

# (README.md has the walk.)
DOCUMENTS = " ".join(path for path in documents.documents() if path != "README.md")
# The scripts: a group, a name, and the command line.
SCRIPTS = [(0, "documents", f"tools/check_docs {DOCUMENTS}"), (1, "copies", "bench/copies 20 --kills 5"), (2, "lint", "tools/lint"),
           (3, "reading", "tools/reading --check"), (3, "pictures", "tools/pictures --check"), (3, "promises", "tools/check_promises"),
           (3, "crates", "tools/check_crates"), (3, "lengths", "tools/check_lengths"), (3, "words", "tools/check_words")]


@pytest.mark.parametrize("words", [pytest.param(line.split(), id=name, marks=pytest.mark.xdist_group(f"scripts-{group}")) for group, name, line in SCRIPTS])
def test_script(words, program):
    status, said = ended(words, cwd=ROOT, env={**os.environ, "PROCURE": program})
    if status == 3:
        pytest.skip("; ".join(line[line.index("missing: "):] for line in said.split("\n") if "missing: " in line) or said)
    print(said)
    if status:
        pytest.fail(f"it ended with status {status}", pytrace=False)
