"""`tools/check` and `.ci/run`: a test that doesn't run, or that never ends, is reported; with CI=true it has failed. What tests leave running is ended.

Planted tests take the place of the repository's, and a stand-in that of the gate.
"""
import os
import sys

import pytest

from office_kit.common import copy_into, ended, place_of, stand_in
from office_kit.needs import TOOLS

PLANTED = '''
import subprocess

import pytest

from office_kit.common import need


def test_passes(): subprocess.run("sleep 1000 & echo $! > left.pid", shell=True, check=True)
def test_fails(): subprocess.run(["false"], check=True)
@pytest.mark.timeout(3)
def test_hangs(): subprocess.run(["sleep", "600"])
@pytest.mark.needs("nothing-of-this-name")
def test_skips(): pass
def test_skips_within(): need("nothing-of-that-name", "nothing")
'''
LATE = "import os\nimport pytest\nif 'LATE' in os.environ: pytest.importorskip('nothing_like_it')\ndef test_late(): pass\n"
LIBREOFFICE = "import pytest\n\n\ndef test_libreoffice(): pytest.skip('missing: soffice')\n"


def check(folder, *words, **more):
    """The status of tools/check in a checkout that has the planted tests alone, and its lines."""
    copy_into(folder, "tools/check", "tests/conftest.py", "pyproject.toml", "office_kit")
    for name, text in {"test_planted.py": PLANTED, "audit/test_mirror.py": LIBREOFFICE, "test_late.py": LATE}.items():
        (folder / "tests" / name).parent.mkdir(exist_ok=True)
        (folder / "tests" / name).write_text(text)
    own = {name: value for name, value in os.environ.items() if name != "CI" and not name.startswith("PYTEST_")}
    status, said = ended(["tools/check", *words], cwd=folder, env={**own, **more, "PROCURE": "/bin/true"})
    return status, said.rstrip("\n").split("\n")


def test_counts(tmp_path):
    """Skipped tests are no failures on a developer's machine, and the last line has their number."""
    status, lines = check(tmp_path, "--jobs", "2", LATE="yes")
    assert (status, lines[-1]) == (1, "1 passed, 2 failed, 4 skipped"), lines
    said = "\n".join(lines)
    assert "Timeout >3.0s" in said and "missing: nothing-of-this-name. Get it: docs/CHANGING.md" in said and "apt-get install nothing" in said
    assert not os.path.exists(f"/proc/{(tmp_path / 'left.pid').read_text().strip()}")


@pytest.mark.parametrize("word, more, status, last", [
    ("passes", {}, 0, "1 passed, 0 failed, 0 skipped"), ("skips", {}, 1, "0 passed, 2 failed, 0 skipped"),
    ("libreoffice", {}, 0, "0 passed, 0 failed, 1 skipped"), ("passes", {"LATE": "yes"}, 1, "1 passed, 1 failed, 0 skipped"),
], ids=["passed", "skipped", "skipped_with_a_reason", "a_module"])
def test_ci(tmp_path, word, more, status, last):
    got, lines = check(tmp_path, word, CI="true", **more)
    assert (got, lines[-1]) == (status, last), lines


def test_no_such_test(tmp_path):
    assert check(tmp_path, "nothing_like_it")[0] == 2


@pytest.mark.parametrize("missing, status", [("", 0), ("curl", 1)], ids=["all_tools", "no_curl"])
def test_ci_run(tmp_path, missing, status):
    """`.ci/run` doesn't begin the gate while a tool is missing, and then ends with another status than 0. apt-get gets nothing here."""
    copy_into(tmp_path, ".ci/run", "tools/check", "office_kit")
    (tmp_path / "Makefile").write_text("test:\n\ttouch gate\ncheck:\n\ttest $(CI) = true\n")
    (tmp_path / "bin").mkdir()
    for tool in {"sh", "env", "python3", "make", "df", "touch", "test", "id", "dirname", *TOOLS} - {missing}:
        if place := sys.executable if tool == "python3" else place_of(tool):
            (tmp_path / "bin" / tool).symlink_to(place)
    stand_in(str(tmp_path / "bin" / "apt-get"), "exit 1")
    got, said = ended([".ci/run"], cwd=tmp_path, env={"PATH": str(tmp_path / "bin"), "HOME": os.environ["HOME"]})
    assert (got, (tmp_path / "gate").exists()) == (status, not status), said
    assert not missing or f"the gate wasn't begun: make check still misses {missing}" in said
