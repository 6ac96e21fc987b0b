"""The parts that all tests share: fixtures, markers and groups. tests/README.md says how to write a test, and `tools/check --help` how they run.

On a slower machine the bounds by the clock and AHEAD grow by a measured factor.
"""
import contextlib
import ctypes
import math
import os
import shutil
import signal
import sys
import time
from pathlib import Path

import pytest

from office_kit.common import busy


def slowness():
    """How many times slower this machine is than the one where the bounds were measured, which needed 25 ms for this loop; at least 1."""
    begun = time.process_time()
    for _ in range(1_000_000):
        pass
    return max(1.0, (time.process_time() - begun) / 0.025)


# (The workers of xdist and all scripts get these from here. office_kit.client reads AHEAD. Both grow also if other processes use the machine now.)
sys.dont_write_bytecode = True
SLOW = float(os.environ.setdefault("SLOWNESS", f"{slowness():.2f}"))
BUSY = SLOW * max(busy() for _ in range(5))
os.environ.setdefault("AHEAD", str(math.ceil(4 * BUSY)))
os.environ.setdefault("PYTEST_TIMEOUT", str(math.ceil(600 * BUSY)))
os.environ.setdefault("PYTHONDONTWRITEBYTECODE", "1")
# (While a relative folder has no parent, hypothesis looks for one forever.)
os.environ.setdefault("HYPOTHESIS_STORAGE_DIRECTORY", os.path.abspath("build/hypothesis"))

# (An assert in the checks of the screens and of the front says what it compared.)
pytest.register_assert_rewrite("office_kit.desks", "office_kit.front")
from office_kit import needs  # noqa: E402
from office_kit.common import NO_PROGRAM, PROGRAM  # noqa: E402
from office_kit.desks.browser import Browser  # noqa: E402
from office_kit.store.served import Serving  # noqa: E402

# Where CI=true each test must run, but for these: each has its reason.
MAY_BE_SKIPPED = {"tests/audit/test_mirror.py::test_libreoffice": "LibreOffice has 500 MB; it opens tables whose rows other tests have read"}
# The groups that take longest. They begin.
FIRST = ("machine", "desks", "scripts-2", *(f"tests/{name}.py" for name in (
    "desks/test_portal", "front/test_limits", "store/test_standby", "audit/test_mirror", "desks/test_tender_desk", "store/test_formats", "kit/test_measures",
    "docs/test_release", "store/test_broken")))


def pytest_addoption(parser):
    group = parser.getgroup("procure")
    group.addoption("--long", action="store_true", help="also the long forms of tests, which take hours")
    group.addoption("--pictures", metavar="FOLDER", help="leave pictures of the screens in a folder of each module below this one")


# ---- What a test gets.

@pytest.fixture(scope="session")
def program():
    """The program: $PROCURE, or build/procure."""
    return shutil.which(PROGRAM) or pytest.fail(NO_PROGRAM.format(PROGRAM), pytrace=False)


@pytest.fixture(scope="session")
def plain_program(program):
    """The program, for tests that refuse its memory, bound its addresses or run it in valgrind. One with AddressSanitizer bears none of it."""
    if b"__asan_init" in Path(program).read_bytes():
        pytest.skip(f"{program} has AddressSanitizer, and this needs one without")
    return program


@pytest.fixture
def serving(program, tmp_path):
    """Starts offices, each over a file, `serving(file)`, or over a new one, `serving()`. They end with the test."""
    with Serving(program, str(tmp_path)) as start:
        yield start


@pytest.fixture
def office(serving):
    """An office over a new file, with its client."""
    return serving()


@pytest.fixture(scope="module")
def browser(request, tmp_path_factory):
    """Chromium without a window, one for the tests of a module."""
    with Browser(shutil.which("chromium"), str(tmp_path_factory.mktemp("browser")), bool(request.config.getoption("pictures"))) as started:
        yield started


@pytest.fixture(scope="session")
def is_long(request):
    """Whether the long forms of tests run: `tools/soak`."""
    return request.config.getoption("long")


@pytest.fixture(scope="module")
def pictures(request, tmp_path_factory):
    """The folder for pictures of a module's screens, below the one that is named."""
    named = request.config.getoption("pictures")
    folder = Path(named, request.path.stem).absolute() if named else tmp_path_factory.mktemp("pictures")
    folder.mkdir(parents=True, exist_ok=True)
    return str(folder)


# ---- Tests that aren't run.

def pytest_runtest_setup(item):
    missing = [told for mark in item.iter_markers("needs") for told in map(needs.lacking, mark.args) if told]
    if missing:
        pytest.skip("; ".join(missing))


def forbid_skip(report):
    """Where CI=true a test that doesn't run has failed: nobody would read that it was skipped."""
    if report.skipped and os.environ.get("CI") == "true" and report.nodeid.partition("@")[0] not in MAY_BE_SKIPPED:
        report.outcome, report.longrepr = "failed", f"CI=true, and this didn't run. {report.longrepr[2]}"


@pytest.hookimpl(hookwrapper=True)
def pytest_runtest_makereport():
    forbid_skip((yield).get_result())


@pytest.hookimpl(hookwrapper=True)
def pytest_make_collect_report():
    forbid_skip((yield).get_result())


@pytest.hookimpl(tryfirst=True)
def pytest_collection_modifyitems(config, items):
    """Gives tests in a browser their markers, and those of a module one group: they run one after another. The longest groups begin."""
    if not config.getoption("long"):
        config.hook.pytest_deselected(items=[item for item in items if item.get_closest_marker("long")])
        items[:] = [item for item in items if not item.get_closest_marker("long")]
    for item in items:
        if "browser" in item.fixturenames:
            item.add_marker(pytest.mark.needs("chromium"))
            item.add_marker("browser")
        if not item.get_closest_marker("xdist_group"):
            item.add_marker(pytest.mark.xdist_group(item.nodeid.partition("::")[0]))
    items.sort(key=lambda item: (FIRST.index(group_of(item)) if group_of(item) in FIRST else len(FIRST), group_of(item)))


def group_of(item):
    return item.get_closest_marker("xdist_group").args[0]


# ---- The end.

def pytest_configure():
    """Orphans of this process get it as their parent (prctl(2), PR_SET_CHILD_SUBREAPER), so that their processes can be ended."""
    ctypes.CDLL(None).prctl(36, 1)


@pytest.hookimpl(trylast=True)
def pytest_sessionfinish(session, exitstatus):
    """Ends everything that tests left running. In the long form the status is 3 if no test failed and one wasn't run."""
    reporter = session.config.pluginmanager.get_plugin("terminalreporter")
    if hasattr(session.config, "workerinput") or session.config.getoption("dist", "no") == "no":
        while left := [int(child) for file in Path("/proc/self/task").glob("*/children") for child in file.read_text().split()]:
            for child in left:
                with contextlib.suppress(OSError):
                    os.kill(child, signal.SIGKILL)
                    os.waitpid(child, 0)
    if session.config.getoption("long") and reporter and exitstatus == 0 and reporter.stats.get("skipped"):
        session.exitstatus = 3


def pytest_unconfigure(config):
    """The last line has the counts."""
    reporter = config.pluginmanager.get_plugin("terminalreporter")
    if reporter and not hasattr(config, "workerinput"):
        passed, failed, skipped, error = (len(reporter.stats.get(word, ())) for word in ("passed", "failed", "skipped", "error"))
        reporter.write_line(f"{passed} passed, {failed + error} failed, {skipped} skipped")
