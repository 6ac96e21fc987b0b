"""TypeScript (`tsc --checkJs`) finds nothing in the modules of the screens (web/), by their JSDoc. A fault that is planted there is found.

[tsconfig.json](tsconfig.json) has its options. These are off: `noImplicitAny` and `strictNullChecks` (the modules don't give the types of answers),
`strictPropertyInitialization` and `useUnknownInCatchVariables`.
"""
import shutil
import subprocess

import pytest

from office_kit.desks import modules

pytestmark = pytest.mark.needs("tsc")


def findings(project):
    """The lines that tsc prints about a project."""
    return subprocess.run(["tsc", "--project", project], capture_output=True, text=True).stdout.splitlines()


def test_screens():
    assert findings(modules.TESTS) == []


def test_planted_fault(tmp_path):
    modules.copy_of(str(tmp_path), ("common/office.js", 'this.kind === "away"', 'this.kynd === "away"'))
    project = shutil.copytree(modules.TESTS, tmp_path / "tests" / "desks", ignore=shutil.ignore_patterns("*.py"))
    assert [line for line in findings(project) if "web/common/office.js(" in line and "kynd" in line]
