"""The checks of the repository find what is planted: one run of each over a copy of the sources, scripts and documents, in which some files were changed. Each
must end with status 1 and name all changes. (That they find nothing in the repository itself is in test_scripts.py.)
"""
import os
import sys

import pytest

from office_kit.common import ROOT, copy_into, ended

# A clock that isn't one: a second meaning of `weight_of`, and a definition that READING.md doesn't have.
MACHINE, TIME = "crates/office_machine/specs/Machine.antt", "time_of x = max x.moment x.before.clock.moment"
WEIGHT = "time_of x = max x.moment (weight_of x)\n\n-- where its clock stands\nabbrev pub weight_of : Given → ℕ\nweight_of x = x.before.clock.moment"
LONG = "x" * 161
# The scripts, each with a change that it must find: a file, a text there, the one that replaces it, and words that the script must print.
PLANTED = {
    "reading --check": [(MACHINE, "-- The ", "-- Perhaps the ", "Perhaps the "), (MACHINE, TIME, WEIGHT, "weight_of has 2 meanings")],
    "pictures --check": [
        ("docs/pictures/states.dot", 'security_Held -> security_Returned [label="cancel"]', 'security_Held -> security_Returned [label="open"]',
         "the specification has no arrow security: Held -> Returned by open"),
        ("crates.txt", "award_core: office_base", "award_core: keyed_table office_base", "docs/pictures/crates.dot: not what is made")],
    "check_words": [("docs/STYLE.md", "# Style\n", "# Style\n\nIt stands behind it. Who has it may go.\n", "docs/STYLE.md has ")],
    "check_promises": [("docs/PROMISES.md", "appropriation line t ≡ free line t", "appropriation line t ≡ paid line t", "Accounts.antt doesn't have this")],
    "check_crates": [("crates/office_values/README.md", "`src/money.rt`", "`src/moneys.rt`", "names src/moneys.rt, which isn't there"),
                     ("edits/office_sums/applies_and_carries_nothing.edit", "old: ", "old: x", "applies_and_carries_nothing.edit: ")],
    "check_lengths": [("docs/STYLE.md", "# Style\n", f"# Style\n{LONG}\n" + "more\n" * 3000, "docs/STYLE.md has")],
    "check_docs docs/CHANGING.md": [
        ("docs/CHANGING.md", "# ", "# A\n\n```sh run\necho 4\n```\n\n```text\n5\n```\n\n# ", "the block prints something else"),
        ("docs/STYLE.md", "# Style", "# Style\n\n[a](no_file) [b](#nowhere)\n", "the link to no_file: there is no docs/no_file in the repository")],
}
# Faults for tools/lint, in a folder of their own. In Python: an import and a function that nothing uses, a misspelled word, a long function and a long line. In
# the shell: words that are parted again, and a long line. A function without types, and a scaffold with too many lines.
BODY = "    print(number)\n" * 40
SCRIPTS = {"tool.py": f"import sys\n\n\ndef idle(number):\n    # It is {'rec'}ieved.\n{BODY}\n\nprint('{LONG}')\n",
           "run.sh": f"#!/bin/sh\nls $2\n# {LONG}\n", "office_kit/shared.py": "def twice(number):\n    return 2 * number\n\n\nprint(twice(2))\n",
           "tests/rows.txt": "row\n" * 28_000}
FOUND = ("'sys' imported but unused", "E501 line too long", "unused function 'idle'", " ==> received", "idle has 42 lines, more than 40", "SC2086",
         "run.sh:3: 163 characters, more than 160", "missing a type annotation", "the scaffold has 28,005 lines, more than 28,000")


@pytest.fixture(scope="module")
def folder(tmp_path_factory):
    """A copy of the files that the checks read."""
    made = tmp_path_factory.mktemp("copy")
    copy_into(made, *"tools office_kit docs bench tests deploy edits web crates crates.txt README.md Makefile pyproject.toml".split())
    return made


@pytest.mark.parametrize("script", PLANTED)
def test_planted(folder, script):
    texts = {folder / name: (folder / name).read_text(encoding="utf-8") for name, *_ in PLANTED[script]}
    for name, old, new, _ in PLANTED[script]:
        text = (folder / name).read_text(encoding="utf-8")
        assert old in text, f"{name} no longer has the text that was to be changed: {old}"
        (folder / name).write_text(text.replace(old, new, 1), encoding="utf-8")
    try:
        status, said = ended([sys.executable, *f"tools/{script}".split()], cwd=folder, env={**os.environ, "PROCURE": "/bin/true"})
    finally:
        for path, text in texts.items():
            path.write_text(text, encoding="utf-8")
    assert status == 1 and [words for *_, words in PLANTED[script] if words not in said] == [], said


@pytest.mark.needs("pyflakes3", "pycodestyle", "vulture", "codespell", "shellcheck", "mypy")
def test_lint(tmp_path):
    copy_into(tmp_path, "pyproject.toml")
    for name, text in SCRIPTS.items():
        (tmp_path / name).parent.mkdir(exist_ok=True)
        (tmp_path / name).write_text(text)
    status, said = ended([f"{ROOT}/tools/lint", "--in", "."], cwd=tmp_path)
    assert status == 1 and [words for words in FOUND if words not in said] == [], said
