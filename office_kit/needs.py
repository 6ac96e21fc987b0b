"""The tools that tests need, each with the package of Debian that has it.

    python3 -m office_kit.needs     prints the packages of missing tools, one on each line
"""
import os
import subprocess
import sys

from office_kit.common import place_of

TOOLS = {"curl": "curl", "sqlite3": "sqlite3", "cc": "gcc", "nginx": "nginx", "chromium": "chromium", "openssl": "openssl", "systemd-analyze": "systemd",
         "node": "nodejs", "pyflakes3": "pyflakes3", "shellcheck": "shellcheck", "mypy": "mypy", "mandoc": "mandoc", "readelf": "binutils", "dpkg-deb": "dpkg",
         "valgrind": "valgrind", "rsync": "rsync", "lintian": "lintian", "dh": "debhelper", "pycodestyle": "pycodestyle", "vulture": "vulture",
         "codespell": "codespell", "tsc": "node-typescript", "ip": "iproute2", "unshare": "util-linux", "jq": "jq", "xxd": "xxd",
         "lslocks": "util-linux", "git": "git", "htpasswd": "apache2-utils", "lowdown": "lowdown"}
# Modules of Python.
MODULES = {"pytest": "python3-pytest", "xdist": "python3-pytest-xdist", "pytest_timeout": "python3-pytest-timeout", "jsonschema": "python3-jsonschema",
           "yaml": "python3-yaml", "hypothesis": "python3-hypothesis"}
# The Python for which Debian's packages are. Another one may come before it on the path.
PYTHON = "/usr/bin/python3"


def has_modules(python: str, *names: str) -> bool:
    """Whether this Python exists and has these modules, or all."""
    return os.path.exists(python) and not subprocess.run([python, "-c", f"import {', '.join(names or MODULES)}"], capture_output=True).returncode


def packages() -> list[str]:
    """The packages whose tools are missing."""
    missing = [package for tool, package in TOOLS.items() if not place_of(tool)]
    if not has_modules(sys.executable) and not has_modules(PYTHON):
        missing += [package for name, package in MODULES.items() if not has_modules(PYTHON, name)]
    return missing


def lacking(tool: str) -> str | None:
    """The words about a tool that is missing, with the way to get it; nothing if it exists."""
    if place_of(tool):
        return None
    return f"missing: {tool}. Get it: " + (f"apt-get install {TOOLS[tool]}" if tool in TOOLS else "docs/CHANGING.md says how")


if __name__ == "__main__":
    print("".join(f"{package}\n" for package in packages()), end="")
