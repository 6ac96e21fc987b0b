"""The modules of the screens (web/), run by node: copies of them with texts changed, and questions to them."""
import json
import os
import shutil
import subprocess
import tomllib
from collections.abc import Sequence
from pathlib import Path
from typing import Any

from office_kit.common import ROOT, need

WEB = os.path.join(ROOT, "web")
TESTS = Path(ROOT, "tests", "desks")
# Makes all exports of some modules global. Then each line of the input is a function's source and the values for it. Maps and sets are answered as lists.
LOOP = """
const [web, ...modules] = process.argv.slice(1);
for (const path of modules) Object.assign(globalThis, await import(path));
const plain = (value) => value instanceof Map || value instanceof Set ? [...value].map(plain) : value;
for await (const line of (await import("node:readline")).createInterface({ input: process.stdin })) {
  const [script, ...values] = JSON.parse(line);
  console.log(JSON.stringify(plain(await eval(script)(...values)) ?? null));
}
"""


def copy_of(folder: str, *changes: Sequence[str]) -> str:
    """A copy of the modules in a new folder below this one, with changes: a module, a text, and the text that replaces it."""
    place = Path(folder, "web")
    shutil.copytree(WEB, place)
    # (Modules of node: a package of its own says so.)
    Path(folder, "package.json").write_text('{"type":"module"}')
    for name, old, new in changes:
        text = (place / name).read_text(encoding="utf-8")
        assert text.count(old) == 1, f"{name} has {old!r} {text.count(old)} times"
        (place / name).write_text(text.replace(old, new), encoding="utf-8")
    return str(place)


def data_of(name: str) -> dict[str, Any]:
    """The values of a file beside the tests, tests/desks/NAME.toml."""
    return tomllib.loads((TESTS / f"{name}.toml").read_text(encoding="utf-8"))


class Node(subprocess.Popen[str]):
    """Node.js with the modules of these names, and with the script of a test beside them, tests/desks/SCRIPT.mjs. It ends with its `with`."""

    def __init__(self, script: str, names: str, web: str = WEB, **environment: str) -> None:
        self.web = web
        paths = [f"{web}/{name}.js" for name in names.split()] + [str(TESTS / f"{script}.mjs")]
        super().__init__([need("node", "nodejs"), "--input-type=module", "-e", LOOP, web, *paths], stdin=subprocess.PIPE, stdout=subprocess.PIPE, text=True,
                         env={**os.environ, **environment})

    def ask(self, script: str, *values: Any) -> Any:
        """The answer of a function of JavaScript to these values: an exported one by its name, or one by its source."""
        assert self.stdin and self.stdout
        try:
            print(json.dumps([script, *values]), file=self.stdin, flush=True)
            line = self.stdout.readline()
        except BrokenPipeError:
            line = ""
        assert line, "node ended"
        return json.loads(line)
