"""The documents of the repository: their fenced blocks, which are run and compared, and their links. Read by tools/check_docs and tests/docs/test_walk.py.

A block fenced as ```sh run is run. If the next block of the document is fenced as ```text, the run must print it, apart from its last line feeds. The blocks of
a document run in turn in one bash, in an empty folder, with `procure`, `procure-backup`, `procure-check`, `audit` and `check_tender` on the PATH. Each must end
with status 0. curl shows no meter there. Programs that a document leaves running are ended after its last block.
"""
import contextlib
import difflib
import functools
import json
import os
import re
import shutil
import signal
import subprocess
import tempfile
import textwrap
from collections.abc import Iterable, Iterator, Sequence
from dataclasses import dataclass
from pathlib import Path

from office_kit.common import ROOT, files_below
from office_kit.needs import TOOLS

# The commands besides `procure` that blocks find on the PATH.
COMMANDS = {"procure-backup": "deploy/backup.sh", "procure-check": "deploy/check", "audit": "tools/audit", "check_tender": "tools/check_tender"}
# The seconds that a block may take, in the mean.
PATIENCE = 60
SKIPPED = {".git", "build", "out"}
# The documents that scripts make of comments and figures.
MADE = ("docs/GATE.md", "docs/READING.md")
# The pages that name the buttons to press: each bold text in them is a text of these modules. A {value} of a text matches anything.
SCREENS = {f"docs/{folder}{page}.md": (f"web/{desk}/{language}*.js", f"web/common/{language}*.js")
           for page, desk in (("CLERK", "clerk"), ("TENDERER", "tender")) for folder, language in (("", "en"), ("de/", "de"))}
# The first line of a fenced block: its indent, its fence, and the words after that. Then the whole block.
OPENED = re.compile(r"^( *)(`{3,}|~{3,})([^`\n]*)$", re.M)
FENCED = re.compile(OPENED.pattern + r"\n(.*?)^ *\2[`~]*[ \t]*$", re.M | re.S)
LINK = re.compile(r"\]\(\s*<?([^)\s>]+)>?[^)]*\)|^ {0,3}\[[^\]]+\]: +<?(\S+?)>?\s*$", re.M)


class Wrong(Exception):
    """An error in a document, and its line."""

    def __init__(self, path: str, line: int, what: str) -> None:
        super().__init__(f"{path}:{line}: {what}")


@dataclass
class Step:
    """A block that is run: its line, its text, and the text that it must print, or None if no text follows."""

    line: int
    text: str
    shown: str | None


def documents() -> list[str]:
    """The paths of the repository's documents, below its top."""
    return [str(path.relative_to(ROOT)) for path in files_below(ROOT, SKIPPED) if path.suffix == ".md"]


def line_at(text: str, place: int) -> int:
    return text.count("\n", 0, place) + 1


def parts_of(path: str) -> tuple[list[re.Match[str]], str]:
    """The fenced blocks of a document, and its text with empty lines in their place."""
    text = Path(ROOT, path).read_text(encoding="utf-8")
    prose = FENCED.sub(lambda block: "\n" * block[0].count("\n"), text)
    opened = OPENED.search(prose)
    if opened:
        raise Wrong(path, line_at(prose, opened.start()), "a block that nothing ends")
    return list(FENCED.finditer(text)), prose


def inside(block: re.Match[str]) -> str:
    return re.sub(rf"^ {{0,{len(block[1])}}}", "", block[4], flags=re.M).removesuffix("\n")


def steps_of(path: str) -> list[Step]:
    blocks, _ = parts_of(path)
    steps = []
    for block, after in zip(blocks, [*blocks[1:], None]):
        line, info = line_at(block.string, block.start()), block[3].strip()
        if info.split() == ["sh", "run"]:
            steps.append(Step(line, inside(block), inside(after) if after and after[3].strip() == "text" else None))
        elif "run" in info.split():
            raise Wrong(path, line, f"a block fenced as `{info}`: what is run is fenced as `sh run`")
    return steps


def missing_tools(steps: Iterable[Step]) -> list[str]:
    """The tools that these blocks use and that are missing."""
    text = "\n".join(it.text for it in steps)
    return [tool for tool in TOOLS if re.search(rf"(?<![\w./-]){tool}(?![\w./-])", text) and not shutil.which(tool)]


def check_run(path: str, step: Step, told: str, status: str) -> None:
    """Checks that a block ended with status 0, and printed the output in the document."""
    if status != "0":
        how = f"ended with status {status}" if status else "ended the shell, or took too long"
        output = ":\n" + textwrap.indent(told.rstrip(), "    ") if told.strip() else " nothing"
        raise Wrong(path, step.line, f"the block {how}; it printed{output}")
    printed, shown = (text.rstrip("\n").split("\n") for text in (told, step.shown or ""))
    if step.shown is not None and printed != shown:
        lines = "\n".join(difflib.unified_diff(shown, printed, "shown", "printed", lineterm="", n=1))
        raise Wrong(path, step.line, "the block prints something else than is shown behind it:\n" + textwrap.indent(lines, "    "))


def run_steps(path: str, steps: Sequence[Step], program: str) -> int:
    """Runs the blocks of a document, up to the first that fails, and says how many outputs were compared."""
    with tempfile.TemporaryDirectory(prefix="office-docs-") as folder:
        home, tools = Path(folder, "home"), Path(folder, "tools")
        home.mkdir()
        tools.mkdir()
        for name, place in {"procure": program, **COMMANDS}.items():
            (tools / name).symlink_to(os.path.join(ROOT, place))
        (tools / ".curlrc").write_text("no-progress-meter\n")
        for step in steps:
            (tools / f"block{step.line}").write_text(step.text + "\n")
        lines = [f". {tools}/block{it.line} >{tools}/out{it.line} 2>&1 </dev/null; ended=$?; echo $ended; [ $ended = 0 ] || exit" for it in steps]
        places = {"PATH": f"{tools}:{os.environ['PATH']}", "CURL_HOME": str(tools), "LC_ALL": "C.UTF-8"}
        shell = subprocess.Popen(["bash", "--noprofile", "--norc", "-c", "\n".join(lines)], cwd=home, env={**os.environ, **places}, start_new_session=True,
                                 stdout=subprocess.PIPE, stderr=subprocess.DEVNULL, text=True)
        with contextlib.suppress(subprocess.TimeoutExpired):
            shell.wait(PATIENCE * len(steps))
        # (With all that the blocks left running.)
        with contextlib.suppress(ProcessLookupError):
            os.killpg(shell.pid, signal.SIGKILL)
        for step, status in zip(steps, [*shell.communicate()[0].split(), ""]):
            check_run(path, step, (tools / f"out{step.line}").read_text(encoding="utf-8", errors="replace"), status)
    return sum(step.shown is not None for step in steps)


def slug_of(heading: str) -> str:
    """The anchor of a heading, without the marks of links, code and stress, as the common hosts of repositories make it."""
    plain = re.sub(r"[`*]|(?<!\w)_|_(?!\w)", "", re.sub(r"!?\[([^\]]*)\]\([^)]*\)", r"\1", heading))
    return re.sub(r"[^\w\- ]", "", plain.lower()).replace(" ", "-")


@functools.cache
def anchors_of(path: str) -> set[str]:
    """The anchors of a document: of its headings, and those that it names."""
    (_, prose), counts = parts_of(path), dict[str, int]()
    found = set(re.findall(r"<a (?:id|name)=\"([^\"]+)\"", prose))
    for heading in re.findall(r"^#{1,6} +(.*?)(?: +#+)? *$", prose, re.M):
        name = slug_of(heading)
        counts[name] = counts.get(name, -1) + 1
        found.add(f"{name}-{counts[name]}" if counts[name] else name)
    return found


def links_of(path: str) -> Iterator[tuple[int, str]]:
    """The links of a document to places of the repository, each with its line. Text in a code span is no link."""
    text = re.sub(r"(`+).+?\1", "", parts_of(path)[1])
    for found in LINK.finditer(text):
        target = found[1] or found[2]
        if not re.match(r"[a-z][a-z0-9+.-]*:|//", target, re.I):
            yield line_at(text, found.start()), target


def check_link(path: str, line: int, target: str) -> None:
    place, _, anchor = target.partition("#")
    file = os.path.normpath(os.path.join(os.path.dirname(path), place)) if place else path
    if place.startswith("/") or file.startswith("..") or not os.path.exists(os.path.join(ROOT, file)):
        raise Wrong(path, line, f"the link to {target}: there is no {file} in the repository")
    if anchor and not file.endswith(".md"):
        raise Wrong(path, line, f"the link to {target}: {file} has no headings")
    if anchor and anchor not in anchors_of(file):
        raise Wrong(path, line, f"the link to {target}: {file} has no heading of that anchor")


def check_labels(path: str) -> Iterator[Wrong]:
    """The bold texts of a page about screens that aren't texts of these screens."""
    modules = [file.read_text(encoding="utf-8") for pattern in SCREENS[path] for file in sorted(Path(ROOT).glob(pattern))]
    texts = [json.loads(found).replace("\u00ad", "").replace("\u00a0", " ") for module in modules for found in re.findall(r'"(?:[^"\\\n]|\\.)*"', module)]
    parts = [re.split(r"\{\w+\}", text) for text in texts]
    patterns = [re.compile(".+".join(map(re.escape, it))) for it in parts if re.search(r"\w", "".join(it))]
    prose = parts_of(path)[1]
    for found in re.finditer(r"\*\*(.+?)\*\*", prose, re.S):
        label = " ".join(found[1].split())
        if not any(pattern.fullmatch(label) for pattern in patterns):
            yield Wrong(path, line_at(prose, found.start()), f"**{label}** is no text of {', '.join(SCREENS[path])}")
