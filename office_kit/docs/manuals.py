"""Manual pages of scripts, made of their heads: what `--help` prints of a script is its page too."""
import ast
import re
import textwrap
import time
from pathlib import Path

from office_kit.common import ROOT, fail

# The commands, each with its section, its script and its purpose.
COMMANDS = {
    "procure-backup": (8, "deploy/backup.sh", "copy and check a procurement office while it is served"),
    "procure-check": (8, "deploy/check", "check a procurement office in operation"),
    "procure-follow": (8, "deploy/follow", "keep a copy of a procurement office on a second machine"),
    "procure-notify": (8, "deploy/notify", "tell people by mail what happens in procurements"),
    "procure-audit": (1, "tools/audit", "audit a procurement office without trusting it"),
    "procure-mirror": (1, "tools/mirror", "copy what a procurement office publishes, and compare"),
}
PAGE = """.\\" Made of the head of {script}.
.Dd {date}
.Dt {title} {section}
.Os
.Sh NAME
.Nm {name}
.Nd {does}
.Sh DESCRIPTION
{body}
.Sh SEE ALSO
procure(1), and INSTALL.md, OPERATING.md, ALARMS.md and AUDITOR.md in
/usr/share/doc/procure/docs
"""
WIDTH = 70


def head_of(script: str) -> str:
    """The text with which a script describes itself: its docstring, or its first comment up to an empty line."""
    text = Path(ROOT, script).read_text(encoding="utf-8")
    if "python" in text.split("\n", 1)[0]:
        return ast.get_docstring(ast.parse(text)) or fail(f"{script} has no head")
    comment = text.split("\n\n", 1)[0].split("\nset ", 1)[0].split("\n")[1:]
    return "\n".join(line.removeprefix("#").removeprefix(" ") for line in comment)


def escaped(text: str) -> str:
    """A text whose characters mean themselves."""
    text = text.replace("\\", "\\e").replace("-", "\\-").replace("`", "\\(ga")
    return re.sub(r"(?m)^([.'])", r"\\&\1", text)


def sentences(text: str) -> str:
    """A text with each sentence on lines of its own."""
    parts = re.split(r"(?<=[.:!?)]) (?=\S)", " ".join(text.split()))
    lines = [line for part in parts for line in textwrap.wrap(part, WIDTH, break_long_words=False, break_on_hyphens=False)]
    return "\n".join(map(escaped, lines))


def part_of(paragraph: str) -> str:
    """A paragraph of a head: words of the command line, a text, or a list after the text before it."""
    if paragraph.startswith("    "):
        return f".Bd -literal -offset indent\n{escaped(textwrap.dedent(paragraph))}\n.Ed"
    for mark, kind in ((r"- ", "-bullet"), (r"\d+\. ", "-enum")):
        before, *items = re.split(rf"(?m)^{mark}", paragraph)
        if items:
            told = [f".Pp\n{sentences(before)}"] if before else []
            return "\n".join([*told, f".Bl {kind}", *(f".It\n{sentences(item)}" for item in items), ".El"])
    return f".Pp\n{sentences(paragraph)}"


def manual_of(name: str, moment: int) -> bytes:
    section, script, does = COMMANDS[name]
    head = head_of(script)
    for other, (_, path, _) in COMMANDS.items():
        head = head.replace(path, other)
    body = "\n".join(part_of(it) for it in re.split(r"\n\s*\n", head.strip("\n"))).removeprefix(".Pp\n")
    return PAGE.format(script=script, date=day_of(moment), title=name.upper(), section=section, name=name, does=does, body=body).encode()


def day_of(moment: int) -> str:
    return time.strftime("%B %-d, %Y", time.gmtime(moment))
