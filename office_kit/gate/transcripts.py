"""Reads files of transcripts by their form, which the head of crates/tests_of_runs/data/setup.txt describes.

    python3 -m office_kit.gate.transcripts > crates/tests_of_runs/stdout      what tests_of_runs must print: counted, not taken from the program
"""
import os
import re
import sys
from pathlib import Path

from office_kit import common
from office_kit.common import CLERK, ROOT

CRATE = os.path.join(ROOT, "crates", "tests_of_runs")
PHRASES = {"200": "OK", "400": "Bad Request", "401": "Unauthorized", "403": "Forbidden", "404": "Not Found", "405": "Method Not Allowed",
           "409": "Conflict", "413": "Payload Too Large", "501": "Not Implemented", "503": "Service Unavailable"}


class Topic:
    """A file: its pieces, each a list of blocks, and its plays, each a kind, a title and lists of names."""

    def __init__(self, name: str) -> None:
        self.name = name
        self.pieces: dict[str, list[str]] = {}
        self.played: list[tuple[str, str, list[list[str]]]] = []
        with open(os.path.join(CRATE, "data", name), encoding="utf-8", newline="") as file:
            head, *sections = file.read().split("\n== ")
        for section in sections:
            first, _, rest = section.partition("\n")
            kind, _, line = first.partition(" ")
            if kind in ("play", "wrong", "alike"):
                title, _, names = line.partition(": ")
                self.played.append((kind, title, [part.split(" ") for part in names.split(" | ")]))
            else:
                self.pieces[kind] = [sent for it in rest.strip("\n").split("\n\n") for sent in blocks_of(it)]


def blocks_of(block: str) -> list[str]:
    """The blocks that a block means. It may begin with a number: it then means so many blocks, with the number of each, from 1, in place of each `#`."""
    counted = re.fullmatch(r"(\d+) (.*)", block, re.S)
    return [counted[2].replace("#", str(number + 1)) for number in range(int(counted[1]))] if counted else [block]


def topics() -> list[Topic]:
    return [Topic(name) for name in Path(CRATE, "args").read_text(encoding="utf-8").split()]


def text_of(line: str) -> str:
    counted = re.fullmatch(r"(\d+) (.*)", line, re.S)
    count, line = (int(counted[1]), counted[2]) if counted else (1, line)
    if line.startswith("> "):
        return line[2:] * count
    if line != "|" and not line.startswith("| "):
        raise ValueError(f"no line of a body: {line}")
    return (line[2:].replace(r"\t", "\t").replace(r"\r", "\r").replace(r"\u{feff}", "\ufeff") + "\n") * count


def request_of(block: str) -> bytes:
    """A block of `procure desk` that asks what a block of a transcript asks."""
    first, *lines = block.split("\n= ", 1)[0].split("\n")
    asked = re.fullmatch(r"at (\S+) (\S+)(?: (.*))?", first)
    if not asked:
        raise ValueError(f"no request: {first}")
    moment, who, rest = asked.groups()
    body = "".join(map(text_of, lines)).encode()
    if who == "bytes":
        return common.block(moment.encode(), body)
    method, target = rest.encode().split(b" ", 1)
    name, colon, key = who.encode().partition(b":")
    caller = {"public": None, "clerk": CLERK}.get(who, (name, key if colon else b"hello"))
    return common.block(moment.encode(), common.request(method, target, body, caller))


def answer_of(block: str) -> tuple[str, str, str] | None:
    """The status, the kind and the body of a block's answer; None if any is right."""
    told = block.split("\n= ", 1)[1]
    if told == "any":
        return None
    first, *lines = told.split("\n")
    status, rest = first.split(" ", 1)
    kind, body = ("text", "") if rest == "text" else rest.split(" ", 1) if rest.startswith(("POST ", "GET ")) else ("", rest)
    return status, kind, body + "".join(text_of(line) for line in lines)


def response_of(block: str) -> str:
    answer = answer_of(block)
    if not answer:
        raise ValueError(f"any answer will do: {block}")
    status, kind, body = answer
    media = "text/plain; charset=utf-8" if kind == "text" else "application/json"
    field = "WWW-Authenticate: Office-Key\r\n" if status == "401" else f"Allow: {kind}\r\n" if kind in ("POST", "GET") else ""
    return (f"HTTP/1.1 {status} {PHRASES[status]}\r\nContent-Type: {media}\r\nContent-Length: {len(body.encode())}\r\n{field}"
            f"Connection: close\r\n\r\n{body}")


def counts() -> str:
    """The lines that tests_of_runs must print. A line `wrong` must be found wrong at its last request, by the answer in the last block of the line `play`
    before it."""
    told, blocks = [], dict[str, list[str]]()
    for topic in topics():
        twice = sorted(blocks.keys() & topic.pieces.keys())
        common.check(f"{topic.name}: there already: {twice}", not twice)
        blocks.update(topic.pieces)
        requests, right = 0, ""
        for kind, title, parts in topic.played:
            lives = [[block for name in names for block in blocks[name]] for names in parts]
            requests += 3 * (sum(map(len, lives)) + len(lives[2]) if kind == "alike" else len(lives[0]))
            if kind == "play" and answer_of(lives[0][-1]):
                right = response_of(lives[0][-1])
            if kind == "wrong":
                told += [f"{topic.name}: {title}, {store}: request {len(lives[0])} is answered by {right}\n" for store in ("in memory", "in SQL", "in a file")]
        plays = len(topic.played)
        told.append(f"{topic.name}: {plays} plays, {requests} requests over memory, SQL and a file: as written\n" if plays else f"{topic.name}: pieces alone\n")
    return "".join(told)


if __name__ == "__main__":
    sys.stdout.buffer.write(counts().encode())
