"""Clients who ask a front beside tenderers, for tests/front/test_deadline.py.

    python3 -m office_kit.front.strangers KIND PORT BEGIN END LINES      from and to a second of this machine's clock; LINES is how many budget lines there are

KIND is one of
- crowd: fifty strangers who ask all that they may, and a clerk's screen that asks all of its queries, again and again;
- eager: strangers and a firm who never pause;
- neighbour: somebody with the address of all tenderers, and with the clerk's, sends wrong keys under each of their names;
- rival: a firm sends 400 tenders of 32 KiB for other lots, at once, from ten addresses;
- citizens: two hundred ask for four budget lines each, at once;
- health: eleven monitors ask for the head of /health, at once.

They connect at once, and ask from BEGIN on, by TLS. At the end the script prints, as JSON, how many answers of each status each kind got.
"""
import asyncio
import contextlib
import itertools
import json
import os
import random
import re
import ssl
import sys
import time
from collections import Counter
from collections.abc import Coroutine, Iterator

from office_kit.common import HOST

LARGEST = 1 << 24
# The address of all tenderers, where they have a neighbour.
NEIGHBOUR = "127.0.8.1"
# Seconds between two requests on a connection: all readers together ask for some 1,000 answers a second.
PAUSE = 0.25
RANDOM = random.Random(1)
Streams = tuple[asyncio.StreamReader, asyncio.StreamWriter]


def request(method: str, path: str, name: str = "", key: str = "", body: bytes = b"") -> bytes:
    who = f"Office-Caller: {name}\r\nOffice-Key: {key}\r\n" if name else ""
    length = f"Content-Length: {len(body)}\r\n" if body else ""
    return f"{method} {path} HTTP/1.1\r\nHost: office\r\n{who}{length}\r\n".encode() + body


HEALTH = [request("HEAD", "/health"), request("HEAD", "/ledger")]
OF_CLERK = [request("GET", path, "clerk", "abc") for path in ("/ledger", "/notices/D/register", "/notices/D/securities", "/notices/N0/evaluation", "/tenderers",
                                                              "/lines/100000")]
# Parts of requests: nothing, half a head, and half a body.
HALVES = (b"", b"GET /ledger HTTP/1.1\r\nHost: of", request("POST", "/notices/D/lots/L1/tenders", "T1", "hello", b"x" * 1000)[:-500])


def queries(lines: int) -> Iterator[bytes]:
    """A reader's queries, at random. Each line, and each page of the list, is another one, so few answers are kept already."""
    while True:
        number = RANDOM.randrange(lines)
        path = RANDOM.choice(["/ledger", f"/lines/{100_000 + number}", f"/lines/{100_000 + number}", f"/notices?after=C{1_000_000 + number}",
                              "/notices/N0/record", "/notices/N0/releases", "/notices/N0/minutes", "/notices/N0/evaluation", "/notices/D/terms",
                              f"/notices/C{1_000_001 + number}/evaluation", f"/notices/C{1_000_001 + number}/minutes"])
        # (A ledger may have megabytes, which this test doesn't need.)
        yield request("HEAD" if path == "/ledger" else "GET", path)


async def answered(streams: Streams, text: bytes) -> str:
    """Sends a request, and reads the answer to its end: its status."""
    streams[1].write(text)
    head = (await streams[0].readuntil(b"\r\n\r\n")).decode("latin-1")
    length = re.search(r"(?i)\r\nContent-Length: (\d+)", head)
    if length and not text.startswith(b"HEAD"):
        await streams[0].readexactly(int(length[1]))
    return head.split(" ")[1]


class Strangers:
    def __init__(self, port: int, begin: float, lines: int) -> None:
        self.port, self.begin, self.lines, self.counts = port, begin, lines, Counter[str]()
        self.context = ssl.create_default_context()
        self.context.check_hostname, self.context.verify_mode = False, ssl.CERT_NONE
        self.invented = (request("POST", "/notices/D/lots/L1/tenders", f"X{number}", "wrong", b"An offer") for number in itertools.count())

    async def connect(self, source: str) -> Streams:
        return await asyncio.open_connection(HOST, self.port, ssl=self.context, local_addr=(source, 0), limit=LARGEST)

    async def asks(self, kind: str, source: str, texts: Iterator[bytes], pause: float = PAUSE) -> None:
        """Asks one thing after another on a connection, which is made again when it ends."""
        while True:
            try:
                streams = await self.connect(source)
                with contextlib.closing(streams[1]):
                    await asyncio.sleep(self.begin - time.time())
                    for text in texts:
                        self.counts[f"{kind} {await answered(streams, text)}"] += 1
                        await asyncio.sleep(pause * RANDOM.uniform(0.5, 1.5))
            except (OSError, asyncio.IncompleteReadError):
                self.counts[f"{kind} closed"] += 1
                await asyncio.sleep(pause)

    async def once(self, kind: str, source: str, text: bytes) -> None:
        """Asks one thing, on a connection made before. (The front closes one that is silent for 15 seconds.)"""
        await asyncio.sleep(self.begin - 9 - time.time())
        try:
            streams = await self.connect(source)
            with contextlib.closing(streams[1]):
                await asyncio.sleep(self.begin - time.time())
                self.counts[f"{kind} {await answered(streams, text)}"] += 1
        except (OSError, asyncio.IncompleteReadError):
            self.counts[f"{kind} closed"] += 1

    async def goes_away(self, source: str) -> None:
        """Asks for something dear, and closes the connection at once."""
        await asyncio.sleep(self.begin - time.time())
        for text in queries(self.lines):
            with contextlib.suppress(OSError):
                _, writer = await self.connect(source)
                writer.write(text)
                await asyncio.sleep(0.01)
                writer.transport.abort()
                self.counts["leaver sent"] += 1
            await asyncio.sleep(PAUSE / 2)

    async def is_slow(self, source: str, part: bytes) -> None:
        """Sends a part of a request, and nothing else, and stays."""
        while True:
            with contextlib.suppress(OSError):
                reader, writer = await self.connect(source)
                writer.write(part)
                self.counts["slow opened"] += 1
                with contextlib.closing(writer):
                    await reader.read()
                self.counts["slow closed"] += 1

    def crowd(self) -> Iterator[Coroutine[None, None, None]]:
        """25 are readers, each with as many connections as it may have requests in the front. 5 are monitors. 5 don't wait for answers. 5 submit tenders under
        names that they invent. 10 are slow."""
        sources = [f"127.0.6.{number}" for number in range(1, 51)]
        yield from (self.asks("reader", source, queries(self.lines), 2 * PAUSE) for source in sources[:25] for _ in range(10))
        yield from (self.asks("monitor", source, itertools.cycle(HEALTH)) for source in sources[25:30] for _ in range(4))
        yield from (self.goes_away(source) for source in sources[30:35] for _ in range(4))
        yield from (self.asks("inventor", source, self.invented) for source in sources[35:40] for _ in range(10))
        yield from (self.is_slow(source, HALVES[at % 3]) for source in sources[40:] for at in range(20))
        yield from (self.asks("clerk", "127.0.1.1", itertools.cycle(OF_CLERK), 0.01) for _ in range(5))

    def eager(self) -> Iterator[Coroutine[None, None, None]]:
        own = request("GET", "/notices/D/tenders", "R", "hello")
        asked = {"lines": queries(self.lines), "monitor": itertools.cycle(HEALTH), "firm": itertools.cycle([own]), "inventor": self.invented}
        yield from (self.asks(f"eager {kind}", f"127.0.5.{number}", texts, 0) for number, (kind, texts) in enumerate(asked.items(), 1) for _ in range(5))

    def neighbour(self) -> Iterator[Coroutine[None, None, None]]:
        guesses = [(NEIGHBOUR, request("POST", "/notices/D/lots/L1/tenders", f"T{number}", "wrong", b"x")) for number in range(1, 61)]
        guesses.append(("127.0.1.1", request("POST", "/tenderers/T99", "clerk", "wrong", b"x")))
        yield from (self.asks("neighbour", source, itertools.cycle([text]), 1.2) for source, text in guesses)

    def rival(self) -> Iterator[Coroutine[None, None, None]]:
        yield from (self.once("rival", f"127.0.5.{number // 40 + 1}", request("POST", f"/notices/R{number // 20}/lots/L{number % 20 + 1}/tenders", "R", "hello",
                                                                          b"z" * 32_768)) for number in range(400))

    def citizens(self) -> Iterator[Coroutine[None, None, None]]:
        yield from (self.once("citizen", f"127.0.6.{number % 200 + 1}", request("GET", f"/lines/{100_000 + number % self.lines}")) for number in range(800))

    def health(self) -> Iterator[Coroutine[None, None, None]]:
        yield from (self.once("monitor", f"127.0.6.{number}", HEALTH[0]) for number in range(1, 12))

    async def shares(self) -> None:
        """Until shortly before they begin, they come before other programs, so that all of them are connected by then. Now they don't any more."""
        await asyncio.sleep(self.begin - 0.2 - time.time())
        os.sched_setscheduler(0, os.SCHED_OTHER, os.sched_param(0))

    async def run(self, kind: str, end: float) -> None:
        kinds = {"crowd": self.crowd, "eager": self.eager, "neighbour": self.neighbour, "rival": self.rival, "citizens": self.citizens, "health": self.health}
        with contextlib.suppress(TimeoutError):
            async with asyncio.timeout(end - time.time()), asyncio.TaskGroup() as group:
                for task in (self.shares(), *kinds[kind]()):
                    group.create_task(task)


if __name__ == "__main__":
    strangers = Strangers(int(sys.argv[2]), float(sys.argv[3]), int(sys.argv[5]))
    asyncio.run(strangers.run(sys.argv[1], float(sys.argv[4])))
    print(json.dumps(strangers.counts))
