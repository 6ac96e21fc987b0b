"""An office with its front, in a browser: the parts that the tests of the screens share."""
import contextlib
import os
import subprocess
import tempfile
from collections.abc import Callable, Iterable, Iterator
from dataclasses import dataclass
from pathlib import Path

from office_kit.client import Answer, Client, Front as Transport
from office_kit.common import connect, look, serve_words, until, what_came
from office_kit.desks.browser import Browser
from office_kit.front.clerks import Change, Signing
from office_kit.front.nginx import PATIENCE, Front
from office_kit.store.life import key_of
from office_kit.store.served import MANY, server


@dataclass
class Scene:
    """The front, the browser, the office's process, the folder for pictures, the program, a client that asks the office beside the screens, and the second in
    which a deadline comes. A test may stop the office and start it again."""

    front: Front
    browser: Browser
    office: "subprocess.Popen[bytes]"
    pictures: str
    program: str
    client: Client[Answer]
    deadline: int = 0

    def start(self) -> None:
        self.office = subprocess.Popen(serve_words(self.program, self.path("office.db"), self.front.office, MANY))
        connect(self.front.office, PATIENCE).close()

    def stop(self) -> None:
        self.office.kill()
        self.office.wait()

    def settles(self, *paths: str) -> None:
        """Waits until the front shows the office's answer of now at each path: nginx keeps answers for some seconds."""
        for path in paths:
            def is_of_now(path: str = path) -> bool:
                return what_came(self.front.office, look(path.encode())).endswith(b"\r\n\r\n" + self.front.ask("GET", path).body)
            assert until(is_of_now, PATIENCE), path

    def path(self, name: str) -> str:
        return os.path.join(self.front.folder, name)

    def put(self, name: str, content: bytes) -> str:
        """The path of a new file, which a desk may get or a front may show."""
        path = Path(self.path(name))
        path.parent.mkdir(parents=True, exist_ok=True)
        path.write_bytes(content)
        return str(path)

    def key_file(self, tenderer: str) -> str:
        return self.put(f"{tenderer}.key", f"Office-Caller: {tenderer}\nOffice-Key: {key_of(tenderer)}\n".encode())


@contextlib.contextmanager
def staged(program: str, browser: Browser, pictures: str, fill: Callable[[int], object] = lambda port: None,
           more: Iterable[Change] = (), signing: Signing | None = None) -> Iterator[Scene]:
    """A scene over a new office, which is filled at its port before the front begins."""
    with tempfile.TemporaryDirectory() as folder, server(program, os.path.join(folder, "office.db")) as (office, port):
        fill(port)
        with Front(folder, port, more, signing) as front:
            made = Scene(front, browser, office, pictures, program, Client(Transport(front.address().rstrip("/"), front.context), key_of))
            try:
                yield made
            finally:
                made.stop()
