"""A front for tests. It answers with the files of a folder. Sometimes it answers that it is asked too often, or that it can't answer."""
import email.utils
import re
import time
from pathlib import Path

from office_kit.front.office import Request, StandIn, Told

# The answers that only an opened notice has.
OF_OPENED = ("minutes", "evaluation")
LISTS = {"/ledger": "ledger.txt", "/notices": "notices.json"}
NO_SUCH, NOT_OPENED = b'{"name":"NoSuch","refusal":9,"what":"notice"}', b'{"name":"NotOpened","refusal":22}'


class Front(StandIn):
    """Answers with the files of a folder. Notices K0, K1 and so on have the files of the notice `copied`; the notice `lacking` has none. After `burst` requests
    it answers 429, and after `wait` seconds it takes as many again. The first `failing` requests get 503. `old` says how many seconds old the next ledgers are;
    later ones are of now."""

    def __init__(self, folder: str, copied: str = "", burst: int = 1 << 30, wait: int = 1, failing: int = 0, lacking: str = "",
                 old: tuple[int, ...] = ()) -> None:
        self.folder, self.copied, self.burst, self.wait, self.failing, self.lacking, self.old = folder, copied, burst, wait, failing, lacking, [*old]
        self.left, self.until, self.refused, self.hasty, self.ledgers = burst, 0.0, 0, 0, 0
        super().__init__()

    def turn(self) -> tuple[int, str] | None:
        now = time.monotonic()
        if self.failing > 0:
            self.failing -= 1
            return 503, "0"
        if now < self.until:
            self.hasty += 1
        elif self.left > 0:
            self.left -= 1
            return None
        else:
            # (A client that waits as long as `Retry-After` says comes after this moment.)
            self.left, self.until, self.refused = self.burst, now + self.wait, self.refused + 1
        return 429, str(self.wait)

    def answer(self, request: Request) -> Told:
        if refused := self.turn():
            return refused[0], b'{"front":"wait a while"}', {"Retry-After": refused[1]}
        body = self.body(request.path)
        if body is None:
            return (409, NOT_OPENED, {}) if request.path.endswith(OF_OPENED) else (404, NO_SUCH, {})
        if request.path != "/ledger":
            return 200, body, {}
        self.ledgers += 1
        age = self.old.pop(0) if self.old else 0
        return 200, body, {"Last-Modified": email.utils.formatdate(int(time.time()) - age, usegmt=True)}

    def body(self, path: str) -> bytes | None:
        if path in LISTS:
            return self.read(LISTS[path])
        if path.startswith("/notices?after="):
            return self.read(f"notices-{path.partition('=')[2]}.json")
        found = re.fullmatch(r"/notices/([0-9A-Za-z_.-]+)/(releases|record|minutes|terms|evaluation)", path)
        if not found or found[1] == self.lacking:
            return None
        copy = re.fullmatch("K[0-9]+", found[1])
        data = self.read(f"{found[2]}-{self.copied if copy else found[1]}.{'txt' if found[2] in OF_OPENED else 'json'}")
        return data.replace(self.copied.encode(), found[1].encode()) if copy and data else data

    def read(self, name: str) -> bytes | None:
        path = Path(self.folder, name)
        return path.read_bytes() if path.exists() else None
