"""The tenderer's desk in a page of a browser, as tests use it: places, fields, buttons, files."""
import hashlib
import json

from office_kit.desks.browser import Page
from office_kit.desks.scene import Scene

# The file of the prices 150 and 12 for the items of the first lot.
RIGHT = b"item,quantity,unit,total\nI1,3,150,450\nI2,10,12,120\nTOTAL,,,570\n"
# A file for another lot, as a sheet of a German office writes it, and the file that the desk makes of it.
SHEET = "Pos;Bezeichnung;Menge;Einzelpreis;Gesamtpreis\r\nL2/I1;Straße;1;1.500,00 €;=C2*D2\r\nSumme;;;;1500\r\n"
MADE = b"item,quantity,unit,total\nI1,1,1500,1500\nTOTAL,,,1500\n"


class Desk:
    """The desk in a page of its own, with somebody's key or without one."""

    def __init__(self, scene: Scene, who: str | None = None, width: int = 1280, language: str = "en", page: Page | None = None) -> None:
        self.scene, self.page = scene, page or Page(scene.browser, width)
        self.page.keep_in(scene.front.folder)
        self.page.go(scene.front.address(f"tender/?language={language}"))
        if who:
            self.at("key", "")
            self.choose("key-file", scene.key_file(who))
            self.page.wait(f"document.getElementById('who').textContent.includes('{who}')")

    def at(self, place: str, head: str, *texts: str) -> None:
        """Goes to a place, until a view with this heading is shown that says these texts."""
        self.page.run(f"location.hash = {json.dumps('#' + place)}")
        self.shows(head, place)
        self.says(*texts)

    def shows(self, head: str, place: str | None = None) -> None:
        where = "true" if place is None else f"location.hash.slice(1) === {json.dumps(place)}"
        self.page.run("new Promise((done) => { setTimeout(done, 0); })")
        self.page.drawn(f"{where} && document.querySelector('main h1')?.textContent.startsWith({json.dumps(head)})")

    def says(self, *texts: str) -> None:
        for text in texts:
            self.page.wait(f"document.body?.innerText.includes({json.dumps(text)})")

    def has(self, kind: str, text: str) -> bool:
        """Whether something of a kind (`good`, `look`, `bad`) says something."""
        return bool(self.page.run(f"[...document.querySelectorAll('.{kind}')].some((at) => at.checkVisibility() && at.innerText.includes({json.dumps(text)}))"))

    def press(self, text: str, then: str = "") -> None:
        """Presses the button or link of the view that says so, and waits until the view says something."""
        found = f"[...document.querySelectorAll('main button, main a')].find((at) => at.checkVisibility() && at.textContent.includes({json.dumps(text)}))"
        self.page.wait(f"{found} && !{found}.disabled")
        self.page.run(f"{found}.click()")
        self.says(then)

    def choose(self, field: str, path: str, then: str = "") -> None:
        self.page.choose(field, path)
        self.says(then)

    def can_press(self, text: str) -> bool:
        return bool(self.page.run(f"[...document.querySelectorAll('main button, main a')].some((at) => at.checkVisibility() && !at.disabled && "
                                  f"at.textContent.includes({json.dumps(text)}))"))

    def fill(self, name: str, text: str) -> None:
        self.page.fill(name, text)

    def make_key(self, tenderer: str, name: str, address: str) -> bytes:
        """Makes a firm's key. Returns the file of the key, which the desk saves."""
        self.at("key", "Key")
        for field, text in (("tenderer", tenderer), ("name", name), ("address", address)):
            self.fill(f"key-{field}", text)
        self.press("Make a key", f"Now drop the file {tenderer}.key")
        return self.saved(f"{tenderer}.key")

    def tick(self, name: str) -> None:
        self.page.run(f"document.getElementById({json.dumps(name)}).click()")

    def saved(self, name: str) -> bytes:
        return self.page.saved(self.scene.path(name))

    def review(self) -> None:
        self.press("Check before submitting")
        self.shows("Check before submitting")

    def submit(self) -> int:
        self.press("Submit the tender")
        return self.receipt()

    def submit_late(self) -> None:
        """Submits after the deadline: the page warns about it, and the office records the tender and returns it."""
        assert self.has("bad", "the register returns it as late"), "prices are typed without a warning"
        self.review()
        assert self.has("bad", "The deadline has passed") and not self.can_press("Submit the tender"), "a late tender can be sent without a tick"
        self.tick("send-late")
        self.submit()
        assert self.has("bad", "The tender came late, and the register returned it."), "a late tender is green"

    def receipt(self) -> int:
        self.shows("Receipt ")
        return int(self.page.run("document.querySelector('main h1').textContent.split(' ')[1]"))

    def withdraw(self, then: str) -> None:
        self.tick("withdraw-sure")
        self.press("Withdraw the tender", then)

    def prices(self, notice: str, lot: str, *units: int) -> None:
        self.at(f"offer/{notice}/{lot}", "Tender for")
        for at, unit in enumerate(units):
            self.fill(f"unit-{at}", str(unit))

    def secure(self, reference: str, amount: int) -> None:
        self.fill("security-reference", reference)
        self.fill("security-amount", str(amount))


def digest_of(data: bytes) -> str:
    return hashlib.sha256(data).hexdigest()


def planted(scene: Scene, path: str, old: str, new: str) -> Page:
    """A page of the browser in which one module is changed."""
    text = scene.front.ask("GET", path).body.decode()
    assert text.count(old) == 1, f"{path} has {old!r} {text.count(old)} times"
    page = Page(scene.browser, 1280)
    page.answer_for({path: (200, text.replace(old, new).encode())}, "Script")
    return page
