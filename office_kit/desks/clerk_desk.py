"""The clerk's desk in a page of a browser, used as by hand: fields are found by their labels, buttons by their texts."""
import json
from collections.abc import Mapping
from pathlib import Path
from typing import Any

from office_kit.common import check
from office_kit.desks import page_checks
from office_kit.desks.browser import Page
from office_kit.desks.scene import Scene

HANDS = Path(__file__).with_name("hands.js").read_text(encoding="utf-8")
# A text, or several.
Texts = str | tuple[str, ...]


class Desk:
    """The desk in a page of its own. A clerk may sign in first, with a name and a password. After an action the desk must say the texts that are given
    as `says`; then it takes the picture of this name. A `part` is the heading of the part of the screen that has the field or the button."""

    def __init__(self, scene: Scene, width: int = 1280, place: str = "", language: str = "en", sign: str = "") -> None:
        self.scene, self.page = scene, Page(scene.browser, width)
        self.page.ask("Emulation.setTimezoneOverride", timezoneId=page_checks.ZONE)
        self.page.ask("Emulation.setUserAgentOverride", userAgent="a browser", acceptLanguage=language)
        if sign:
            # (as if typed: from now on the browser has them)
            self.page.go(scene.front.address("clerk/").replace("https://", f"https://{sign}@"))
        self.load(place)

    def load(self, place: str = "") -> None:
        self.page.go(self.scene.front.address(f"clerk/{place}"))
        self.page.run(HANDS)

    def hand(self, what: str, *words: str | int) -> Any:
        return self.page.run(f"hands.{what}({', '.join(map(json.dumps, words))})")

    def told(self) -> str:
        return str(self.hand("told"))

    def says(self, texts: Texts, picture: str = "") -> None:
        for text in [texts] if isinstance(texts, str) else texts:
            self.page.wait(f"hands.told().includes({json.dumps(text)})")
        if picture:
            self.picture(picture)

    def hides(self, *texts: str, picture: str = "") -> None:
        told = self.told()
        check(f"one of {texts} is told: {told}", not any(text in told for text in texts))
        self.says((), picture)

    def go(self, screen: str, says: Texts = (), picture: str = "") -> None:
        self.page.run(f"location.hash = {json.dumps('#' + screen)}")
        self.settle(screen, says, picture)

    def settle(self, screen: str, says: Texts = (), picture: str = "") -> None:
        self.page.drawn(f"location.hash === {json.dumps('#' + screen)} && document.title.length > 0 && document.querySelector('main h1, main .look')")
        self.says(says, picture)

    def fill(self, values: Mapping[str, str | float], part: str = "", says: Texts = ()) -> None:
        """Types into fields, by their labels. A number is a second, for a field for date and time."""
        for label, value in values.items():
            self.hand("set", label, value if isinstance(value, str) else int(value) * 1000, part)
        self.says(says)

    def tick(self, label: str, part: str = "", picture: str = "") -> None:
        self.hand("tick", label, part)
        self.says((), picture)

    def drop(self, text: str, name: str, says: Texts = (), picture: str = "") -> None:
        self.hand("drop", text, name)
        self.says(says, picture)

    def press(self, name: str, part: str = "", says: Texts = (), picture: str = "", to: str = "") -> None:
        """Presses a button, which may lead to another screen."""
        where = f"hands.button({json.dumps(name)}, {json.dumps(part)})"
        self.page.wait(f"{where} && !{where}.disabled")
        self.hand("press", name, part)
        if to:
            self.settle(to)
        self.says(says, picture)

    def is_off(self, name: str, part: str = "") -> None:
        """Checks that a button is shown, and can't be pressed."""
        self.page.gives(f"hands.button({json.dumps(name)}, {json.dumps(part)}).disabled")

    def send(self, name: str, says: Texts = (), picture: str = "") -> None:
        """Confirms the window of a command, and presses its button."""
        self.page.wait("document.querySelector('dialog[open] .steps button')")
        self.hand("sure")
        self.press(name, "", says, picture)

    def confirm(self, name: str, done: str, kind: str = "good") -> str:
        """Sends a command, and returns the words that the desk then shows, in a note of this kind."""
        self.send(name, done)
        self.page.run("document.querySelectorAll('dialog[open] details').forEach((at) => { at.open = true; })")
        told = self.told()
        self.page.gives("document.querySelector('dialog[open] [role=status] > *').className", kind)
        self.press("Close")
        # The desk then draws the screen again.
        self.page.drawn("!document.querySelector('dialog')")
        return told

    def order(self, name: str, done: str, part: str = "", asks: Texts = (), send: str = "", says: Texts = ()) -> None:
        """Does a command: presses its button, reads what the window asks, confirms it by the button of this or another name, and reads what was done."""
        self.press(f"{name} …", part, asks)
        self.confirm(send or name, done)
        self.says(says)

    def register(self, name: str, text: str) -> None:
        """Fills in a registration from a firm's file, up to the window of the command."""
        self.go("tenderers")
        self.drop(text, f"registration-{name}.json", "The fields below are filled in from the file.")
        self.press("Register a tenderer")

    def pay(self, number: str, amount: int, left: int, part: str = "Payment") -> None:
        """Records a payment, after which so much is left."""
        self.fill({"Number of the invoice or change": number, "Amount": str(amount)}, part)
        self.order("Record the payment", f"Paid. Outstanding: {left} EUR.", part)

    def give_key(self, then: str = "today") -> None:
        """Gives the key, in any language, and waits for the screen that follows."""
        self.go("key")
        self.page.run("document.querySelector('main form input').value = 'Anna'")
        self.drop("Office-Caller: clerk\nOffice-Key: abc\n", "clerk.key")
        self.page.wait("document.querySelector('main .good')")
        self.page.run("document.querySelector('main form button').click()")
        self.settle(then)

    def reload(self) -> None:
        """Loads the page again, as F5 does."""
        self.page.run("void (window.isOld = true)")
        self.page.ask("Page.reload")
        self.page.drawn("!window.isOld && document.querySelector('main h1')")
        self.page.run(HANDS)

    def close(self) -> None:
        """Leaves the desk, so that nothing of it asks any more."""
        self.page.answer_for({})
        self.page.ask("Page.navigate", url="about:blank")

    def picture(self, name: str) -> None:
        """The screen, narrow and wide, light and dark: within the window, and with contrast."""
        page_checks.in_all_shapes(self.scene, name, self.page)


def with_key(scene: Scene, width: int = 1280, place: str = "", language: str = "en") -> Desk:
    desk = Desk(scene, width, place, language)
    desk.give_key()
    desk.page.gives("document.documentElement.lang", language)
    return desk
