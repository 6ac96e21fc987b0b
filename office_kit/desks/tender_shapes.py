"""Checks of tests/desks/test_tender_desk.py: how the desk looks, sounds, prints and is used by keyboard; and faults that other checks must find."""
import json
import os
import time
from collections.abc import Callable

from office_kit.client import AHEAD, lot, notice, text_of, wait_until
from office_kit.desks import page_checks
from office_kit.desks.browser import Page
from office_kit.desks.page_checks import focused, in_all_shapes, is_quiet, is_read_out, keeps_nothing, printed_to
from office_kit.desks.scene import Scene
from office_kit.desks.tender_checks import ITEMS, lists_faults, sums
from office_kit.desks.tender_page import MADE, RIGHT, SHEET, Desk, planted


def tab_to(page: Page, name: str) -> None:
    """Moves the focus by the keyboard to the element with this name. It must be seen there, to a pixel."""
    for _ in range(80):
        page.press("Tab")
        # (The window may still scroll to it.)
        page.expect("what has the focus is seen", lambda: focused(page, 1)[1])
        if focused(page)[0].startswith(name):
            return
    raise AssertionError(f"the keyboard doesn't come to {name}")


def keyboard(scene: Scene) -> None:
    """The keyboard alone is enough to submit a tender, and the focus is seen at each step."""
    desk = Desk(scene, "T1")
    page = desk.page
    desk.at("offer", "Prepare a tender")
    assert focused(page)[0] == "Prepare a tender"
    tab_to(page, "offer-notice")
    page.type("N4")
    page.press("Enter")
    desk.shows("Things of all kinds")
    tab_to(page, "Prepare a tender for lot L1")
    page.press("Enter")
    desk.shows("Tender for lot L1")
    for at in range(50):
        tab_to(page, f"unit-{at}")
        page.type(str(at))
    tab_to(page, "Check before submitting")
    page.press("Enter")
    desk.shows("Check before submitting")
    tab_to(page, "Submit the tender")
    page.press("Enter")
    assert scene.client.tender("T1", desk.receipt())["state"] == "sealed"
    assert focused(page)[0].startswith("Receipt")
    other = Desk(scene)
    tab_to(other.page, "Deutsch")
    other.page.press("Enter")
    other.shows("Ein Angebot abgeben")
    assert focused(other.page)[0] == "Deutsch"


# The views, each with its place.
VIEWS = {"home": "", "key": "key", "notice": "offer/N4", "list": "offer/N4/L1", "send": "send", "tenders": "tenders", "tender": "tender/{}", "check": "check",
         "refused": "offer/N9"}


def shapes(scene: Scene) -> None:
    """Each view, in both languages, narrow to wide, light and dark: nothing is wider than the window, texts are seen, and a screen reader reads everything."""
    sealed = scene.client.present("T2", "N1", "L2", MADE)["receipt"]
    for language in ("en", "de"):
        desk = Desk(scene, "T2", language=language)
        goes(desk, "offer/N1/L1", "unit-1")
        desk.fill("unit-0", "150")
        desk.fill("unit-1", "12.5")
        looked_at(scene, desk, "lot", language)
        desk.fill("unit-1", "999999999")
        for name, place in VIEWS.items():
            goes(desk, place.format(sealed))
            looked_at(scene, desk, name, language)
            if name == "send":
                # The page shows the receipt; or the refusal, if a tender exists already.
                desk.press("Submit the tender" if language == "en" else "Angebot abgeben")
                desk.page.wait("document.querySelector('main .good, main .bad')")
                looked_at(scene, desk, "receipt" if language == "en" else "already", language)
            if name == "list":
                # After sending, the view is again that of the offer for N1.
                goes(desk, "offer/N1/L1")
                desk.page.wait("document.getElementById('unit-1') && !document.getElementById('unit-2')")
                desk.fill("unit-0", "150")
                desk.fill("unit-1", "999999999")
                desk.secure("G8", 60)
        with_file(scene, desk, language)
        keeps_nothing(scene, desk.page)


def goes(desk: Desk, place: str, field: str = "who") -> None:
    """Goes to a place in whatever language, until its view is drawn and has a field."""
    desk.page.run(f"location.hash = {json.dumps('#' + place)}")
    desk.page.run("new Promise((done) => { setTimeout(done, 0); })")
    desk.page.drawn(f"document.getElementById('{field}')")


def with_file(scene: Scene, desk: Desk, language: str) -> None:
    """The views of a file that is refused, and of one that is converted."""
    goes(desk, "offer/N1/L2", "source-file")
    desk.page.run("document.getElementById('source-file').click()")
    desk.page.wait("document.getElementById('offer-file')")
    for name, content in (("refused-file", b"item;quantity;unit;total\nI1;1;1.500;1.500\nI7;1;5;5\n"), ("converted-file", SHEET.encode())):
        desk.page.choose("offer-file", scene.put(f"{name}.csv", content))
        desk.page.wait(f"document.querySelector('main').innerText.includes('{name}.csv')")
        looked_at(scene, desk, name, language)


def looked_at(scene: Scene, desk: Desk, name: str, language: str) -> None:
    """One view in all widths, light and dark."""
    called = f"{name}-{language}"
    in_all_shapes(scene, called, desk.page)
    is_read_out(called, desk.page)


def printed(scene: Scene) -> None:
    """The sheets of a registration and of a receipt print alone, without buttons and ways to other views; also as a PDF."""
    receipt = scene.client.present("T2", "N4", "L2", RIGHT)["receipt"]
    desk = Desk(scene)
    desk.make_key("T8", "T8", "T8")
    looked_at(scene, desk, "registration", "en")
    seen = on_paper(scene, desk, "registration")
    page_checks.sheets(scene, desk.page, "registration")
    assert "SHA-256 of the key" in seen and "signature" in seen
    assert "Make a key" not in seen and "Print" not in seen.replace("Printed", "")
    beta = Desk(scene, "T2")
    beta.at(f"tender/{receipt}", "Tender with")
    assert "Withdraw the tender" in on_paper(scene, beta, "tender", is_sheet=False), "a view without a sheet is printed whole"


def on_paper(scene: Scene, desk: Desk, name: str, is_sheet: bool = True) -> str:
    """The texts that are seen on paper. The paper is saved as a PDF too."""
    desk.page.run(f"document.body.classList.toggle('one-sheet', {json.dumps(is_sheet)})")
    desk.page.ask("Emulation.setEmulatedMedia", media="print")
    seen = str(desk.page.run("document.body.innerText"))
    desk.page.picture(os.path.join(scene.pictures, f"{name}-on-paper.png"))
    assert printed_to(desk.page, os.path.join(scene.pictures, f"{name}.pdf")) > 1000
    desk.page.ask("Emulation.setEmulatedMedia", media="")
    return seen


def without_scripts(scene: Scene) -> None:
    """If scripts are turned off, the page names the alternatives."""
    page_checks.without_scripts(scene, "tender/", "needs scripts", "braucht sie Skripte")


def opened(scene: Scene) -> None:
    """A deadline passes while My tenders is shown, and then the clerk opens the tenders. The list says both without a reload, and so does the view of one
    tender. (Here the desk asks every second, in place of every twenty.)"""
    deadline = int(time.time()) + 3 * AHEAD
    scene.client.publish("N5", notice(text_of(deadline), lot("L1", "1000", 600, 0, *ITEMS), title="A short deadline"))
    receipt = int(scene.client.present("T2", "N5", "L1", RIGHT)["receipt"])
    desk, other = (Desk(scene, "T2", page=planted(scene, "/tender/search.js", "AGAIN = 20_000", "AGAIN = 1_000")) for _ in range(2))
    other.at(f"tender/{receipt}", "Tender with receipt")
    desk.at("tenders", "My tenders")
    row = f"[...document.querySelectorAll('main tbody tr')].find((at) => at.cells[0].textContent === '{receipt}')?.innerText"
    desk.page.wait(f"{row}?.includes('Change or withdraw {receipt}')")
    desk.page.run("document.getElementById('tenders-receipt').value = '123'")
    wait_until(deadline + 0.1)
    desk.page.wait(f"{row}.includes('View {receipt}') && {row}.includes('the deadline has passed')")
    desk.says("This page asks every 1 seconds whether the tenders are opened.")
    assert "sealed" in desk.page.run(row)
    desk.page.picture(os.path.join(scene.pictures, "tenders-due-desktop-light.png"))
    wait_until(deadline + 1.05)
    scene.client.open("N5")
    desk.page.wait(f"{row}.includes('opened')")
    assert desk.page.run("document.getElementById('tenders-receipt').value") == "123", "what was typed is gone"
    other.says("The tender is now opened.", "The register read a price of 570 EUR.")
    is_quiet(desk.page)


CHECKS: list[Callable[[Scene], None]] = [opened, keyboard, shapes, printed, without_scripts]


# ---- Faults that are planted, and the checks that must find them.

def other_digest(scene: Scene, desk: Desk) -> None:
    """A receipt with another digest is never green."""
    desk.prices("N4", "L1", *range(50))
    desk.review()
    body = {"digest": "0" * 64, "moment": "2026-01-01T00:00:00Z", "receipt": 77, "security": None, "state": "sealed"}
    desk.page.answer_for({"/notices/N4/lots/L1/tenders": (200, json.dumps(body).encode()), "/tenders/77": (404, b"{}")})
    desk.submit()
    assert desk.has("bad", "something other than this file") and not desk.has("good", "")


def wants_tick(scene: Scene, desk: Desk) -> None:
    receipt = scene.client.present("T2", "N4", "L3", RIGHT)["receipt"]
    desk.at(f"tender/{receipt}", "Tender with")
    is_free = desk.can_press("Withdraw the tender")
    scene.client.withdraw("T2", receipt)
    assert not is_free, "it can be withdrawn without a tick"


# A module of the desk, its text, the text that replaces it, the tenderer whose key is used, and the check that must find it.
PLANTS: list[tuple[str, str, str, str, Callable[[Scene, Desk], None]]] = [
    ("receipt", "const isSame = own === others;", "const isSame = true;", "T1", other_digest),
    ("session", "BigInt(value) * BigInt(offer.lot.items[at].quantity)", "BigInt(value)", "T1", sums),
    ("offer", "[...prices.faults(), ...secured.faults()]", "prices.faults()", "T1", lists_faults),
    ("tenders", "press.disabled = true;\n  const sure", "press.disabled = false;\n  const sure", "T2", wants_tick),
    ("session", "export const session", "localStorage.setItem('key', 'x');\nexport const session", "T1", lambda scene, desk: keeps_nothing(scene, desk.page)),
    ("main", "const MENU = {", "fetch('https://127.0.0.2/').catch(() => 0);\nconst MENU = {", "T1", lambda scene, desk: keeps_nothing(scene, desk.page)),
]
