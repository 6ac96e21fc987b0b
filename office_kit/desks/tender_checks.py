"""The questions of tests/desks/test_tender_desk.py in a browser: a tender's life at the desk alone, files that can't be sent, and answers that are lost."""
import json
import os
import signal
import time
from collections.abc import Callable
from typing import Any

from office_kit.client import AHEAD, budget, lot, notice, tender, text_of, wait_until
from office_kit.common import busy
from office_kit.desks.page_checks import is_quiet, keeps_nothing, refusals, texts_of
from office_kit.desks.scene import Scene
from office_kit.desks.tender_page import MADE, RIGHT, SHEET, Desk, digest_of

CITY = {"letterhead": {"en": ["City Hall", "1 Town Square"]}, "remedy": {"en": ["Write to the review chamber."]}}
DAY = 86_400
ITEMS = [("Paving, square metres", 3), ("Kerbs", 10)]
LONG = [(f"Item number {number} of a long list of things that a city buys", number + 1) for number in range(50)]


def prepare(scene: Scene) -> None:
    """The office before the checks: notices to which the desk submits tenders, and two whose deadline comes meanwhile. T1 and T2 are registered. T9 isn't,
    until the check of the key registers it."""
    client = scene.client
    client.import_budget("B1", budget("1000,add,1000000000,Roads"))
    for name, firm in (("T1", "Alpha & Söhne"), ("T2", "Beta")):
        client.register(name, firm)
    far = text_of(time.time() + DAY)
    secured = lot("L1", "1000", 600, 50, *ITEMS)
    client.publish("N1", notice(far, secured, lot("L2", "1000", 9000, 0, ("Paving", 1), title="South"), title="Road repair"))
    more = [lot(name, "1000", 900, 0, *ITEMS) for name in ("L2", "L3", "L4")]
    client.publish("N4", notice(far, lot("L1", "1000", 90_000, 0, *LONG, title="A long list"), *more, title="Things of all kinds"))
    # (two publications and two tenders come before it, even if the machine is busy)
    scene.deadline = int(time.time()) + AHEAD + 8
    client.publish("N2", notice(text_of(scene.deadline), secured, title="Late tenders", late_withdrawal="forfeits"))
    client.publish("N3", notice(text_of(scene.deadline), secured, title="A bridge", performance=70))
    for name in ("N2", "N3"):
        client.present("T2", name, "L1", tender((3, 150), (10, 12), wrong=20), "G2", 60)


def key(scene: Scene) -> None:
    """A key is made, saved, dropped in again; its digest is on the sheet; the clerk registers by the sheet's file; and the office knows it then."""
    desk = Desk(scene)
    desk.at("key", "Key")
    desk.press("Make a key")
    assert "1 to 32 letters" in desk.page.text(), "a missing name"
    lines = desk.make_key("T9", 'Gamma "Bau" & Söhne', "Mill Lane 3").decode().split("\n")
    made = lines[1].removeprefix("Office-Key: ")
    assert lines == ["Office-Caller: T9", f"Office-Key: {made}", ""] and len(made) == 64
    sheet = desk.page.run("document.querySelector('.sheet').innerText")
    assert digest_of(made.encode()) in sheet.replace(" ", "") and made not in sheet and "Mill Lane 3" in sheet
    desk.choose("key-file", scene.path("T9.key"), "its file was saved")
    desk.press("Ask whether", "This key isn't registered yet.")
    desk.press("Save the sheet as a file for the clerk")
    told = json.loads(desk.saved("registration-T9.json"))
    assert told["key"] == digest_of(made.encode())
    scene.client.clerk("/tenderers/T9", {name: told[name] for name in ("name", "address", "key")})
    desk.press("Ask whether", "The register knows T9 by this key.")
    assert desk.can_press("Prepare a tender")
    scene.put("none.key", b"Office-Key: x\n")
    desk.press("Forget the key", "This tab holds no key.")
    desk.choose("key-file", scene.path("none.key"), "This file contains no key.")
    keeps_nothing(scene, desk.page)


def offer(scene: Scene) -> None:
    """A tenderer finds a notice by its number and types a price for each item. Sums appear at once, and so do errors of range. The test compares the file sent,
    its digest, the receipt and the saved file, and whether both belong together."""
    # (A page reads the city's words once, when it begins.)
    city = scene.put("city/city.json", json.dumps(CITY).encode())
    desk = Desk(scene, "T1")
    finds_notice(desk)
    lists_faults(scene, desk)
    sums(scene, desk)
    # A security with a wrong reference can't be sent; with a right one the tender can be checked.
    desk.secure("G 1", 50)
    desk.press("Check before submitting", "1 thing is missing or wrong:")
    desk.at("send", "Check before submitting")
    assert desk.has("bad", "The reference or the amount of the security is missing or wrong.") and not desk.can_press("Submit the tender")
    desk.at("offer/N1/L1", "Tender for")
    desk.fill("security-reference", "G1")
    desk.review()
    assert (texts_of(desk.page, "pre")[0], texts_of(desk.page, "#digest")[0].replace(" ", "")) == (RIGHT.decode(), digest_of(RIGHT))
    receipt = desk.submit()
    assert desk.has("good", "The register received exactly what you submitted.") and not desk.has("bad", ""), desk.page.text()
    names_all(desk)
    os.unlink(city)
    found = scene.client.tender("T1", receipt)
    assert (found["digest"], found["security"], found["lot"]) == (digest_of(RIGHT), receipt, "L1")
    desk.press("Save the receipt")
    desk.press("Save what you submitted")
    kept, sent = json.loads(desk.saved(f"receipt-{receipt}.json")), desk.saved(f"N1-L1-receipt-{receipt}.csv")
    names = ("digest", "receipt", "moment", "state", "notice")
    assert sent == RIGHT and [kept[name] for name in names] == [found[name] for name in names]
    belongs(scene, desk, receipt)
    is_quiet(desk.page)


def sums(_: Scene, desk: Desk) -> None:
    desk.prices("N1", "L1", 150, 12)
    assert [text for text in ("450", "120", "570 EUR") if text not in desk.page.text()] == []


def finds_notice(desk: Desk) -> None:
    """The desk lists open notices, finds one by its number, and reports unit prices that are out of range."""
    desk.at("offer", "Prepare a tender", "are open for tenders")
    assert [text for text in ("Road repair", "Things of all kinds", "closes in") if text not in desk.page.text()] == []
    desk.fill("offer-notice", "N 9")
    desk.press("Show", "Nothing matches these words.")
    desk.fill("offer-notice", "road")
    assert "Things of all kinds" not in desk.page.text() and "1 found" in desk.page.text()
    desk.fill("offer-notice", "n1")
    desk.press("Show")
    desk.shows("Road repair", "offer/N1")
    desk.press("Prepare a tender for lot L1")
    desk.shows("Tender for lot L1")
    for unit, text in (("12.5", "no point and no comma. Round it, or ask the clerk for a larger unit"), ("1000000001", "too much"), ("x", "digits only")):
        desk.fill("unit-1", unit)
        assert text in desk.page.text(), unit


def lists_faults(_: Scene, desk: Desk) -> None:
    """The button lists all faults, and each leads to its field. That of a price is below its row, over the whole width."""
    desk.at("offer/N1/L1", "Tender for")
    desk.fill("unit-1", "x")
    desk.fill("security-amount", "6.000")
    desk.press("Check before submitting", "things are missing or wrong:")
    names = {"Unit price of I1": "unit-0", "Unit price of I2": "unit-1", "Reference of the security": "security-reference", "Amount": "security-amount"}
    listed = texts_of(desk.page, ".bad li")
    assert desk.page.run("[document.activeElement.className, document.getElementById('unit-1-wrong').colSpan]") == ["bad", 5]
    assert len(listed) == len(names) and "I2 Use digits only." in listed[1] and "no point and no comma" in listed[3], listed
    for name, field in names.items():
        desk.press(name)
        assert desk.page.run("document.activeElement.id") == field, name


def names_all(desk: Desk) -> None:
    """The sheet of a receipt has the letterhead, the firm, the notice, the lot, the buyer, and the price with a warning. How to object is for letters."""
    desk.fill("receipt-firm", "Alpha & Söhne")
    sheet = desk.page.run("document.querySelector('.sheet').innerText")
    wanted = ["City Hall\n1 Town Square\n", "This sheet has your price.", "Alpha & Söhne\nT1", "Road repair\nN1", "Buyer\nCity", "570 EUR", "G1, 50 EUR"]
    assert [text for text in wanted if text not in sheet] == [] and "Write to the review chamber." not in sheet
    above = "document.querySelector('main .steps').getBoundingClientRect().bottom <= document.querySelector('.sheet').getBoundingClientRect().top"
    assert desk.page.run(above), "the buttons are below the sheet"


def belongs(scene: Scene, desk: Desk, receipt: int) -> None:
    """The file and its receipt belong together, another file doesn't, and the office has the same."""
    desk.at("check", "Do a file")
    desk.choose("check-file", scene.path(f"N1-L1-receipt-{receipt}.csv"), "63 bytes")
    desk.choose("check-receipt", scene.path(f"receipt-{receipt}.json"), "They belong together.")
    desk.press("Ask the register", "The register has the same tender.")
    desk.choose("check-file", scene.put("other.csv", RIGHT + b"\n"), "They don't belong together.")
    assert not desk.has("good", "belong") and "another length" in desk.page.text()
    desk.choose("check-receipt", scene.put("none.json", b"[1]"), "This file contains no receipt.")


def after_reload(scene: Scene) -> None:
    """A tab that was loaded again says where a submitted tender is, and leads there first. Without a key the place for its file is on the same screen."""
    desk = Desk(scene)
    desk.at("send", "Check before submitting", "If you have submitted one, you find it with its receipt in “My tenders”.")
    assert texts_of(desk.page, "main .button") == ["My tenders", "Prepare a tender"]
    desk.press("My tenders")
    desk.shows("My tenders", "tenders")
    desk.choose("key-file", scene.key_file("T1"), "Change or withdraw ")
    other = Desk(scene)
    other.at("key", "Key")
    assert texts_of(other.page, "main h2")[:2] == ["Use your key", "Make a key"]
    other.prices("N1", "L2", 900)
    other.review()
    other.choose("key-file", scene.key_file("T1"))
    other.page.wait("!document.getElementById('key-file')")
    assert "900 EUR" in other.page.text() and other.can_press("Submit the tender"), "the key takes the prices away"


def files(scene: Scene) -> None:
    """The desk turns a file with semicolons, cents of zero and a formula into a file that the office reads, and shows each change. If it can't, it lists the
    wrong lines and sends nothing. A file that is right is sent unchanged, whether it was dropped or chosen."""
    desk = Desk(scene, "T1")
    desk.at("offer/N1/L2", "Tender for")
    desk.press("Use a file")
    desk.choose("offer-file", scene.put("bad.csv", b"item;quantity;unit;total\nI1;1;1.500;1.500\nI7;1;5;5\nTOTAL;;;1505\n"), "bad.csv can't be used")
    assert desk.has("bad", "could mean two things") and desk.has("bad", "no item “I7”"), desk.page.text()
    desk.press("Check before submitting", "The table above says why.")
    desk.at("send", "Check before submitting")
    assert desk.has("bad", "Prices are missing or wrong.") and not desk.can_press("Submit")
    desk.at("offer/N1/L2", "Tender for")
    desk.choose("offer-file", scene.put("sheet.csv", SHEET.encode("cp1252")), "was converted to the form that the register reads: 1,500 EUR")
    for text in ("Commas replaced the semicolons", "L2/I1 was replaced by I1", "1.500,00 € was read as 1,500", "The column Bezeichnung was removed",
                 "instead of “=C2*D2”"):
        assert desk.has("look", text), text
    desk.page.run(f"""(() => {{
        const data = new DataTransfer();
        data.items.add(new File([{json.dumps(MADE.decode())}], 'own.csv'));
        document.querySelector('.drop').dispatchEvent(new DragEvent('drop', {{ dataTransfer: data, bubbles: true, cancelable: true }}));
    }})()""")
    desk.says("own.csv can be submitted unchanged: 1,500 EUR")
    desk.choose("offer-file", scene.path("sheet.csv"), "sheet.csv was converted")
    desk.review()
    assert scene.client.tender("T1", desk.submit())["digest"] == digest_of(MADE)
    is_quiet(desk.page)


def changes(scene: Scene) -> None:
    """A tender is changed by its receipt, and withdrawn. The page says first what a withdrawal costs, and the button needs a tick."""
    old = scene.client.present("T2", "N1", "L1", RIGHT, "G5", 55)["receipt"]
    desk = Desk(scene, "T2")
    desk.at("tenders", "My tenders")
    desk.page.wait(f"[...document.querySelectorAll('main tbody a')].some((at) => at.textContent === 'Change or withdraw {old}')")
    desk.at(f"tender/{old}", f"Tender with receipt {old}", "G5")
    desk.press("Change the tender", f"take the file that you saved with receipt {old}, for example N1-L1-receipt-{old}.csv")
    desk.prices("N1", "L1", 140, 12)
    desk.press("Check before submitting")
    desk.press(f"Replace the tender with receipt {old}")
    new = desk.receipt()
    assert desk.has("good", f"the tender with receipt {old}, which no longer counts") and "G5, 55 EUR" in desk.page.text(), desk.page.text()
    assert [scene.client.tender("T2", receipt)["state"] for receipt in (old, new)] == ["withdrawn", "sealed"]
    desk.at(f"tender/{new}", f"Tender with receipt {new}")
    desk.press("Change the tender", "The prices that you submitted from this tab are filled in.")
    assert [desk.page.run(f"document.getElementById('unit-{at}').value") for at in (0, 1)] == ["140", "12"]
    withdraws(scene, desk, old, new)
    desk.at("tenders", "My tenders", f"replaced by {new}")
    assert desk.page.run("document.querySelectorAll('tbody tr').length") >= 4
    desk.says("All notices that aren't opened yet are searched.")
    is_quiet(desk.page)


def withdraws(scene: Scene, desk: Desk, old: int, new: int) -> None:
    """A withdrawal needs a tick. If its cost changed meanwhile, the desk asks again. The security is returned."""
    desk.at(f"tender/{new}", f"Tender with receipt {new}")
    assert desk.has("look", "Nothing: the security of 55 EUR (G5) is returned."), desk.page.text()
    assert desk.has("look", "After the deadline this notice allows no withdrawal.") and not desk.can_press("Withdraw the tender")
    # Shortly before the deadline, the page says what a late withdrawal would cost.
    terms = {**json.loads(scene.front.ask("GET", "/notices/N1/terms").body), "late_withdrawal": "forfeits", "deadline": text_of(time.time() + 40)}
    desk.page.answer_for({"/notices/N1/terms": (200, json.dumps(terms).encode())})
    desk.at("check", "Do a file")
    desk.at(f"tender/{new}", "Tender with")
    assert desk.has("bad", "If it comes late, the security of 55 EUR (G5) is forfeited"), desk.page.text()
    desk.page.answer_for({})
    desk.at("check", "Do a file")
    desk.at(f"tender/{new}", "Tender with")
    desk.tick("withdraw-sure")
    # (The deadline comes while the view is shown.)
    desk.page.run("void (Date.now = ((now) => () => now() + 172_800_000)(Date.now.bind(Date)))")
    desk.press("Withdraw the tender", "because the cost may have changed")
    assert scene.client.tender("T2", new)["state"] == "sealed"
    desk.withdraw("The tender is withdrawn.")
    assert (scene.client.tender("T2", new)["state"], scene.client.security("T2", old)["state"]) == ("withdrawn", "returned")


def lost(scene: Scene) -> None:
    """If no answer comes, the page says so, and asks the office about the command. A command that was done is found, and any other may be sent again."""
    desk = Desk(scene, "T1")
    for lot_name, is_done in (("L2", False), ("L3", True)):
        desk.prices("N4", lot_name, 150, 12)
        desk.review()
        desk.page.answer_for({f"/notices/N4/lots/{lot_name}/tenders": None})
        desk.press("Submit the tender", "The register may or may not have done this.")
        if is_done:
            scene.client.present("T1", "N4", lot_name, RIGHT)
        desk.page.answer_for({})
        desk.press("Ask the register what happened")
        if not is_done:
            desk.says("So far the register hasn't received it.")
            desk.press("Submit the tender")
        receipt = desk.receipt()
        assert desk.has("good", "The register received exactly what you submitted.")
        assert scene.client.tender("T1", receipt)["digest"] == digest_of(RIGHT)
    desk.at(f"tender/{receipt}", "Tender with")
    desk.page.answer_for({f"/tenders/{receipt}/withdraw": None})
    desk.withdraw("The register may or may not have done this.")
    desk.page.answer_for({})
    desk.press("Ask the register", "So far the tender isn't withdrawn.")
    scene.client.withdraw("T1", receipt)
    desk.press("Ask the register", "The tender is withdrawn.")


def stopped(scene: Scene) -> None:
    """The office is killed while a tender is sent. The page says so. Once the office serves again, the page asks it and sends the tender. While a withdrawal is
    sent, the button says so and can't be pressed. The new state is shown as soon as the office answers."""
    desk = Desk(scene, "T1")
    desk.prices("N4", "L4", 150, 12)
    desk.review()
    scene.office.send_signal(signal.SIGSTOP)
    desk.press("Submit the tender")
    going = "The tender is being sent …"
    desk.page.expect("the tender is on its way", lambda: desk.has("look", going) and not desk.can_press(going))
    scene.stop()
    desk.says("The register may or may not have done this.")
    desk.press("Ask the register", "The register can't be reached now.")
    scene.start()
    desk.press("Ask the register", "So far the register hasn't received it.")
    scene.office.send_signal(signal.SIGSTOP)
    desk.press("Submit the tender", going)
    assert "So far" not in desk.page.text() and not desk.can_press(going)
    scene.office.send_signal(signal.SIGCONT)
    receipt = desk.receipt()
    assert scene.client.tender("T1", receipt)["state"] == "sealed"
    desk.at(f"tender/{receipt}", "Tender with")
    scene.office.send_signal(signal.SIGSTOP)
    desk.withdraw("The withdrawal is being sent …")
    assert not desk.can_press("The withdrawal is being sent …") and not desk.can_press("Withdraw the tender")
    scene.office.send_signal(signal.SIGCONT)
    begun, before = time.monotonic(), busy()
    desk.says("The tender is withdrawn.")
    assert time.monotonic() - begun < AHEAD * max(before, busy()), "seconds until the new state is shown"


def each_refusal(scene: Scene) -> None:
    """Each refusal of the office is a sentence of its own, in English and in German; what the front or the net says is one too."""
    own = list(refusals())
    answers = [*own, *((status, b'{"front":"no"}') for status in (400, 403, 404, 408, 413, 502, 504)), None, (200, b"{")]
    said: dict[str, list[str]] = {}
    for language, head in (("en", "Not shown"), ("de", "Nicht gezeigt")):
        desk, said[language] = Desk(scene, "T1", language=language), []
        for number, answer in enumerate(answers, 1001):
            desk.page.answer_for({f"/tenders/{number}": answer})
            desk.at(f"tender/{number}", head)
            said[language].append(desk.page.run("document.querySelector('main .bad').innerText"))
        is_quiet(desk.page)
        assert len(set(said[language][:len(own)])) == len(own)
        generic = ("status", "went wrong", "schiefgegangen")
        assert [it for it in said[language] if not it.endswith((".", "-")) or any(word in it.lower() for word in generic)] == []
    assert not set(said["en"]) & set(said["de"])


def late(scene: Scene) -> None:
    """After the deadline: the page warns about a tender, and the office returns it. A late withdrawal costs the security if the notice says so, and the page
    says that first. Otherwise the office refuses it, and the page shows one sentence."""
    wait_until(scene.deadline + 1.05)
    desk = Desk(scene, "T1")
    desk.prices("N2", "L1", 150, 12)
    desk.secure("G9", 50)
    desk.submit_late()
    beta = Desk(scene, "T2")
    beta.page.run("import('/tender/session.js').then(({ session }) => { session.changing = { notice: 'N2', lot: 'L1', receipt: 1 }; })")
    beta.prices("N2", "L1", 140, 12)
    beta.review()
    assert beta.has("bad", "The tender stays as it is and binds you.") and not beta.can_press("Replace the tender"), beta.page.text()
    beta.at("tender/1", "Tender with receipt 1")
    assert beta.has("bad", "the security of 60 EUR (G2) is forfeited") and not beta.can_press("Withdraw the tender"), beta.page.text()
    beta.withdraw("withdrawn late")
    assert scene.client.security("T2", 1)["state"] == "forfeited"
    beta.at("tender/2", "Tender with receipt 2")
    assert beta.has("bad", "this notice allows no withdrawal") and not beta.can_press("Withdraw the tender")


def results(scene: Scene) -> None:
    """After the opening: the lines that were read, the corrections, the award, the contract with its outstanding amount, and its security."""
    wait_until(scene.deadline + 1.05)
    client = scene.client
    client.open("N3")
    client.examine(2)
    award = client.award("N3", "L1")["award"]
    client.sign(award, "P1", 70)
    client.pay(award, "E1", 200)
    scene.settles(*(f"/notices/N3/{part}" for part in ("terms", "record", "releases", "minutes", "evaluation")))
    desk = Desk(scene, "T2")
    desk.at("tender/2", "Tender with receipt 2")
    texts = ("The register read a price of 570 EUR.", "The file stated 550 EUR; the register corrected 1 figure.", "The contract was signed.", "370 EUR",
             "P1: Held")
    assert [text for text in (*texts, "Returned") if text not in desk.page.text()] == []
    desk.page.picture(os.path.join(scene.pictures, "results-desktop-light.png"))
    is_quiet(desk.page)


CHECKS: list[Callable[[Scene], Any]] = [key, offer, after_reload, files, changes, lost, stopped, each_refusal, late, results]
