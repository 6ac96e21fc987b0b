"""The checks of tests/desks/test_together.py: a procurement by the screens of the clerk, of three firms and of the public alone. Then a firm loses its key."""
import base64
import csv
import re
import time
from collections.abc import Callable
from pathlib import Path

from office_kit.client import AHEAD, wait_until
from office_kit.desks import clerk_desk, page_checks
from office_kit.desks.clerk_checks import NUMBER, budget_part, publish_part
from office_kit.desks.page_office import mirror_beside
from office_kit.desks.scene import Scene
from office_kit.desks.tender_page import Desk

# Seconds from the publication to the deadline: for three firms at their desks.
SOON = AHEAD + 36
FIRMS = {"T1": ("Alpha & Söhne", "High Street 1"), "T2": ("Beta Ltd", "Low Street 2"), "T3": ("Gamma", "Mill Lane 3")}
# The sheet of the second firm.
SHEET = "Pos;Menge;EP;GP\r\nI1;3;140,00;420,00\r\nI2;10;12,00;120,00\r\nSumme;;;540,00\r\n".encode("cp1252")


def enrol(scene: Scene, clerk: clerk_desk.Desk, name: str, firm: str, address: str) -> Desk:
    """A firm makes its key, saves it, drops it in again, and saves the file from which the clerk registers it."""
    desk = Desk(scene)
    desk.make_key(name, firm, address)
    desk.press("Save the sheet as a file for the clerk")
    file = desk.saved(f"registration-{name}.json")
    desk.choose("key-file", scene.path(f"{name}.key"), "its file was saved")
    clerk.register(name, file.decode())
    clerk.confirm("Register the tenderer", f"{name} is registered.")
    return desk


def submit(desk: Desk) -> int:
    """Checks an offer, and sends it. Returns its receipt, which must be green."""
    desk.review()
    receipt = desk.submit()
    assert desk.has("good", "The register received exactly what you submitted.") and not desk.has("bad", ""), desk.page.text()
    return receipt


def offers(alpha: Desk, beta: Desk, gamma: Desk) -> None:
    """The first firm types prices for both lots, the second drops a sheet's file; the third has its prices ready, and waits too long."""
    alpha.at("offer", "Prepare a tender")
    alpha.press("Road repair")
    alpha.shows("Road repair")
    alpha.prices("N1", "L1", 150, 12)
    alpha.secure("G1", 50)
    first = submit(alpha)
    sheet = alpha.page.run("document.querySelector('.sheet').innerText")
    assert [text for text in ("Alpha & Söhne\nT1", "Road repair\nN1", "This sheet has your price.") if text not in sheet] == []
    alpha.prices("N1", "L2", 290)
    submit(alpha)
    beta.at("offer/N1/L1", "Tender for")
    beta.press("Use a file")
    beta.choose("offer-file", beta.scene.put("sheet.csv", SHEET), "was converted to the form that the register reads: 540 EUR")
    beta.secure("G2", 50)
    submit(beta)
    alpha.at("tenders", "My tenders", "2 tenders: sealed ones first, the nearest deadline first")
    alpha.at(f"tender/{first}", "Tender with")
    assert alpha.has("look", "Nothing: the security of 50 EUR (G1) is returned."), "what a withdrawal costs isn't told"
    gamma.prices("N1", "L1", 100, 10)
    gamma.secure("G3", 50)


def decide(clerk: clerk_desk.Desk) -> None:
    """The opening, the examinations, the awards and the contracts."""
    clerk.go("today", says="Open the tenders, whose deadline has passed")
    clerk.go("notice/N1")
    clerk.order("Open the tenders", "3 tenders of notice N1 are open.")
    for name, receipt in (("Alpha & Söhne", 1), ("Alpha & Söhne", 2), ("Beta Ltd", 3)):
        clerk.tick("Requirements met", f"Examination of {name}, receipt {receipt}")
    clerk.order("Record the results", "2 tenders are examined.", "Lot L1")
    clerk.order("Record the results", "1 tender is examined.", "Lot L2")
    clerk.order("Award the lot", "Lot L1 goes to Beta Ltd for 540 EUR", "Lot L1")
    clerk.order("Award the lot", "Lot L2 goes to Alpha & Söhne for 290 EUR", "Lot L2")
    for contract, lot in ((1, "Lot L1"), (2, "Lot L2")):
        clerk.fill({"Reference of the performance security": f"P{contract}", "Amount of the performance security": "70"}, lot)
        clerk.order("Sign the contract", f"Contract {contract} is signed.", lot)


def pay(clerk: clerk_desk.Desk) -> None:
    """Two payments of the first contract, which ends then; the second one ends by default, in red."""
    clerk.pay("I-1", 300, 240, "Lot L1")
    clerk.pay("I-2", 240, 0, "Lot L1")
    clerk.says("Lot L1: end contract 1, which is paid in full")
    clerk.fill({NUMBER: "I-1"}, "Lot L2", says="Careful: the number I-1 is also used in contract 1.")
    clerk.press("End the contract", "Lot L1")
    clerk.order("End the contract as agreed", "Contract 1 has ended.", "Lot L1", send="End the contract")
    clerk.press("End the contract", "Lot L2")
    clerk.press("End the contract by default …", "Lot L2")
    clerk.confirm("End the contract", "Contract 2 has ended.", "look")
    clerk.says("Ended by default")
    clerk.page.gives("document.querySelector('main :is(.good, .badge.done)') === null")
    clerk.page.gives("[...document.querySelectorAll('.contract h4 .badge')].map((at) => at.className)", ["badge ended", "badge stopped"])


def life(scene: Scene) -> None:
    """A procurement from the budget to the last payment, by the desks alone. There is a budget, three firms and their keys, and a notice. Tenders come in time
    and late. The opening, awards, contracts and payments follow, and the firms and the public see each of them."""
    clerk = clerk_desk.with_key(scene)
    budget_part(clerk)
    desks = [enrol(scene, clerk, name, *told) for name, told in FIRMS.items()]
    alpha, beta, gamma = desks
    deadline = int(time.time()) + SOON
    publish_part(clerk, "N1", "Road repair", deadline)
    scene.settles("/notices", "/notices/N1/terms")
    offers(alpha, beta, gamma)
    clerk.says("Tenders in time, by lot: L1: 2, L2: 1.")
    wait_until(deadline + 1.1)
    gamma.submit_late()
    decide(clerk)
    pay(clerk)
    scene.settles(*(f"/notices/N1/{part}" for part in ("terms", "record", "releases", "minutes", "evaluation")))
    beta.at("tender/3", "Tender with receipt 3", "The contract was signed.", "Ended as agreed", "P1: Returned")
    alpha.at("tender/2", "Tender with receipt 2", "P2: Forfeited")
    alpha.page.gives("document.querySelector('.contract .badge.stopped').innerText.endsWith('Ended by default')")
    alpha.page.gives("document.querySelector('main .badge.done') === null")
    page = page_checks.page_of(scene, "#notice/N1/L2")
    page.gives("document.activeElement.id", "lot-L2")
    texts = "Its price wasn't the lowest.", "540 EUR", "All contracts ended", "Returned", "Contract 2 ended: 0 EUR of 290 EUR was paid."
    assert [text for text in texts if text not in page.text()] == []
    for page in (clerk.page, *(desk.page for desk in desks)):
        page_checks.keeps_nothing(scene, page)


def lost_key(scene: Scene) -> None:
    """A lost key can't be recovered. The firm reads how to continue, makes another key, and is registered again. Its earlier tenders then belong to another
    tenderer."""
    clerk = clerk_desk.with_key(scene)
    desk = Desk(scene)
    desk.at("key", "Key")
    desk.page.run("document.querySelector('main details').open = true")
    desk.says("let the clerk register it under another identifier")
    desk.choose("key-file", scene.put("wrong.key", b"Office-Caller: T1\nOffice-Key: " + b"0" * 64 + b"\n"), "This tab holds the key of T1")
    desk.press("Ask whether", "This key isn't registered yet.")
    other = enrol(scene, clerk, "T4", "Alpha & Söhne", "High Street 1")
    other.press("Ask whether", "The register knows T4 by this key.")
    other.at("tenders", "My tenders", "None of your tenders was found.")
    other.page.run("location.hash = '#tender/1'")
    other.says("This belongs to another tenderer.")
    page_checks.is_quiet(other.page)


def beside(scene: Scene) -> None:
    """Beside the register, the portal and both desks show the documents of a notice. Its letters and the portal's list are saved as files."""
    content = Path(scene.put("documents/N1/plan.pdf", b"%PDF-1.4 a plan")).read_bytes()
    mirror_beside(scene.front, "--documents", scene.path("documents"))
    clerk, firm = clerk_desk.with_key(scene), Desk(scene)
    clerk.go("notice/N1")
    firm.at("offer/N1", "Road repair")
    public = page_checks.page_of(scene, "#notice/N1")
    for page in (clerk.page, firm.page, public):
        page.wait(f"document.querySelector('main').innerText.includes('plan.pdf ({len(content)} bytes)')")
        page.gives("fetch(document.querySelector('main a[href$=\"plan.pdf\"]')).then((answer) => answer.text())", content.decode())
        page.keep_in(scene.front.folder)
    clerk.go("letter/N1/L1")
    clerk.page.run("Object.assign(document.querySelector('.sheet textarea'), { value: 'Thank <you>.' }).dispatchEvent(new Event('input'))")
    clerk.press("Save 2 letters as files")
    letters = [public.saved(scene.path(f"letter-N1-L1-{number}.html")).decode() for number in (1, 2)]
    public.go(scene.front.address("#list"))
    public.run("[...document.querySelectorAll('main button')].find((at) => at.textContent === 'Save this line as a table').click()")
    head, row = list(csv.reader(public.saved(scene.path("procurements.csv")).decode("utf-8-sig").splitlines()))
    told = ["N1", "Road repair", "All contracts ended", "1900", "EUR", "Beta Ltd, Alpha & Söhne"]
    assert (head[:3], row[:3] + row[-3:]) == (["Notice", "Procurement", "State"], told)
    for letter, texts in zip(letters, (("Beta Ltd", "Thank &lt;you&gt;."), ("Alpha &amp; Söhne", "Its price wasn't the lowest."))):
        assert [text for text in texts if text not in letter] == [] and not re.search("<(textarea|button|script|input)", letter), letter
        public.ask("Page.navigate", url=f"data:text/html;base64,{base64.b64encode(letter.encode()).decode()}")
        public.wait("document.querySelector('h2')?.innerText.includes('Road repair') && document.documentElement.lang === 'en'")


# How many links, buttons and fields of the view are where a press would reach them.
REACHED = """[...document.querySelectorAll("main :is(a, button, summary, input)")].filter((at) => {
  const { x, y, width, height } = at.getBoundingClientRect();
  return at.contains(document.elementFromPoint(x + width / 2, y + height / 2));
}).length"""
IS_INERT = "document.querySelector('main').inert"


def slow(scene: Scene) -> None:
    """While the office takes its time for another view, nothing of the previous view can be pressed or typed into. So it is at each desk and at the portal."""
    clerk, firm, public = clerk_desk.Desk(scene), Desk(scene), page_checks.page_of(scene, "#about")
    clerk.go("key")
    for page, place in ((clerk.page, "budget"), (firm.page, "offer"), (public, "ledger")):
        page.gives(f"{REACHED} > 0")
        # (Each request waits, until the page answers.)
        page.answer_for({"": None})
        page.run("new Promise((done) => { addEventListener('hashchange', () => setTimeout(done, 0), { once: true }); "
                 f"location.hash = '#{place}'; }})")
        page.gives(f"[{REACHED}, {IS_INERT}]", [0, True])
        page.drawn()
        page.gives(IS_INERT, False)
        page.answer_for({})
        page_checks.is_quiet(page)


CHECKS: list[Callable[[Scene], None]] = [life, lost_key, beside, slow]
