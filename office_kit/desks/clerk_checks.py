"""The first checks of tests/desks/test_clerk.py: a procurement from the budget to the last payment on the clerk's screens, and faults around it."""
import contextlib
import hashlib
import json
import os
import re
import time

from office_kit.client import AHEAD, budget, tender, wait_until
from office_kit.common import CLERK, check, until
from office_kit.desks import page_checks
from office_kit.desks.clerk_desk import Desk, with_key
from office_kit.desks.scene import Scene
from office_kit.front.nginx import OUTSIDE
from office_kit.store.life import key_of

# Seconds from the publication to the deadline: for all that comes between, by the screens.
SOON = AHEAD + 26
DAY = 86_400
TABLE = "Lot\tTitle of the lot\tBudget line\tEstimate\tTender security\tItem\tTitle\tQuantity\nL1\tNorth\t1000\t1.600,00\t50\tI1\tPaving, square metres\t3\n" \
    "\t\t\t\t\tI2\tKerbs, 10 m\t10\nL2\tSouth\t1000\t300\t0\tI1\tSigns\t1\n"
BUDGET = budget("1000,add,5000,Roads", "2000,add,50,Parks")
# The same as a German spreadsheet writes it, with a sum.
SHEET = "Haushaltsstelle;Art;Betrag;Bezeichnung\r\n1000;Zugang;5.000,00;Roads\r\n2000;add;50;Parks\r\nSumme;;5.050,00;\r\n"
FIRMS = {"T1": ("Alpha & Söhne", "High Street 1"), "T2": ("Beta Ltd", "Low Street 2")}
NUMBER = "Number of the invoice or change"
ACCEPTS_FILE, ACCEPTS_NOTICE = "The register would accept this file.", "The register would accept this notice."
NOT_DONE = "This isn't done: the register's data shows nothing of it."
NO_MATCH = "This isn't the clerk's key."
# The window of an award says also how far the price is below the estimate and the next one.
AWARDS = ("Award lot L1 of notice N1 to Beta Ltd", "The price is 1,060 EUR (66.3%) below the estimate.",
          "It is 30 EUR (5.3%) below the next price, that of Alpha & Söhne.")


def budget_part(desk: Desk) -> None:
    """A spreadsheet's file is converted, and each change is shown. A right file is imported. The desk warns of the same file under another name."""
    desk.go("budget")
    desk.drop(SHEET, "budget.csv", says=("The file was converted: 5 changes.", ACCEPTS_FILE))
    rows = desk.page.run("[...document.querySelectorAll('main table')].find((at) => at.caption?.textContent === 'Changes of the conversion').innerText")
    check(f"what was converted isn't shown: {rows}", all(word in rows for word in ("Zugang", "5.000,00", "5000", "Summe;;5.050,00;", "left out")))
    desk.page.gives(f"hands.converted({json.dumps(SHEET)})", BUDGET)
    desk.picture("budget-converted")
    desk.drop(SHEET.replace("5.000,00", "5.000,50"), "budget.csv", says=("it has 1 fault.", "has cents or a fraction"))
    check(f"the fault isn't named by its line: {desk.told()}", "\n2\t" in desk.told() or "2\tThe amount" in desk.told())
    desk.drop(budget("1000,add,1.5,Roads", "2000,cut,5,Parks"), "budget.csv", says="has cents or a fraction", picture="budget-wrong")
    desk.drop(BUDGET, "B1.csv", says=ACCEPTS_FILE, picture="budget-right")
    desk.press("Import the file")
    desk.hides("POST /budget/B1")
    desk.press("Request, as it is sent", says="POST /budget/B1", picture="order")
    assert '"rows":2' in desk.confirm("Import", "Budget file B1 is imported."), "the receipt isn't shown"
    desk.page.wait("[...document.querySelectorAll('main section')].at(-1).innerText.includes('5,000')")
    desk.drop(BUDGET.replace("Roads", "Roads and paths"), "B2.csv", says="Careful: the same amounts were already imported, under B1.")
    desk.says("Careful: 2 budget lines would have twice their money: 1000, 2000.")
    desk.press("Import the file")
    desk.page.wait("document.querySelector('dialog[open] .wrong')?.innerText.includes('under B1')")
    desk.press("Don't send")


def tenderers_part(desk: Desk) -> None:
    for name, (firm, address) in FIRMS.items():
        digest = hashlib.sha256(key_of(name).encode()).hexdigest()
        desk.register(name, json.dumps({"tenderer": name, "name": firm, "address": address, "key": digest}))
        desk.confirm("Register the tenderer", f"{name} is registered.")
        desk.page.wait(f"document.querySelector('main table')?.innerText.includes({json.dumps(address)})")
    desk.picture("tenderers")


def write_notice(desk: Desk, name: str, deadline: float, title: str) -> None:
    """A notice from a pasted table, with its terms."""
    desk.go("new")
    desk.press("Paste lots from a sheet")
    desk.fill({"Table": TABLE})
    desk.press("Replace the lots with this table", says="2 lots were taken from the table, with 3 items.")
    desk.fill({"Title": title}, "Terms")
    desk.fill({"Notice number": name, "Standstill, in days": "0", "Performance security": "70", "Deadline": deadline})


def drafting(scene: Scene, name: str, title: str) -> Desk:
    """A desk with the key, and with a draft whose deadline is far."""
    desk = with_key(scene)
    write_notice(desk, name, time.time() + 40 * DAY, title)
    return desk


def notice_part(desk: Desk) -> None:
    """The desk reports a draft that is short of money and has no title. It shows a right one as the public will see it."""
    desk.go("new")
    desk.press("Publish the notice …", says="things are missing or wrong", picture="notice-empty")
    write_notice(desk, "N1", time.time() + 40 * DAY, "Road repair")
    # It shows the free money beside the estimate and how it read the sheet, and warns of terms that are seldom meant.
    desk.says((ACCEPTS_NOTICE, "Budget line 1000 has 5,000 free. This notice needs 1,900, so 3,100 is left.", "“1.600,00” as 1600",
               "Without a standstill the losing firms can't object"))
    desk.fill({"Validity of tenders, in days": "10", "Standstill, in days": "10", "Deadline": time.time() + 3 * DAY - 60},
              says=("So you could never sign a contract", "The deadline is in 2 days, 23 hours."))
    desk.fill({"Validity of tenders, in days": "90", "Standstill, in days": "0", "Deadline": time.time() + 40 * DAY})
    desk.fill({"Performance security": "1,000"})
    desk.page.gives("hands.field('Performance security').value", "1000")
    desk.fill({"Performance security": "70"})
    check("the size is told", re.search(r"The notice has \d+ of at most 65,536 bytes", desk.told()))
    desk.picture("notice-right")
    desk.press("Preview the public page", to="preview", says="Lots, awards and contracts", picture="preview")


def publish_part(desk: Desk, name: str, title: str, deadline: float) -> None:
    write_notice(desk, name, deadline, title)
    desk.says(ACCEPTS_NOTICE)
    desk.order("Publish the notice", f"Notice {name} is published.")
    desk.settle(f"notice/{name}")


def tenders_part(desk: Desk, deadline: float) -> None:
    """Two firms tender, one of them for both lots, and the register grows. Whose the securities are is shown after the opening."""
    tenderers = desk.scene.client
    tenderers.present("T1", "N1", "L1", tender((3, 150), (10, 12)), "G1", 50)
    tenderers.present("T2", "N1", "L1", tender((3, 140), (10, 12), wrong=20), "G2", 60)
    tenderers.present("T1", "N1", "L2", "290 for all of it")
    desk.go("today")
    # All countdowns to a deadline say the same: that of a task, and that of a clock. A second that has begun counts.
    other = Desk(desk.scene)
    other.says("Wait for tenders (1)")
    other.hand("stop")
    shown = "[...document.querySelectorAll('main [role=timer]')].map((at) => at.textContent)"
    other.page.wait(f"({shown}).length === 2 && ({shown}).every((text) => text.includes('47 minutes'))")
    other.page.gives(shown, ["(in 47 minutes)", "closes in 47 minutes, 41 seconds"])
    other.close()
    desk.go("notice/N1", says=("Tenders in time, by lot: L1: 2, L2: 1.", "2 securities", "G1", "shown after the opening"))
    desk.hides("Beta", picture="receiving")
    desk.is_off("Open the tenders …")
    wait_until(deadline + 1.1)
    desk.order("Open the tenders", "3 tenders of notice N1 are open.", says="2 tenders to examine")
    desk.go("minutes/N1", says=("3 tenders were opened.", "Alpha & Söhne", "unreadable", "In the presence of", "540 EUR"), picture="minutes")
    page_checks.sheets(desk.scene, desk.page, "minutes/N1")
    desk.go("notice/N1")


def award_part(desk: Desk) -> None:
    """Both tenders are examined; the best doesn't sign, and is passed over; the next one signs with the performance security. Nobody wins the other lot, for
    which nobody gave a security. The notice has no standstill."""
    examination_part(desk)
    desk.order("Award the lot", "Lot L1 goes to Beta Ltd for 540 EUR (receipt 2).", "Lot L1", asks=AWARDS,
               says="No tender can win. The lot ends without a contract, and its reserved 300 EUR is free again.")
    desk.press("End the lot without a contract …", "Lot L2", says="End lot L2 of notice N1 without a contract")
    desk.hides("securities", picture="nobody")
    desk.confirm("End the lot without a contract", "Lot L2 has ended without a contract. 300 EUR is free again.")
    desk.says(("Lot L1: sign the contract", "Lot L2 ended without a contract: send the letters, if you haven't yet"))
    desk.hides("The standstill")
    letters_part(desk)
    desk.press("The winner doesn't sign", picture="awarded")
    desk.order("Pass over the winner", "The winner of award 1 was passed over.", asks="Pass over Beta Ltd: lot L1 of notice N1 (award 1)",
               says="It won, but the winner didn't sign.")
    signing_part(desk)


def examination_part(desk: Desk) -> None:
    """The clerk examines two tenders. A second tab has the same task, and is older then. It learns of the examinations from the office."""
    desk.says("2 tenders to examine", picture="evaluation")
    # (tasks in the note, dates below it)
    lists = "['.look li', 'ul.quiet li'].map((at) => [...document.querySelectorAll(`main ${at}`)].map((one) => one.textContent.split(' ', 2).join(' ')))"
    desk.page.gives(lists, [["Lot L1:", "Lot L2:"], ["Tenders are"]])
    desk.is_off("Award the lot …", "Lot L1")
    other = with_key(desk.scene)
    other.says(("Examine tenders (1)", "Tenders valid until"))
    other.press("Lot L1: 2 tenders", to="notice/N1/L1")
    other.page.gives("document.activeElement.id", "lot-L1")
    other.says("2 tenders to examine")
    desk.tick("Requirements not met", "Examination of Beta Ltd, receipt 2")
    desk.press("All tenders here meet the requirements", "Lot L1")
    desk.page.gives("[...document.querySelectorAll('.examination input:checked')].map((at) => at.value).sort()", ["no", "yes"])
    desk.tick("Requirements met", "Examination of Beta Ltd, receipt 2", picture="examination")
    desk.press("Record the results …", "Lot L1", says="The page sends 2 commands, one for each tender.", picture="examination-order")
    desk.confirm("Record the results", "2 tenders are examined.")
    desk.says("Lot L1 goes to Beta Ltd for 540 EUR.")
    for name, receipt in (("Alpha & Söhne", 1), ("Beta Ltd", 2)):
        other.tick("Requirements met", f"Examination of {name}, receipt {receipt}")
    other.press("Record the results …", "Lot L1")
    other.send("Record the results", says="1 command was not sent.")
    other.says("Someone else examined this tender, or it was withdrawn late. That result stays.")
    other.press("Close", says="Lot L1 goes to Beta Ltd for 540 EUR.")
    other.close()


def letters_part(desk: Desk) -> None:
    """Each lot that ended has letters, also one that nobody won. They have the winner's price, the losers' reasons, and the state of the securities."""
    desk.page.keep_in(desk.scene.front.folder)
    for lot, picture in (("L2", "letters-nobody"), ("L1", "letters")):
        desk.press("Letters to the tenderers", f"Lot {lot}", to=f"letter/N1/{lot}", picture=picture)
        page_checks.sheets(desk.scene, desk.page, f"letter/N1/{lot}")
        desk.go("notice/N1")


def signing_part(desk: Desk) -> None:
    """If the price exceeds the lot's reserved and the line's free money, the desk doesn't offer the award. Otherwise the next winner signs. The performance
    security must have the required amount. Letters don't ask for one that is held."""
    desk.page.answer_for({"/lines/1000": (200, b'{"free":29,"line":"1000","title":"Roads"}')})
    desk.go("today")
    desk.go("notice/N1", says="the price is 30 EUR above its reserved money, and budget line 1000 has only 29 EUR free")
    desk.is_off("Award the lot …", "Lot L1")
    desk.page.answer_for({})
    desk.go("today")
    desk.go("notice/N1")
    desk.order("Award the lot", "Lot L1 goes to Alpha & Söhne for 570 EUR (receipt 1).", "Lot L1")
    desk.fill({"Reference of the performance security": "P1", "Amount of the performance security": "60"})
    desk.press("Sign the contract …", says="The notice requires at least 70 EUR.")
    desk.fill({"Amount of the performance security": "70"})
    desk.order("Sign the contract", "Contract 2 is signed.", asks="Sign the contract for lot L1 of notice N1 with Alpha & Söhne (award 2)")
    desk.go("letter/N1/L1", says=("We have returned your security G1, of 50 EUR.", "It won, but the winner didn't sign.",
                                  "Your security G2, of 60 EUR, is forfeited."))
    desk.hides("Please provide")
    desk.go("notice/N1")


def contract_part(desk: Desk) -> None:
    desk.says("Contract 2")
    form = "Raise or cut the contract"
    desk.press(form)
    desk.fill({NUMBER: "A1", "Amount": "60", "Reason": "More kerbs"}, form)
    desk.order("Change the contract", "Contract 2 was changed. Outstanding: 630 EUR.", form, asks="Contract 2: lot L1, with Alpha & Söhne.")
    desk.pay("I-17", 400, 230)
    desk.pay("I-18", 100, 130)
    desk.fill({NUMBER: "I-17", "Amount": "400"}, "Payment", says="Careful: 400 EUR was already paid under I-17.")
    desk.press("Record the payment …", "Payment", says="This number is already used in this contract.", picture="contract")
    desk.press("End the contract")
    desk.order("End the contract as agreed", "Contract 2 has ended.", "", "Its performance security is returned.", "End the contract",
               ("P1: Returned", "Ended as agreed"))


def journal_part(desk: Desk) -> None:
    """The journal has an entry for each that was sent, without the key, and comes back from its file."""
    desk.go("journal", picture="journal")
    assert [(status, who) for _, status, who, _ in desk.hand("entries")] == [(200, "Anna")] * 16, "each command"
    text = desk.hand("file")
    check("the key is in the journal", '"abc"' not in text and "Office-Key" not in text)
    other = Desk(desk.scene, place="#notice/N1")
    other.says(("It isn't published whether the contract ended as agreed or by default.", "Final value", "Contract 2 ended: 500 EUR of 630 EUR was paid."))
    other.go("journal")
    other.drop(text.replace("More kerbs", "Less kerbs"), "journal.jsonl", says="The content doesn't match its SHA-256")
    other.drop(text, "journal.jsonl", says="Entries, newest first")
    other.page.wait("document.querySelectorAll('.entries > li').length === 16")


def use_key(desk: Desk, key: str) -> None:
    desk.drop(f"Office-Caller: clerk\nOffice-Key: {key}\n", "clerk.key", says="The file clerk.key contains a key.")
    desk.press("Use this key")


def life(scene: Scene) -> None:
    """A procurement from the budget to the last payment, by the desk's screens; the tenders come by scripts."""
    desk = Desk(scene)
    desk.go("today", says="Begin with a budget file, under “Budget”.", picture="today-empty")
    desk.go("key")
    desk.fill({"Your name": "Anna"})
    use_key(desk, "wrong")
    desk.says(NO_MATCH, picture="key")
    desk.drop("no key\n", "letter.txt", says="This file contains no key")
    desk.hides(NO_MATCH)
    desk.page.gives("document.querySelector('input[type=password]') === null")
    # (After a wrong key nginx refuses the right one for two seconds.)
    assert until(lambda: scene.front.ask("GET", "/tenderers", caller=CLERK).status == 200)
    use_key(desk, "abc")
    desk.settle("today")
    budget_part(desk)
    tenderers_part(desk)
    notice_part(desk)
    deadline = int(time.time()) + SOON
    publish_part(desk, "N1", "Road repair", deadline)
    tenders_part(desk, deadline)
    award_part(desk)
    contract_part(desk)
    journal_part(desk)
    desk.go("today", says="All notices are finished.", picture="today")
    assert scene.front.ask("GET", "/ledger").body.decode().split("\n")[2] == "1000\t5000\t4500\t0\t0\t500", "what was done"
    page_checks.keeps_nothing(scene, desk.page)


def moved_and_cancelled(scene: Scene) -> None:
    """A deadline is moved. A cancellation needs the word that the clerk types. The letters then name no firm, since the tenders stayed sealed."""
    desk = with_key(scene)
    publish_part(desk, "N2", "Crossing", time.time() + DAY)
    desk.press("Move the deadline")
    desk.fill({"New deadline": time.time() + 3600, "Reason": "Less time"})
    desk.press("Move the deadline …", says="The new deadline must be later than the old one.")
    desk.fill({"New deadline": time.time() + 200_000})
    desk.order("Move the deadline", "The deadline of notice N2 is moved.", says="No tender has arrived yet.")
    scene.client.present("T1", "N2", "L1", tender((3, 150), (10, 12)), "G7", 50)
    desk.go("letter/N2/L1", says="There are no letters to print")
    desk.go("notice/N2")
    desk.press("Cancel the notice", says="Don't name firms or persons: everybody can read it.")
    desk.fill({"Reason": "No need."})
    desk.press("Cancel the notice …", says="To confirm, type: cancel")
    desk.is_off("Cancel the notice")
    desk.picture("cancel")
    desk.confirm("Cancel the notice", "All open lots of notice N2 are cancelled.")
    desk.says("Lot L1 is cancelled: send the letters, if you haven't yet")
    desk.go("letter/N2/L1")
    page_checks.sheets(scene, desk.page, "letter/N2/L1")


def stops(scene: Scene) -> None:
    """If no answer comes, the desk asks about the command: it was done, it wasn't, or it can't be known. In the last case the command is sent again."""
    desk = drafting(scene, "N3", "Bridge")
    body = desk.hand("body")
    desk.press("Publish the notice …")
    desk.page.answer_for({"/notices/N3": None})
    desk.send("Publish the notice", says=NOT_DONE, picture="notdone")
    # Now it reaches the office, and the answer is lost.
    scene.client.publish("N3", body)
    desk.press("Send the same request again", says="This is done.", picture="done")
    desk.page.answer_for({})
    desk.press("Close", to="notice/N3")
    # A registration gets no answer. Queries get none at first, then show another firm's name, and at last the firm.
    desk.go("tenderers")
    desk.fill({"Identifier": "T9", "Name": "Gamma", "Address": "Mill Lane 3", "SHA-256 of the key": "ab " * 32})
    desk.press("Register a tenderer")
    lists = {name: (200, json.dumps({"next": None, "tenderers": [{"address": "Mill Lane 3", "name": name, "tenderer": "T9"}]}).encode())
             for name in ("Other", "Gamma")}
    no_answer, exists = (504, b'{"front":"no answer"}'), (409, b'{"name":"Exists","refusal":10}')
    desk.page.answer_for({"/tenderers/T9": no_answer, "/tenderers": no_answer})
    desk.send("Register the tenderer", says="The register's data doesn't show what happened.")
    desk.page.answer_for({"/tenderers/T9": no_answer, "/tenderers": lists["Other"]})
    desk.press("Ask the register again", says=NOT_DONE)
    desk.page.answer_for({"/tenderers/T9": exists, "/tenderers": lists["Gamma"]})
    desk.press("Send the same request again", says="This is done.")
    assert [(status, found) for _, status, _, found in desk.hand("entries")] == [(None, "not done"), (None, "done"), (504, "done"), (409, "done")]
    desk.close()


def refused_as(desk: Desk, at: int, status: int, body: bytes) -> str:
    path = f"/tenderers/R{at}"
    desk.page.answer_for({path: (status, body)})
    order = {"kind": "tenderer", "values": {"tenderer": "R", "name": "x"}, "path": path, "body": None, "again": None, "says": []}
    desk.page.run(f"import('/clerk/send.js').then(({{ send }}) => {{ send({json.dumps(order)}); }})")
    desk.page.wait("document.querySelectorAll('dialog[open] .steps button').length === 2")
    desk.page.run("document.querySelector('dialog[open] .steps button').click()")
    desk.page.wait("document.querySelector('dialog[open] :is(.bad, .look) + *, dialog[open] :is(.bad, .look)')")
    lines = desk.page.run("[...document.querySelectorAll('dialog[open] :is(.bad, .look) p')].map((at) => at.textContent)")
    desk.page.wait("document.querySelector('dialog[open] .steps button.second')")
    desk.page.run("document.querySelector('dialog[open]').close()")
    return str(lines[1])


def each_refusal(scene: Scene) -> None:
    """Each refusal of the office, and each answer of the front, is a sentence of its own on the desk, in English and in German."""
    for language in ("en", "de"):
        desk = with_key(scene, place=f"?language={language}", language=language)
        told = {body: refused_as(desk, at, status, body) for at, (status, body) in enumerate(page_checks.refusals())}
        assert [said for said in told.values() if not re.fullmatch(r"[A-ZÄÖÜ].*\.", said) or "status" in said.lower()] == [], "no sentences"
        sentences = [said for body, said in told.items() if b'"Unavailable"' not in body]
        assert len(set(sentences)) == len(sentences), f"in {language} two refusals have one sentence: {sorted(sentences)}"
        for at, status in enumerate((403, 404, 413, 429)):
            said = refused_as(desk, 100 + at, status, b'{"front":"no"}')
            assert re.fullmatch(r"[A-Z].*\.", said) and str(status) not in said, (language, status)
        page_checks.is_quiet(desk.page)
        desk.close()


def keyboard(scene: Scene) -> None:
    """The keyboard alone is enough to give the key and to send a command, and the focus is seen."""
    desk = Desk(scene, place="#key")
    page = desk.page
    page.run("document.querySelector('main h1').focus()")
    page_checks.is_seen(page)
    page.run("hands.field('Your name').focus()")
    page.type("Anna")
    page.press("Tab")
    page.gives("document.activeElement.type", "file")
    desk.drop("abc", "clerk.key", says="The file clerk.key contains a key.")
    page.press("Tab")
    page.press("Enter")
    desk.settle("today")
    desk.go("tenderers")
    page.run("hands.field('Identifier').focus()")
    # (Before the last field is the button that explains it.)
    for text in ("T8", "Delta", "Quay 4", "", "ab" * 32):
        page.type(text)
        page.press("Tab")
        # (a hard field has its explanation before it)
        if page.run("document.activeElement.textContent") == "?":
            page.press("Tab")
    page.press("Enter")
    page.wait("document.activeElement.type === 'checkbox'")
    page.press("Space")
    # (The last tab is the one that leads to the button.)
    assert ["Register the tenderer", True] in (page_checks.tab(page) for _ in range(6)), "no tab leads to the button"
    page.press("Enter")
    desk.says("T8 is registered.")
    page.press("Enter")
    page.wait("!document.querySelector('dialog')")
    page_checks.is_quiet(page)


def german(scene: Scene) -> None:
    """In German each screen is whole: no English word of the desk's texts is left, and no text is missing."""
    desk = Desk(scene, place="?language=de", language="de")
    for screen in ("today", "budget", "tenderers", "new", "journal", "key", "notice/N1", "minutes/N1", "letter/N1/L1"):
        desk.go(screen, picture=f"german-{screen.replace('/', '-')}")
        desk.page.gives("hands.english()", [])
    desk.page.gives("document.documentElement.lang", "de")
    page_checks.is_quiet(desk.page)


def from_clerks_alone(scene: Scene) -> None:
    """The desk is served to the clerks' networks alone, under the policy without a script or a style within the page; without scripts it says so."""
    for path, media in (("/clerk/", "text/html"), ("/clerk/desk.js", "application/javascript"), ("/clerk/clerk.css", "text/css")):
        answer = scene.front.ask("GET", path)
        policy = answer.head["Content-Security-Policy"] or ""
        assert (answer.status, answer.head["Content-Type"], answer.head["Cache-Control"]) == (200, media, "no-cache"), path
        assert "script-src 'self'" in policy and "unsafe" not in policy, path
        answer = scene.front.ask("GET", path, source=OUTSIDE)
        assert answer.status == 403 and b"front" in answer.body, path
    for path in ("/clerk/nothing.js", "/clerk/README.md", "/clerk/x/desk.js"):
        answer = scene.front.ask("GET", path)
        assert answer.status == 404 and b"front" in answer.body, path
    page_checks.without_scripts(scene, "clerk/", "needs a browser with scripts")


def printed(scene: Scene) -> None:
    """On paper the minutes and the letters are alone: neither the bar with the name nor a button is printed. Each letter begins a page."""
    desk = Desk(scene)
    for screen in ("minutes/N1", "letter/N1/L1"):
        desk.go(screen)
        desk.page.ask("Emulation.setEmulatedMedia", media="print")
        desk.page.gives("[...document.querySelectorAll('header, .who, button, nav, footer, .noprint')].filter((at) => at.checkVisibility())"
                        ".map((at) => at.outerHTML.slice(0, 80))", [])
        page_checks.printed_to(desk.page, os.path.join(scene.pictures, f"{screen.replace('/', '-')}.pdf"))
        desk.page.ask("Emulation.setEmulatedMedia", media="")


def plants(scene: Scene) -> None:
    """The check for it finds a fault in a screen."""
    passed_over = []
    english = ("document.querySelector('main h1').textContent = 'What to do next'", lambda _, page: page.gives("hands.english()", []))
    for fault, judge in (*page_checks.COMMON_PLANTS, english):
        page = Desk(scene, place="?language=de#today", language="de").page
        judge(scene, page)
        page.run(f"void ({fault})")
        with contextlib.suppress(AssertionError):
            judge(scene, page)
            passed_over.append(fault)
    assert passed_over == []


CHECKS = [from_clerks_alone, life, moved_and_cancelled, stops, each_refusal, keyboard, german, printed, plants]
