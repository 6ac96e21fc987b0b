"""The check of tests/desks/test_clerk.py for clerks who sign in at the front by name. The desk needs no key. Each clerk finds the own steps alone."""
import contextlib
import json
import re
import tomllib
from pathlib import Path

from office_kit.client import Port, budget
from office_kit.common import ROOT, check
from office_kit.desks import page_checks
from office_kit.desks.clerk_desk import Desk
from office_kit.desks.scene import Scene, staged
from office_kit.front.clerks import Signing
from office_kit.store.life import Life, offer, part

TABLES = tomllib.loads(Path(__file__).with_suffix(".toml").read_text(encoding="utf-8"))
ROLES = TABLES["roles"]
# A name without a role.
NOBODY = "gerd"
TEXTS = "[...document.querySelectorAll('main button, main summary, main label, nav a')].map((at) => at.textContent.trim())"
LEFT = "[...document.querySelectorAll('main > p')].map((at) => at.textContent).filter((text) => text.startsWith('Left')).join()"


def fill(port: int) -> None:
    """A notice that receives tenders; one with a tender to examine and one to award; one with a winner; one with a contract."""
    life = Life(Port(port))
    life.import_budget("B1", budget("1000,add,100000,Roads"))
    life.enrol_in_time("T1", "T2")
    life.announce("N1", life.deadline + 86_400, part("L1", "1000", 100, 0))
    for name, lots in (("N2", ("L1", "L2")), ("N3", ("L1",)), ("N4", ("L1",))):
        life.announce(name, life.deadline, *(part(lot, "1000", 100, 0) for lot in lots))
        for lot in lots:
            life.submit(f"{name}/{lot}", "T1", name, lot, offer(1, 1))
    life.wait()
    for name in ("N2", "N3", "N4"):
        life.open(name)
    for named in ("N2/L2", "N3/L1", "N4/L1"):
        life.judge(named)
    life.award("N3")
    life.contract_of(life.award_of("N4", "L1"))


def signed_in(scene: Scene, name: str) -> contextlib.closing[Desk]:
    """The desk of a clerk who gave name and password to the browser."""
    assert scene.front.signing
    return contextlib.closing(Desk(scene, sign=f"{name}:{scene.front.signing.passwords[name]}"))


def has_role(name: str, role: str) -> bool:
    return role in ROLES[name].split() or name == "emil"


def finds_own(desk: Desk, name: str) -> None:
    """The bar names the clerk and the roles. Each screen has the buttons of these roles, and says what the others need. Today counts and shows the tasks of
    these roles, and says in one line what is left to others. So does the screen of a notice."""
    roles = ", ".join(role.capitalize() for role in ROLES[name].split())
    desk.page.gives("[...document.getElementById('who').children].map((at) => at.innerText)", [f"Signed in as {name}. Roles: {roles}.", "How to sign out"])
    for screen, buttons in TABLES["screens"].items():
        desk.go(screen)
        texts = desk.page.run(TEXTS)
        for text, role in buttons.items():
            check(f"{name}: {screen} has {text}: {text in texts}", (text in texts) == has_role(name, role))
            says = f"Only clerks with the role “{role.capitalize()}” can do this." in desk.told()
            check(f"{name}: {screen} doesn't say that {role} is needed", has_role(name, role) or text in TABLES["quiet"] or says)
        check(f"{name}: the menu of {screen}", ("New notice" in texts) == has_role(name, "notices"))
    groups, count, others = TABLES["today"][name]
    desk.go("today")
    desk.page.gives("[...document.querySelectorAll('main h2')].map((at) => at.textContent)", groups)
    left = desk.page.run(LEFT)
    found = re.fullmatch(r"Left to others: (\d+) tasks \((.*)\)\.", left)
    check(f"{name}: left to others are {left}", (int(found[1]), sorted(found[2].split(", "))) == (count, others) if found else (left, count) == ("", 0))
    for notice, task, role in (("N2", "examine 1 tender", "evaluation"), ("N3", "sign the contract", "contracts")):
        desk.go(f"notice/{notice}")
        told = desk.page.run("document.querySelector('main .look').innerText")
        check(f"{name}: {notice} says {told}", (task in told, "Left to others: " in told) == (has_role(name, role), not has_role(name, role)))
    check("the desk asks for a key", "key" not in desk.page.run("document.getElementById('who').innerText").lower())
    page_checks.is_quiet(desk.page)


def by_name(scene: Scene) -> None:
    """Clerks sign in by password, and find their own steps. Changed modules are found. Someone without a role may not give a key."""
    with staged(scene.program, scene.browser, scene.pictures, fill, signing=Signing("password", ROLES, [NOBODY])) as made:
        for name in ROLES:
            with signed_in(made, name) as desk:
                finds_own(desk, name)
        does_own(made)
        assert [plant for plant in TABLES["plants"] if not is_found(made, *plant)] == [], "passed over"
        with signed_in(made, NOBODY) as desk:
            desk.page.gives("document.getElementById('who').innerText.includes('your name has no role')")
            desk.go("key")
            desk.page.gives("document.querySelector('main input') === null")


def is_found(scene: Scene, name: str, module: str, old: str, new: str) -> bool:
    text = Path(ROOT, "web", "clerk", module).read_text(encoding="utf-8")
    check(f"{module} doesn't have {old} once", text.count(old) == 1)
    with contextlib.suppress(AssertionError), signed_in(scene, name) as desk:
        desk.page.answer_for({f"/clerk/{module}": (200, text.replace(old, new).encode())}, "Script")
        desk.load()
        finds_own(desk, name)
        return False
    return True


def does_own(scene: Scene) -> None:
    """A clerk registers a firm, and another one pays under the contract of N4. The front's log has their names, and no request shows a key."""
    with signed_in(scene, "anna") as desk:
        desk.register("T9", json.dumps({"tenderer": "T9", "name": "Nine", "address": "9 Street", "key": "9" * 64}))
        desk.press("Request, as it is sent", says=("POST /tenderers/T9", "Office-Caller: clerk"))
        desk.hides("Office-Key", picture="order-by-name")
        desk.confirm("Register the tenderer", "T9 is registered.")
        desk.go("journal", says="anna")
        desk.page.run("document.querySelector('#who a').click()")
        desk.settle("key", says=("Signed in as anna.", "To sign out, close all windows of the browser."), picture="signed-in")
    with signed_in(scene, "dora") as desk:
        desk.go("notice/N4")
        desk.pay("P1", 3, 10)
    told = [(line["name"], line["route"], line["status"]) for line in scene.front.logged_commands(2)]
    # (Each contract has the number of its award: that of N4 is the second one.)
    check(f"the log has {told}", told == [("anna", "POST /tenderers/T9", 200), ("dora", "POST /contracts/2/pay", 200)])


CHECKS = [by_name]
