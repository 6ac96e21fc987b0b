"""The office that the checks of a large office use: 400 notices, 125 budget lines, 60 firms. Of the notices 180 are past their deadline and not opened, 20 are
opened, 7 close within a week, and 193 later. N001 has a lot with 24 tenders, and N390 has five lots. The items have words that no title has."""
import time

from office_kit.client import AHEAD, Answer, Client, Port, budget, lot, notice, tender, text_of, wait_until
from office_kit.store.life import key_of

LINES, FIRMS, OPENED, OVERDUE, SOON, LATER = 125, 60, 20, 180, 7, 193
TENDERS = 24
DAY = 86_400
WARES = ["Clay tiles", "Paving stones", "School desks", "Street lamps", "Playground swings", "Trees for avenues", "Fire hoses", "Library books"]
KINDS = ["oak", "granite", "copper", "slate", "birch", "zinc", "cedar"]


def line_of(number: int) -> str:
    return f"{2000 + number}"


def name_of(number: int) -> str:
    return f"N{number:03}"


def publish(office: Client[Answer], number: int, deadline: float) -> None:
    ware = WARES[number % len(WARES)]
    lots = [lot("L1", line_of(number % LINES), 5000, 0, (f"{ware}, {KINDS[number % 7]}", 100), title=f"{ware} for district {number}")]
    if number == 2:
        lots.append(lot("L2", line_of(3), 4000, 50, ("Gravel", 100), title="Gravel for district 2"))
    if number == 390:
        lots += [lot(f"L{at}", line_of(5), 4000, 0, ("Sand", 100), title=f"Sand, part {at}") for at in range(2, 6)]
    office.publish(name_of(number), notice(text_of(deadline), *lots, title=f"{ware}, purchase {number}", standstill=0))


def fill(port: int) -> None:
    """Everything up to the deadline, then the openings. N001 waits for the examination of 24 tenders; N002 was cancelled after its opening; N003 was awarded to
    nobody; N004 waits for the signature; N005 to N009 have contracts; N010 was cancelled before its opening; the others wait for examinations."""
    office = Client(Port(port), key_of)
    office.import_budget("B1", budget(*(f"{line_of(at)},add,{1_000_000 + 1000 * at},Upkeep of district {at}" for at in range(LINES))))
    for number in range(1, FIRMS + 1):
        office.register(f"F{number}", f"Firm {number} Ltd", f"{number} High Street")
    deadline = int(time.time()) + 5 * AHEAD
    opened, overdue = range(1, OPENED + 2), range(OPENED + 2, OPENED + OVERDUE + 2)
    for number in opened:
        publish(office, number, deadline + (DAY if number == 10 else 0))
    receipts = {}
    for number in opened:
        for who in range(1, TENDERS + 1 if number == 1 else 4):
            receipts[number, who] = int(office.present(f"F{who}", name_of(number), "L1", tender((100, 30 + (7 * who) % 20)))["receipt"])
    office.present("F5", "N002", "L2", tender((100, 31)), "G5", 60)
    for number in overdue:
        publish(office, number, deadline)
    for place in range(SOON + LATER - 1):
        publish(office, overdue.stop + place, time.time() + DAY * (place * 0.9 + 0.4 if place < SOON else 8 + place * 0.3))
    office.cancel("N010", "The library got them as a gift")
    wait_until(deadline + 1.1)
    for number in opened:
        if number != 10:
            office.open(name_of(number))
    for (number, _), receipt in receipts.items():
        if number in range(2, 10):
            office.examine(receipt, responsive=number != 3)
    office.cancel("N002", "The ground is wet")
    for number in range(3, 10):
        award = office.award(name_of(number))["award"]
        if number > 4:
            contract = int(office.sign(int(award))["contract"])
            office.pay(contract, f"I-{number}", 1000)
