// The letters for a lot that was awarded or has ended. The winner learns of the award, and every other
// tenderer why it didn't win, or that the lot ended without a winner or was cancelled.
import { cityFile, letterhead, remedyOf, wordsOf } from "../common/city.js";
import { element, given, title } from "../common/draw.js";
import { outcomeOf, pointsOf } from "../common/findings.js";
import { button, field, note, printButton, save, sheet, signs, steps } from "../common/forms.js";
import { day, money, number, when } from "../common/money.js";
import { officeNow, registerText, securities } from "../common/office.js";
import { language, say, sayParts } from "../common/texts.js";
import { backTo } from "./printed.js";
import { caller, keepReason, reasonOf, who } from "./session.js";
import { momentText } from "./values.js";
import { stagedOf } from "./whole.js";

// Outcomes that are the tender's own, whatever became of its lot.
const OWN = ["unreadable", "nonconforming", "unresponsive", "late", "passed", "awardended"];

export async function drawLetter(_again, name, lotId) {
  const [staged, held, city] = await Promise.all([stagedOf(name), caller() ? securities(name, caller()) : [], cityFile()]);
  const notice = { ...staged, held, city };
  const lot = notice.stage.lots.find(({ id }) => id === lotId);
  const head = say("letters.title", { lot: lotId });
  const isSealed = notice.stage.kind === "cancelled";
  const letters = !lot ? [] : isSealed ? await openLetter(notice, lot) : lettersOf(notice, lot);
  if (letters.length === 0) {
    return { title: head, content: [title(head), note("look", say("letters.none")), backTo(name)] };
  }
  const sheets = letters.map((parts) => sheet(parts));
  const keepAll = () => sheets.forEach((made, at) => save(`letter-${name}-${lotId}-${at + 1}.html`, pageOf(made, head), "text/html"));
  const keep = button(say("letters.save", { count: letters.length }), keepAll, "second");
  return { title: head, isSheet: true, content: [title(head), element("p", {}, say("letters.what", { count: letters.length })),
    isSealed ? note("look", say("letters.open")) : null, lot.active && letters.length === 1 ? null : remedyNote(city, lot), backTo(name),
    steps(printButton(), keep), sheets] };
}

/** A letter as a file that any browser shows and prints, without what is only for the screen. */
function pageOf(made, head) {
  const copy = made.cloneNode(true);
  copy.querySelectorAll(".noprint").forEach((part) => part.remove());
  const page = element("html", { lang: language() }, element("head", {}, element("meta", { charset: "utf-8" }), element("title", {}, head),
    element("style", {}, "body { font: 11pt/1.5 sans-serif; max-width: 42rem; margin: 2rem auto; } .below, .line { display: block; }",
      " .signs { margin-top: 4rem; } .signs > * { border-top: 1px solid; max-width: 22rem; padding-top: 0.25rem; }")),
  element("body", {}, copy));
  return `<!DOCTYPE html>\n${page.outerHTML}\n`;
}

/** A note to the clerk about the remedy: it is missing, in another language, or too late. */
function remedyNote({ remedy }, { contract }) {
  const [tag, lines] = wordsOf(remedy);
  const fault = contract ? (lines.length > 0 ? "signed" : "") : lines.length === 0 ? "noremedy" : tag === language() ? "" : "otherremedy";
  return fault ? note("look", say(`letters.${fault}`)) : null;
}

/** A letter to each tenderer of an opened lot; none while the lot is undecided. */
function lettersOf(notice, lot) {
  const tell = lot.active ? (one) => (isWinner(lot, one) ? won(notice, lot, one) : lost(notice, lot, one)) : endingOf(notice, lot);
  return tell === null ? [] : lot.tenders.toSorted((one, other) => Number(isWinner(lot, other)) - Number(isWinner(lot, one)))
    .map((one) => letter(notice, lot, one, tell(one), !isWinner(lot, one)));
}

function isWinner({ active }, { tenderer }) {
  return `T-${tenderer}` === active?.suppliers[0].id;
}

/** The sentences for the winner, before or after the signing. */
function won({ terms, currency }, { active, standstillUntil, state, contract }, one) {
  const required = terms.performance && state === "awarded" ? say("letter.performance", { amount: money(terms.performance, currency) }) : "";
  return [sayParts("letter.won", { price: money(active.value.amount, currency), moment: day(active.date) }), corrected(one, currency),
    standstill(active, standstillUntil, contract), required];
}

/** The sentences for the others. */
function lost(notice, lot, one) {
  const { active, standstillUntil, shown, contract } = lot;
  const { currency, stage } = notice;
  const winner = sayParts("letter.winner", { name: given(active.suppliers[0].name), price: money(active.value.amount, currency), moment: day(active.date) });
  const why = say(`see.why.${outcomeOf(one, shown, stage.byPoints)[1]}`);
  return [say("letter.thanks", { receipt: String(one.receipt), why }), winner, ownPrice(one, currency), stage.byPoints ? points(lot, one) : "",
    standstill(active, standstillUntil, contract)];
}

/** The points of a tender beside those of the winner's. */
function points(lot, one) {
  const [own, best] = [one, lot.tenders.find((other) => isWinner(lot, other))].map((tender) => pointsOf(lot.shown?.tenders.get(tender?.receipt) ?? { points: null }));
  return own && best ? say("letter.points", { own: number(own.sum), best: number(best.sum) }) : "";
}

function ownPrice(one, currency) {
  return one.reading === "priced" ? [say("letter.own", { price: money(one.corrected, currency) }), corrected(one, currency)].filter(Boolean).join(" ") : "";
}

/** Why a price isn't the sum that the tender states. */
function corrected({ stated, corrections }, currency) {
  return corrections > 0 ? say("letter.corrected", { stated: money(stated, currency), count: corrections }) : "";
}

/** Makes the sentences for a lot that ended without a winner; null if it didn't. */
function endingOf(notice, lot) {
  const ended = { unsuccessful: nobodyWon, cancelled }[lot.state];
  return ended ? (one) => {
    const [, outcome] = outcomeOf(one, lot.shown, notice.stage.byPoints);
    const why = OWN.includes(outcome) ? say(`see.why.${outcome}`) : "";
    return [say("letter.thanks", { receipt: String(one.receipt), why }), ended(notice, lot), ownPrice(one, notice.currency)];
  } : null;
}

function releaseOf({ releases }, tag, lot) {
  return releases.findLast((release) => release.tag.includes(tag) && (release.tender?.lots ?? []).some(({ id }) => id === lot.id));
}

function nobodyWon(notice, lot) {
  const { date } = releaseOf(notice, "tenderUpdate", lot) ?? {};
  return date ? sayParts("letter.nobody", { moment: day(date) }) : say("letter.nobody.undated");
}

function cancelled(notice, lot) {
  const { date, tender } = releaseOf(notice, "tenderCancellation", lot);
  const text = tender.amendments[0].rationale.trim();
  // (a reason that is a sentence has its own full stop)
  const stop = /[.!?…]["”“’)]?$/.test(text) ? "" : ".";
  return sayParts("letter.cancelled", { moment: day(date), reason: element("span", {}, given(text), stop) });
}

/** Until when nothing is signed, if there is a standstill; or that it is over, and when the contract was signed. */
function standstill({ date }, until, contract) {
  const name = until <= Date.parse(date) ? "none" : officeNow() < until ? "" : "over";
  const told = name === "none" ? "" : sayParts(name ? "letter.standstill.over" : "letter.standstill", { until: when(momentText(until)) });
  return contract ? [told, told ? " " : "", sayParts("letter.signed", { moment: day(contract.dateSigned) })] : told;
}

/** The state of a tender's security, if this tab may see it. */
function secured({ held, currency }, lot, one) {
  const own = held.findLast((it) => it.lot === lot.id && it.tenderer === one.tenderer);
  return own ? say(`letter.security.${own.state}`, { security: own.reference, amount: money(own.amount, currency) }) : "";
}

/** One letter to all who tendered for a lot that was cancelled before the opening: the office never names
 * them. The register has their receipts, for the clerk. */
async function openLetter(notice, lot) {
  const rows = caller() ? (await registerText(notice.name, caller())).split("\n").map((line) => line.split("\t")) : [];
  const receipts = rows.filter(([, of, , , state]) => of === lot.id && state === "returned").map(([receipt]) => receipt);
  const one = { receipt: "all", name: say("letter.everybody", { lot: lot.id }), address: "" };
  const told = [receipts.length > 0 ? say("letter.receipts", { receipts: receipts.join(", "), count: receipts.length }) : say("letter.receipts.none"),
    cancelled(notice, lot), say("letter.sealed")];
  return [letter(notice, lot, one, told, true)];
}

/** A letter. For anyone who lost it has the remedy, if the city's file has one and no contract is signed. */
function letter(notice, lot, one, told, isLoser) {
  const { name, compiled, city } = notice;
  const sender = [compiled.buyer.name, who()].filter(Boolean).join(", ");
  const subject = sayParts("letter.subject", { notice: name, title: given(compiled.tender.title), lot: lot.id, lottitle: given(lot.title) });
  const address = element("p", { class: "address" }, given(one.name), element("span", { class: "below" }, given(one.address)));
  const objection = isLoser && !lot.contract ? remedyOf(city) : "";
  return [letterhead(city), element("p", {}, sayParts("letter.from", { sender: given(sender) })), address, element("p", {}, day(momentText(officeNow()))),
    element("h2", {}, subject),
    [...told, one.tenderer ? secured(notice, lot, one) : ""].filter((part) => part !== "").map((part) => element("p", {}, part)),
    reasons(`${name}/${lot.id}/${one.receipt}`), objection,
    element("p", {}, say("letter.look", { address: `${location.origin}/#notice/${name}` })), signs(say("letter.sign", { sender }))];
}

/** More reasons: typed on the screen, and printed in the letter. */
function reasons(key) {
  const more = field(say("letter.more"), { hint: say("letter.more.hint"), kind: "lines", rows: "2", spellcheck: "true", value: reasonOf(key) });
  const printed = element("p", {}, reasonOf(key));
  more.input.addEventListener("input", () => {
    keepReason(key, more.input.value);
    printed.textContent = more.input.value;
  });
  more.made.classList.add("noprint");
  return [printed, more.made];
}
