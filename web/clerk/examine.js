// The examination of a lot: all tenders on one screen, sent by one confirmation, one command for each tender.
import { element, fresh, given } from "../common/draw.js";
import { DIGITS, areRight, button, field, note, steps, table } from "../common/forms.js";
import { money, number } from "../common/money.js";
import { say } from "../common/texts.js";
import { ofExamination } from "./fate.js";
import { jsonBody, send } from "./send.js";
import { forRole } from "./roles.js";
import { may } from "./session.js";
import { isWaiting } from "./stage.js";
import { wholeNumber } from "./values.js";

// The answers so far, by receipt: they stay when the screen is drawn again.
const chosen = new Map();
const ANSWERS = ["yes", "no", "later"];

/** The examination of a lot: the words before the table of its tenders, the answers for a tender in that table (`of`), and
 * the part below it. Null if no tender waits for it. */
export function examinations(notice, lot, again) {
  const waiting = lot.tenders.filter(isWaiting);
  if (lot.state !== "undecided" || waiting.length === 0) {
    return null;
  }
  const head = element("h4", {}, say("examine.title", { count: waiting.length }));
  return may("evaluation") ? answersOf(notice, lot, waiting, again, head) : { before: [head, forRole("evaluation", () => null)], of: () => null, after: null };
}

function answersOf(notice, lot, waiting, again, head) {
  const parts = waiting.map((one) => examination(notice, one));
  const none = element("p", { class: "wrong", role: "status" });
  const run = async () => {
    const answered = parts.filter((part) => part.answer() !== "later");
    none.textContent = answered.length === 0 ? say("examine.none") : "";
    if (answered.length > 0 && areRight(answered.flatMap((part) => part.faults()))) {
      await send(examinationsOrder(notice, lot, answered.map((part) => part.given())));
      // (drawn again in any case: someone else may have decided meanwhile)
      again();
    }
  };
  const all = () => parts.filter((part) => part.answer() === "later").forEach((part) => part.meets());
  return { before: [head, element("p", {}, say("examine.what")), waiting.length === 1 ? null : [steps(button(say("examine.all"), all, "second")),
    element("p", { class: "quiet" }, say("examine.all.what"))]], of: (receipt) => parts[waiting.findIndex((one) => one.receipt === receipt)]?.made ?? null,
  after: [none, steps(button(say("examine.send"), run))] };
}

/** A tender with its answers, and with the points for quality if points decide. */
function examination({ terms, stage: { byPoints } }, one) {
  const most = 100 - (terms.price_weight ?? 0);
  const own = chosen.get(one.receipt) ?? { answer: "later", quality: "" };
  chosen.set(one.receipt, own);
  const quality = field(say("examine.quality"), { hint: say("examine.quality.hint", { most }), maxlength: "3", value: own.quality, ...DIGITS });
  quality.input.addEventListener("input", () => { own.quality = quality.value(); });
  const show = () => { quality.made.hidden = own.answer !== "yes"; };
  const group = fresh("examine");
  const answers = ANSWERS.map((answer) => {
    const id = fresh("answer");
    const input = element("input", { id, type: "radio", name: group, value: answer, ...(own.answer === answer ? { checked: "" } : {}) });
    input.addEventListener("change", () => {
      own.answer = answer;
      show();
    });
    return element("label", { class: "tick", for: id }, input, element("span", {}, say(`examine.${answer}`)));
  });
  show();
  const points = () => (byPoints && own.answer === "yes" ? wholeNumber(own.quality, 0, most) : 0);
  return { made: element("div", { class: "examination", role: "group", "aria-label": say("examine.of", { name: one.name, receipt: String(one.receipt) }) },
    element("div", { class: "choices" }, answers), byPoints ? quality.made : null), answer: () => own.answer, meets: () => answers[0].querySelector("input").click(),
    faults: () => [[quality, points() === null ? say("examine.quality.wrong", { most }) : ""]],
    given: () => ({ one, responsive: own.answer === "yes", ...(byPoints && own.answer === "yes" ? { quality: points() } : {}) }) };
}

/** One window for all results; each is a command of its own. */
function examinationsOrder(notice, lot, results) {
  const orders = results.map(({ one: { name, receipt }, ...body }) => ({ kind: "examine", values: { receipt: String(receipt), name },
    path: `/tenders/${receipt}/examine`, body: jsonBody(body), again: "AlreadyDecided", find: () => ofExamination(notice.name, receipt, body.responsive) }));
  return { kind: "examineall", values: { count: results.length, lot: lot.id, notice: notice.name }, isFinal: true, orders,
    says: [say("examine.stays"), say("examine.reasons"), say("examine.each", { count: results.length })], shows: () => resultTable(notice, results) };
}

function resultTable({ currency, stage: { byPoints } }, results) {
  const heads = [say("see.tenderer"), say("see.price"), say("examine.result"), ...(byPoints ? [say("examine.quality")] : [])];
  const rows = results.map(({ one, responsive, quality }) => [[given(one.name), element("span", { class: "quiet below" },
    say("see.tender.receipt", { receipt: String(one.receipt) }))], money(one.corrected, currency),
  element("b", { class: responsive ? "right" : "wrong" }, say(responsive ? "examine.yes" : "examine.no")),
  ...(byPoints ? [quality === undefined ? "–" : number(quality)] : [])]);
  const refused = results.filter(({ responsive }) => !responsive).length;
  return [refused > 0 ? note("look", say("examine.refused", { count: refused })) : null,
    table(say("examine.table"), heads, rows, { figures: byPoints ? [1, 3] : [1] })];
}
