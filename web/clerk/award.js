// A lot from its examination to its contract: the award, the standstill, and then the signing or the passing
// over.
import { share } from "../common/contract.js";
import { isId } from "../common/csv.js";
import { element, given, link, placeOf } from "../common/draw.js";
import { DIGITS, ID, areRight, button, field, form, note, steps } from "../common/forms.js";
import { money } from "../common/money.js";
import { line, officeNow } from "../common/office.js";
import { say, sayParts } from "../common/texts.js";
import { ofRelease, own } from "./fate.js";
import { momentAndSpan } from "./load.js";
import { forRole } from "./roles.js";
import { jsonBody, sendThen } from "./send.js";
import { caller, may } from "./session.js";
import { isAdmissible, outlookOf } from "./stage.js";
import { MOST, amountOf, wholeNumber } from "./values.js";

/** The next task of a lot. */
export function awardPart(notice, lot, again) {
  return { undecided, awarded }[lot.state]?.(notice, lot, again) ?? (lot.tenders.length > 0 ? element("p", {}, letters(notice, lot)) : null);
}

/** The name and the price of an award, for a text. */
function ofAward(award, currency) {
  return { name: given(award.suppliers[0].name), price: money(award.value.amount, currency) };
}

/** The way to the letters: for every lot with tenders that was awarded or has ended. */
export function letters({ name }, lot) {
  return link(say("letters.link"), placeOf("letter", name, lot.id));
}

/** The button is on if the office would accept the award; the text beside it says what the award would do. */
function undecided(notice, lot, again) {
  const { stage, currency } = notice;
  const outlook = outlookOf(lot);
  const isOver = stage.isExpired && outlook.code !== "nobody";
  const award = button(say(outlook.code === "nobody" ? "award.nobody.send" : "award.send"), () => sendThen(awardOrder(notice, lot, outlook), again));
  award.disabled = outlook.code === "waits" || isOver;
  const lacking = element("p", { class: "wrong", role: "status" });
  if (outlook.code === "best" && outlook.tender.corrected > lot.reserved) {
    tellLacking(lot, outlook.tender.corrected - lot.reserved, currency, award, lacking).catch(() => {});
  }
  return element("div", { class: "award" }, element("h4", {}, say("step.award")), element("p", {}, outlookText(lot, outlook, currency)),
    comparison(lot, outlook, currency).map((text) => element("p", {}, text)),
    isOver ? element("p", { class: "wrong" }, say("award.expired")) : null, lacking, forRole("evaluation", () => steps(award)));
}

/** If the price is above the lot's reserved money, the budget line must have the difference free. Otherwise
 * the office refuses the award. */
async function tellLacking(lot, more, currency, award, place) {
  const { free } = await line(lot.line, caller());
  if (free < more) {
    award.disabled = true;
    place.textContent = say("award.short", { more: money(more, currency), line: lot.line, free: money(free, currency) });
  }
}

/** How far the best price is from the estimate and from the lowest other price that can win. */
function comparison(lot, { code, tender = null }, currency) {
  if (code !== "best") {
    return [];
  }
  const price = tender.corrected;
  const others = lot.tenders.filter((one) => one !== tender && isAdmissible(one));
  const next = others.toSorted((one, other) => one.corrected - other.corrected)[0];
  const text = (from, name, values) => sayParts(`award.${name}.${price === from ? "same" : price < from ? "below" : "above"}`,
    { amount: money(Math.abs(from - price), currency) + share(from - price, from), ...values });
  return [element("span", {}, text(lot.estimate, "estimate", {})), element("span", {}, next ? text(next.corrected, "next", { name: given(next.name) }) : say("award.next.none"))];
}

/** The result of an award, as a sentence. */
function outlookText(lot, { code, count = 0, tender = null }, currency) {
  const values = { count, lot: lot.id, name: given(tender?.name ?? ""), price: tender ? money(tender.corrected, currency) : "",
    freed: money(lot.reserved, currency) };
  const isAlone = code === "nobody" && lot.tenders.length === 0;
  return [...sayParts(isAlone ? "award.none" : `award.${code}`, values),
    ...(code === "nobody" && !isAlone && lot.security > 0 ? [" ", say("award.securities")] : [])];
}

function awardOrder(notice, lot, outlook) {
  const { name, releases, currency } = notice;
  const told = element("span", {}, outlookText(lot, outlook, currency));
  const standstill = notice.terms.standstill_days > 0 ? [say("award.standstill")] : [];
  const more = outlook.code === "best" ? [...comparison(lot, outlook, currency), moneyText(lot, outlook.tender, currency), ...standstill] : [];
  const isNobody = outlook.code === "nobody";
  const values = { lot: lot.id, notice: name, ...(isNobody ? {} : { name: outlook.tender?.name ?? "…" }) };
  return { kind: isNobody ? "endlot" : "award", values, told: (value) => awardText(lot, value, currency),
    path: `/notices/${name}/lots/${lot.id}/award`, body: null, isFinal: true,
    says: [told, ...more], again: "AlreadyDecided", find: () => ofRelease(name, releases.length, own.award(lot.id)) };
}

/** The result of an award by the office's answer. */
function awardText(lot, { tender: receipt, price }, currency) {
  const winner = lot.tenders.find((one) => one.receipt === receipt);
  return winner ? say("order.award.done", { lot: lot.id, name: winner.name, price: money(price, currency), receipt: String(receipt) })
    : say("order.endlot.done", { lot: lot.id, freed: money(lot.reserved, currency) });
}

function moneyText(lot, tender, currency) {
  const difference = lot.reserved - tender.corrected;
  const values = { price: money(tender.corrected, currency), difference: money(Math.abs(difference), currency) };
  return say(difference >= 0 ? "award.less" : "award.more", values);
}

function awarded(notice, lot, again) {
  const { active, standstillUntil } = lot;
  const isRunning = officeNow() < standstillUntil;
  const told = element("span", {}, momentAndSpan(standstillUntil));
  return element("div", { class: "award" }, element("h4", {}, say("award.made")),
    element("p", {}, sayParts("award.to", { ...ofAward(active, notice.currency), award: active.id })),
    lot.hasStandstill ? element("p", {}, sayParts(isRunning ? "standstill.until" : "standstill.over", { until: told })) : null,
    element("p", {}, letters(notice, lot)), notice.stage.isExpired ? note("bad", say("award.expired")) : null,
    forRole("contracts", () => signing(notice, lot, again, isRunning)), may("evaluation") ? passing(notice, lot, again, isRunning) : null);
}

/** The values for the titles of windows about a lot's award. */
function valuesOf({ name }, { id, active }) {
  return { award: active.id, lot: id, notice: name, name: active.suppliers[0].name };
}

/** The signing, with the performance security if the notice requires one. */
function signing(notice, lot, again, isRunning) {
  const { performance } = notice.terms;
  const security = field(say("sign.security"), { hint: say("sign.security.hint"), why: say("why.guarantee"), ...ID });
  const amount = field(say("sign.amount"), { hint: say("sign.asked", { amount: money(performance, notice.currency) }), ...DIGITS });
  const run = () => {
    const named = { security: security.value(), amount: wholeNumber(amountOf(amount.value()) ?? "", 1, MOST.amount) };
    const fault = amountFault(named.amount, performance, notice.currency);
    if (performance === 0 || areRight([[security, isId(named.security) ? "" : say("id.wrong")], [amount, fault]])) {
      return sendThen(signOrder(notice, lot, performance > 0 ? named : null), again);
    }
  };
  const fields = performance === 0 ? [element("p", {}, say("sign.none"))] : [security.made, amount.made];
  const made = form(say("step.signing"), fields, say("sign.send"), run);
  made.querySelector("button[type=submit]").disabled = isRunning || notice.stage.isExpired;
  return element("div", {}, element("h5", {}, say("step.signing")), made);
}

function amountFault(amount, asked, currency) {
  return amount === null ? say("amount.wrong") : amount < asked ? say("sign.small", { amount: money(asked, currency) }) : "";
}

function signOrder(notice, lot, named) {
  const { name, releases, currency } = notice;
  const { active } = lot;
  const isSecured = notice.terms.lots.find(({ id }) => id === lot.id).security > 0;
  const secured = named ? say("sign.held", { security: named.security, amount: money(named.amount, currency) }) : say("sign.none");
  return { kind: "sign", values: valuesOf(notice, lot), path: `/awards/${active.id}/sign`, body: named ? jsonBody(named) : null, isFinal: true,
    says: [element("span", {}, sayParts("sign.does", ofAward(active, currency))), secured, ...(isSecured ? [say("sign.back")] : [])],
    again: "AlreadyDecided", find: () => ofRelease(name, releases.length, own.sign(active.id)) };
}

/** Passes over a winner that doesn't sign. */
function passing(notice, lot, again, isRunning) {
  const pass = button(say("fail.send"), () => sendThen(failOrder(notice, lot), again), "harm");
  pass.disabled = isRunning || notice.stage.isExpired;
  return element("details", {}, element("summary", {}, say("fail.open")), element("p", {}, say("fail.what")), steps(pass));
}

function failOrder(notice, lot) {
  const { name, releases } = notice;
  const { id, active } = lot;
  return { kind: "fail", values: valuesOf(notice, lot), path: `/awards/${active.id}/fail`, body: null, word: say("fail.word"),
    says: [say("fail.does", { name: active.suppliers[0].name }), say("fail.again", { lot: id })],
    again: "AlreadyDecided", find: () => ofRelease(name, releases.length, own.fail(active.id)) };
}
