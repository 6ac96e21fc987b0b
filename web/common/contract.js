// A contract: its price against the estimate, its changes and payments, and its performance security.
import { badge, bar, below, element, facts, given, key, listed } from "./draw.js";
import { addedTo, endOf, paidOf } from "./findings.js";
import { day, money } from "./money.js";
import { language, say, sayParts } from "./texts.js";

/** A part of an amount, such as ` (2.5%)`; '' if there is no whole. */
export function share(part, whole) {
  return whole === 0 ? "" : ` (${new Intl.NumberFormat(language(), { style: "percent", maximumFractionDigits: 1 }).format(Math.abs(part) / whole)})`;
}

/** A price compared with the estimate, such as `12,000 EUR above the estimate (2.5%)`. */
export function against({ amount, currency }, estimate) {
  const more = amount - estimate.amount;
  return more === 0 ? say("see.same") : say(more > 0 ? "see.above" : "see.below", { amount: money(Math.abs(more), currency) }) + share(more, estimate.amount);
}

/** The sum of the changes of a price, such as `+12,000 EUR (2.5%)`, or with a minus. */
function addedText(added, { amount, currency }) {
  return `${added < 0 ? "−" : "+"}${money(Math.abs(added), currency)}${share(added, amount)}`;
}

/** A change of a contract, such as `Raised by 12,000 EUR`. The office writes it in English, without groups
 * and currency. */
export function changeOf({ description }, currency) {
  const [, kind, amount] = /^(Raised|Cut) by (\d+)$/.exec(description) ?? [];
  return kind ? say(kind === "Raised" ? "see.raised" : "see.cut", { amount: money(Number(amount), currency) }) : given(description);
}

/** The state of a contract. Only its parties see how it ended; a default is red. */
function standing(ended, seen) {
  return !ended ? badge("running", say("see.runs")) : !seen ? badge("ended", say("see.ended"))
    : seen.how === "default" ? badge("stopped", say("see.ended.default")) : badge("ended", say("see.ended.regular"));
}

/** The performance security: `held` for its parties (null if there is none), for the public what the terms
 * say. */
function performance({ performance: asked }, held, ended, currency) {
  if (held !== undefined) {
    return held === null ? say("see.noneasked")
      : [money(held.amount, currency), below(given(held.reference), ": ", say(`security.${held.state}`))];
  }
  return asked > 0 ? [money(asked, currency), below(say(ended ? "see.performance.ended" : "see.performance.held"))] : null;
}

/** The contract of an award. Its parties also see the parts that the office shows only to them (`seen`),
 * its performance security (`held`), and `more`. */
export function contractPart(one, award, lot, { terms, releases }, { seen = null, held = undefined, more = null } = {}) {
  const { currency } = one.value;
  const paid = paidOf(one);
  const left = Math.max(one.value.amount - paid, 0);
  const ended = one.status === "terminated";
  const parts = [{ kind: "paid", name: say("see.paid"), amount: paid },
    ended ? { kind: "free", name: say("see.unpaid"), amount: left } : { kind: "contracted", name: say("see.topay"), amount: left }];
  const changes = (one.amendments ?? []).map((it) => [day(it.date), ": ", changeOf(it, currency), " (", given(it.id), "). ", given(it.rationale)]);
  const payments = (one.implementation?.transactions ?? []).map(({ id, date, value }) =>
    [day(date), ": ", money(value.amount, currency), " (", given(id), ")"]);
  const secured = performance(terms, held, ended, currency);
  const told = [[say(ended ? "see.worth.end" : "see.worth"), money(one.value.amount, currency)],
    [say("see.price"), [money(award.value.amount, currency), below(against(award.value, lot.value))]],
    [say("see.added"), changes.length === 0 ? say("see.nothing") : addedText(addedTo(one, award), award.value)],
    [say("see.signed"), day(one.dateSigned)], ended ? [say("see.ended"), day(endOf(releases, one))] : null,
    seen ? [say("see.outstanding"), money(seen.outstanding, currency)] : null, secured ? [say("see.performance"), secured] : null].filter(Boolean);
  const name = say("see.contract", { contract: one.id });
  return element("section", { class: "contract", "aria-label": name }, element("h4", {}, name, " ", standing(ended, seen)),
    facts(told), bar(name, parts), key(parts, ` ${currency}`),
    ended && !seen ? element("p", { class: "quiet" }, say("see.ended.how")) : null,
    listed(5, say("see.changes"), changes), listed(5, say("see.payments"), payments), more);
}

/** A reason that somebody gave, added after a sentence. */
export function reason(rationale) {
  return [" ", sayParts("see.reason", { text: given(rationale) })];
}
