// A process as a list of events, one for each release.
import { day, money, moment } from "./money.js";
import { say, sayParts } from "./texts.js";
import { changeOf, reason } from "./contract.js";
import { element, given } from "./draw.js";
import { paidOf } from "./findings.js";

/** @type {any[]} */
const TOLD = [
  ["tenderCancellation", cancelled],
  ["awardCancellation", failed],
  ["tenderAmendment", amended],
  ["contractAmendment", changed],
  ["contractTermination", ended],
  ["implementation", paid],
  ["contract", signed],
  ["award", awarded],
  ["tenderUpdate", updated],
  ["tender", published],
];

function amountOf({ amount, currency }) {
  return money(amount, currency);
}

/** Lots, by identifier and title. */
function names(lots, ids) {
  return element("span", {}, say("see.lots", { count: ids.length }), " ", ids.map((id, at) => {
    const title = lots.find((lot) => lot.id === id)?.title;
    return [at > 0 ? ", " : "", id, title ? [" (", given(title), ")"] : ""];
  }));
}

function published({ tender }) {
  const lots = element("span", {}, say("see.count.lots", { count: tender.lots.length }));
  return ["published", sayParts("see.told.published", { lots, amount: amountOf(tender.value), deadline: moment(tender.tenderPeriod.endDate) })];
}

function amended({ tender }) {
  return ["amended", [sayParts("see.told.amended", { deadline: moment(tender.tenderPeriod.endDate) }), reason(tender.amendments[0].rationale)]];
}

function updated({ tender }, lots) {
  if (tender.numberOfTenderers === undefined) {
    return ["nobody", sayParts("see.told.nobody", { lots: names(lots, tender.lots.map(({ id }) => id)) })];
  }
  return ["opened", tender.numberOfTenderers === 0 ? [say("see.told.none")] : [say("see.told.opened", { count: tender.numberOfTenderers })]];
}

function awarded({ awards: [award] }, lots) {
  const to = given(award.suppliers[0].name);
  return ["awarded", sayParts("see.told.awarded", { lots: names(lots, award.relatedLots), name: to, amount: amountOf(award.value) })];
}

function failed({ awards }, lots, compiled) {
  const award = compiled.awards.find(({ id }) => id === awards[0].id);
  return ["passed", sayParts("see.told.passed", { name: given(award.suppliers[0].name), lots: names(lots, award.relatedLots) })];
}

function cancelled({ tender }, lots) {
  return ["cancelled", [sayParts("see.told.cancelled", { lots: names(lots, tender.lots.map(({ id }) => id)) }), reason(tender.amendments[0].rationale)]];
}

function signed({ contracts: [contract] }) {
  return ["signed", [say("see.told.signed", { contract: contract.id, amount: amountOf(contract.value) })]];
}

function changed({ contracts: [contract] }) {
  const [amendment] = contract.amendments;
  const change = element("span", {}, changeOf(amendment, contract.value.currency));
  return ["changed", [sayParts("see.told.changed", { contract: contract.id, change, amount: amountOf(contract.value) }), reason(amendment.rationale)]];
}

function paid({ contracts: [contract] }) {
  const { value, payee } = contract.implementation.transactions[0];
  return ["paid", sayParts("see.told.paid", { amount: amountOf(value), name: given(payee.name), contract: contract.id })];
}

/** (the release has only the contract's number) */
function ended({ contracts: [{ id }] }, _lots, compiled) {
  const { value, ...contract } = compiled.contracts.find((one) => one.id === id);
  return ["ended", [say("see.told.ended", { contract: id, paid: money(paidOf(contract), value.currency), amount: amountOf(value) })]];
}

/** One release as an entry. A release with an unknown tag shows its tag. */
function entry(release, lots, compiled) {
  const [, tell] = TOLD.find(([tag]) => release.tag.includes(tag)) ?? [null, null];
  const [head, sentence] = tell ? tell(release, lots, compiled) : [null, []];
  return element("li", {}, element("h3", {}, head ? say(`see.head.${head}`) : release.tag.join(", ")), element("p", { class: "quiet" }, day(release.date)),
    element("p", {}, sentence));
}

/** All entries, the oldest first. */
export function timeline(releases, compiled) {
  return element("ol", { class: "timeline" }, releases.map((release) => entry(release, compiled.tender.lots, compiled)));
}
