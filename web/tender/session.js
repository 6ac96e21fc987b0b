// The data of this tab, only in its memory. Nothing is stored, and closing the tab forgets it.
import { typed } from "../common/money.js";
import { record, terms } from "../common/office.js";
import { MOST_PRICE, MOST_UNIT, fileOf, readingOf } from "./papers.js";

export const session = {
  // From the key's file: { caller, key }.
  caller: null,
  // The registration that was typed, and the digest of the key that was made for it.
  registration: { tenderer: "", name: "", address: "", digest: "" },
  // The firm's name as it was typed for a receipt's sheet.
  firm: undefined,
  offer: null,
  // The last request, with or without an answer: { kind, notice, lot, receipt, digest, answer }.
  sent: null,
  // The caller's tenders that were found, and when each notice was searched for them.
  tenders: [],
  seen: new Map(),
  // By receipt: the unit prices that this tab submitted, and the security.
  kept: new Map(),
};

/** Forgets the key, and everything that was learned with it. */
export function putAway() {
  Object.assign(session, { caller: null, offer: null, sent: null, changing: null, firm: undefined, tenders: [] });
  session.seen.clear();
  session.kept.clear();
}

/** This tab's data about the tender with a receipt: `units`, its submitted prices by item, and `named`, its
 * security, if it has them. */
export function keptOf(receipt) {
  return session.kept.get(receipt) ?? {};
}

export function keep(receipt, more) {
  session.kept.set(receipt, { ...keptOf(receipt), ...more });
}

/** The terms of a notice, with the rest of its record. */
export async function noticeOf(notice) {
  const [one, { buyer, language, tender }] = await Promise.all([terms(notice), record(notice)]);
  return { ...one, buyer: buyer.name, language, currency: tender.value.currency };
}

/** Begins a tender for a lot. `changes` is the receipt of the tender that it replaces, or null. */
export function beginOffer(one, lot, changes) {
  const old = session.offer;
  const isSame = old && old.terms.notice === one.notice && old.lot.id === lot.id && old.changes === changes;
  session.offer = isSame ? Object.assign(old, { terms: one, lot })
    : { terms: one, lot, changes, units: { ...keptOf(changes).units }, source: "table", file: null, security: { reference: "", amount: "" } };
  return session.offer;
}

/** The typed unit prices of a lot's items, each with its value or its fault. */
export function unitsOf({ lot, units }) {
  return lot.items.map(({ id }) => typed(units[id] ?? "", MOST_UNIT));
}

/** The sum of the prices typed so far, and whether it is complete. */
export function sumOf(offer) {
  const units = unitsOf(offer);
  const sum = units.reduce((all, { value = 0 }, at) => all + BigInt(value) * BigInt(offer.lot.items[at].quantity), 0n);
  return { sum, isWhole: units.every(({ value }) => value !== undefined), isAbove: sum > BigInt(MOST_PRICE) };
}

/** The bytes of a tender and how the office will read them, or null if they aren't ready. Bytes without a
 * price are never ready. */
export function readyOf(offer) {
  if (offer?.source === "file") {
    const { kind, bytes, reading } = offer.file ?? { kind: "refused" };
    return kind !== "refused" && reading.kind === "priced" ? { bytes, reading } : null;
  }
  if (!offer || !sumOf(offer).isWhole) {
    return null;
  }
  const bytes = fileOf(offer.lot.items, unitsOf(offer).map(({ value }) => value));
  const reading = readingOf(bytes, offer.lot.items);
  return reading.kind === "priced" ? { bytes, reading } : null;
}
