// The reading of a tender's file at the opening, to the letter (crates/tender_papers/specs, Files and
// Tender). This module decides; faults.js explains. It runs in node too:
// tests/desks/test_tender_files.py compares it with `procure read-tender`.
import { binaryOf, contentOf, numberOf, recordsOf } from "../common/csv.js";

export const HEAD = ["item", "quantity", "unit", "total"];
export const SUM = ["TOTAL", "", ""];
export const MOST_BYTES = 32768, MOST_UNIT = 1e9, MOST_PRICE = 1e12;

export function areSame(some, others) {
  return some.length === others.length && some.every((field, at) => field === others[at]);
}

/** The item's row in a record: four fields, the last three of them numbers. Null if it isn't one. */
export function rowOf({ line, fields }) {
  const [quantity, unit, total] = fields.slice(1).map(numberOf);
  return fields.length !== HEAD.length || [quantity, unit, total].includes(null) ? null : { line, name: fields[0], quantity, unit, total };
}

/** The sum that the last record states: `TOTAL`, two empty fields and a number. Null if it states none. */
export function statedOf({ fields }) {
  return fields.length === HEAD.length && areSame(fields.slice(0, 3), SUM) ? numberOf(fields[3]) : null;
}

export function isHead({ fields }) {
  return areSame(fields, HEAD);
}

/** The price that counts: quantities times unit prices. (Files can contain numbers whose sum a Number doesn't
 * hold exactly.) */
export function priceOf(rows) {
  return rows.reduce((sum, { quantity, unit }) => sum + BigInt(quantity) * BigInt(unit), 0n);
}

/** Whether the rows are the lot's items, in their order and quantities, with prices within the bounds. */
function conforms(rows, items) {
  const areFor = rows.length === items.length && rows.every(({ name, quantity }, at) => name === items[at].id && quantity === items[at].quantity);
  return areFor && rows.every(({ unit }) => unit <= MOST_UNIT) && priceOf(rows) <= BigInt(MOST_PRICE);
}

export function isWrong({ quantity, unit, total }) {
  return total !== quantity * unit;
}

/** The office's reading of a file's bytes, for a lot with these items. `priced` comes with the stated
 * price, the price that counts and the number of corrections. Otherwise it is `unreadable`,
 * `nonconforming`, or `not taken`. */
export function readingOf(bytes, items) {
  if (bytes.length < 1 || bytes.length > MOST_BYTES) {
    return { kind: "not taken", rows: [] };
  }
  const { records } = recordsOf(contentOf(binaryOf(bytes)));
  if (records.length < 2 || !isHead(records[0])) {
    return { kind: "unreadable", rows: [] };
  }
  const rows = records.slice(1, -1).map(rowOf);
  const stated = statedOf(records.at(-1));
  if (rows.includes(null) || stated === null) {
    return { kind: "unreadable", rows: [] };
  }
  if (!conforms(rows, items)) {
    return { kind: "nonconforming", rows };
  }
  const price = Number(priceOf(rows));
  return { kind: "priced", stated, price, corrections: rows.filter(isWrong).length + (stated === price ? 0 : 1), rows };
}

/** The file with these unit prices, which the office reads without a correction. */
export function fileOf(items, units) {
  const rows = items.map(({ id, quantity }, at) => [id, quantity, units[at], quantity * units[at]]);
  const sum = rows.reduce((all, row) => all + row[3], 0);
  return new TextEncoder().encode([HEAD, ...rows, [...SUM, sum]].map((fields) => `${fields.join(",")}\n`).join(""));
}
