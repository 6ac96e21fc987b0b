// The tables of the office's mirror, with data of all procurements. They are fetched when a view needs them.
import { recordsOf } from "./csv.js";
import { file } from "./office.js";

const FIGURES = new Set(["amount", "appropriation", "amendments", "changes", "contracted", "corrected", "corrections", "estimate", "free", "length", "lots", "paid",
  "performance", "points", "price", "price_weight", "quality", "quantity", "releases", "reserved", "security", "standstill_days", "stated", "tenderers", "tenders",
  "validity_days", "worth"]);

/** The value of a cell: a number, or null if the cell is empty. (The mirror puts an apostrophe wherever a
 * spreadsheet would read what follows as a formula.) */
function valueOf(isFigure, text) {
  if (isFigure) {
    return text === "" ? null : Number(text);
  }
  return text.includes("'") ? text.replace(/(^|[,;\t|])'('*)(?=[=+\-@\t\r])/g, "$1$2") : text;
}

/** The rows of a table, each keyed by the column names in the first row. */
export function rowsOf(text) {
  const [head, ...records] = recordsOf(text).records;
  const columns = (head?.fields ?? []).map((name) => [name, FIGURES.has(name)]);
  return records.map(({ fields }) => {
    const row = {};
    columns.forEach(([name, isFigure], at) => { row[name] = valueOf(isFigure, fields[at] ?? ""); });
    return row;
  });
}

/** The rows of one of the mirror's tables, such as `lots`; null if there is no mirror. */
export async function rows(name) {
  const text = await file(`/data/${name}.csv`);
  return text === null ? null : rowsOf(text);
}

/** Several tables by name; null if one of them is missing. */
export async function tables(...names) {
  const found = await Promise.all(names.map(rows));
  return found.includes(null) ? null : Object.fromEntries(names.map((name, at) => [name, found[at]]));
}

/** Rows grouped by the result of a function. */
export function grouped(all, by) {
  const groups = new Map();
  for (const row of all) {
    const name = by(row);
    groups.has(name) ? groups.get(name).push(row) : groups.set(name, [row]);
  }
  return groups;
}

/** The current value of a row's contract. After its end this is the amount paid, because the rest is free
 * again. */
export function worthNow({ worth, paid, status, contract_status: own = status }) {
  return own === "terminated" ? paid : worth;
}

export function sum(numbers) {
  return numbers.reduce((one, other) => one + other, 0);
}
