// Tables pasted from a spreadsheet, as TSV or CSV: their cells, and the lots and items in them. Runs in node
// too.
import { recordsOf } from "../common/csv.js";
import { amountOf, digitsOf } from "./values.js";

const SIGNS = ["\t", ";", ","];
// The columns, in the order that is used if there is no header, with the words by which a header can name
// each of them.
export const COLUMNS = {
  lot: ["lot", "los", "losnummer", "lot id"],
  lotTitle: ["lot title", "title of the lot", "lostitel", "bezeichnung des loses", "titel des loses"],
  line: ["line", "budget line", "haushaltsstelle", "budgetlinie", "linie"],
  estimate: ["estimate", "estimated value", "schätzung", "schätzwert", "auftragswert"],
  security: ["security", "tender security", "sicherheit", "bietsicherheit"],
  item: ["item", "position", "pos", "pos.", "item id"],
  title: ["title", "item title", "description", "bezeichnung", "titel", "beschreibung"],
  quantity: ["quantity", "qty", "menge", "anzahl"],
};
const NAMES = Object.keys(COLUMNS);
const NUMBERS = ["estimate", "security", "quantity"];

/** The rows of a pasted text: each has its cells and its first line; empty rows are left out. Cells are
 * separated by tabs if there is one, else by semicolons, else by commas. */
function rowsOf(text) {
  const sign = SIGNS.find((it) => text.includes(it)) ?? "\t";
  return recordsOf(text.replace(/^\ufeff/, ""), sign).records
    .map(({ line, fields }) => ({ line, cells: fields.map((cell) => cell.replace(/\s+/g, " ").trim()) }))
    .filter(({ cells }) => cells.some((cell) => cell !== ""));
}

/** The column names in a header row, or null if the row isn't a header. */
function headOf(cells) {
  const named = cells.map((cell) => NAMES.find((name) => COLUMNS[name].includes(cell.toLowerCase())) ?? null);
  return named.filter(Boolean).length >= 2 ? named : null;
}

/** The lots in a table with one row for each item: `lots` as texts for the editor; `faults` and `changes`,
 * each with a line, a code and values. A lot's own columns are needed only in its first row. Without a
 * header the columns are those of COLUMNS, in order. */
export function lotsOf(text) {
  const rows = rowsOf(text);
  const head = rows.length > 0 ? headOf(rows[0].cells) : null;
  const names = head ?? NAMES;
  const found = { lots: [], faults: [], changes: [], lot: null };
  if (rows.length === 0) {
    found.faults.push({ line: 1, code: "nothing" });
  }
  const missing = NAMES.filter((name) => !names.includes(name) && ["lot", "item", "title", "quantity"].includes(name));
  if (head && missing.length > 0) {
    found.faults.push({ line: 1, code: "column", name: missing[0] });
    return { lots: [], faults: found.faults, changes: [] };
  }
  for (const row of head ? rows.slice(1) : rows) {
    takeRow(found, row, names);
  }
  return { lots: found.lots, faults: found.faults, changes: found.changes };
}

function takeRow(found, { line, cells }, names) {
  if (cells.length > names.length && cells.slice(names.length).some((cell) => cell !== "")) {
    found.faults.push({ line, code: "cells", value: cells.length });
  }
  const row = Object.fromEntries(NAMES.map((name) => [name, cells[names.indexOf(name)] ?? ""]));
  for (const name of NUMBERS) {
    row[name] = number(found, line, name, row[name]);
  }
  const own = row.lot === "" ? found.lot : (found.lots.find(({ id }) => id === row.lot) ?? begun(found, row));
  found.lot = own;
  if (!own) {
    found.faults.push({ line, code: "lot" });
    return;
  }
  disagree(found, line, own, row);
  if (row.item !== "" || row.title !== "" || row.quantity !== "") {
    own.items.push({ id: row.item, title: row.title, quantity: row.quantity });
  }
}

function begun(found, row) {
  const lot = { id: row.lot, title: row.lotTitle, line: row.line, estimate: row.estimate, security: row.security, items: [] };
  found.lots.push(lot);
  return lot;
}

/** The places at which a later row contradicts the first row of its lot. */
function disagree(found, line, lot, row) {
  for (const [name, held] of [["lotTitle", lot.title], ["line", lot.line], ["estimate", lot.estimate], ["security", lot.security]]) {
    if (row[name] !== "" && held !== row[name]) {
      found.faults.push({ line, code: "differs", value: lot.id, name, told: row[name] });
    }
  }
}

/** The digits of a number in a cell. Each change is reported; a cell that can't be read stays as it is, for
 * the clerk to correct. */
function number(found, line, name, cell) {
  if (cell === "") {
    return "";
  }
  const digits = name === "quantity" ? digitsOf(cell) : amountOf(cell);
  if (digits === null) {
    found.faults.push({ line, code: "number", value: cell, name });
    return cell;
  }
  if (digits !== cell) {
    found.changes.push({ line, name, value: cell, told: digits });
  }
  return digits;
}
