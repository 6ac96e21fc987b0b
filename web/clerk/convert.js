// Converts a budget file that a spreadsheet wrote to the file that the office reads, and reports each change.
// A field that can't be converted stays as it is, and budget.js then reports it as a fault. Runs in node too.
import { binaryOf, contentOf, isUtf8, recordsOf, textOf } from "../common/csv.js";
import { bytesOf } from "../common/digest.js";
import { HEAD, readBudget } from "./budget.js";
import { amountOf } from "./values.js";

// A header is looked for in so many records.
const MOST_ABOVE = 20;
const SEPARATORS = [",", ";", "\t", "|"];
// The words by which spreadsheets name the columns, and the kinds of changes, in small letters.
const WORDS = {
  line: ["line", "budget line", "account", "haushaltsstelle", "stelle", "konto", "produktkonto", "budgetlinie"],
  kind: ["kind", "type", "change", "art", "typ", "art der änderung", "änderung", "+/-"],
  amount: ["amount", "sum", "betrag", "summe", "wert", "euro", "eur"],
  title: ["title", "name", "description", "titel", "bezeichnung", "beschreibung", "zweckbestimmung"],
};
const KINDS = { add: ["add", "+", "plus", "increase", "raise", "zugang", "zuführung", "erhöhung", "mehr"],
  cut: ["cut", "-", "−", "–", "minus", "decrease", "reduction", "abgang", "kürzung", "minderung", "weniger"] };
const SUMS = ["total", "sum", "grand total", "summe", "gesamt", "gesamtsumme"];

function plain(text) {
  return text.trim().toLowerCase().replace(/\s+/g, " ").replace(/[.:]$/, "").replace(/ ?[([](eur|€|euro)[)\]]$/, "");
}

function isBlank(fields) {
  return fields.every((field) => field.trim() === "");
}

/** The text of a file, with the change that it needed; null if it is no text. */
function textIn(bytes) {
  const binary = binaryOf(bytes);
  if (/^(\xff\xfe|\xfe\xff)/.test(binary)) {
    return { text: new TextDecoder(bytes[0] === 0xff ? "utf-16le" : "utf-16be").decode(bytes), coding: "UTF-16" };
  }
  const content = contentOf(binary);
  if (content.includes("\0") || content.startsWith("PK\x03\x04") || content.startsWith("%PDF")) {
    return null;
  }
  return isUtf8(content) ? { text: textOf(content), coding: "" } : { text: new TextDecoder("windows-1252").decode(bytes), coding: "Windows-1252" };
}

/** The place of each column by the words of a header; null if the words aren't a header. */
function columnsOf(fields) {
  const words = fields.map(plain);
  const found = Object.fromEntries(HEAD.map((name) => [name, words.findIndex((word) => WORDS[name].includes(word))]));
  const isOnce = HEAD.every((name) => words.filter((word) => WORDS[name].includes(word)).length <= 1);
  return isOnce && ["line", "kind", "amount"].every((name) => found[name] >= 0) ? found : null;
}

function kindOf(field) {
  return Object.keys(KINDS).find((kind) => KINDS[kind].includes(plain(field))) ?? null;
}

/** The records by the separator with which there is a header, or else by which the rows have a kind in the
 * second of four columns. */
function tableIn(text) {
  const [, forced] = /^sep=(.)\r?\n/.exec(text) ?? [];
  const body = forced ? text.slice(text.indexOf("\n") + 1) : text;
  const tries = (forced ? [forced] : SEPARATORS).map((separator) => {
    const { records, isOpen } = recordsOf(body, separator);
    const at = records.slice(0, MOST_ABOVE).findIndex(({ fields }) => columnsOf(fields) !== null);
    const isRows = records.length > 0 && records.every(({ fields }) => fields.length === HEAD.length && kindOf(fields[1]));
    return { separator, records, isOpen, at, isRows, skipped: forced ? 1 : 0 };
  });
  return tries.find(({ at, isOpen }) => at >= 0 && !isOpen) ?? tries.find(({ isRows, isOpen }) => isRows && !isOpen) ?? null;
}

/** A field in the new file. */
function written(field) {
  return /[",\r\n]/.test(field) ? `"${field.replaceAll('"', '""')}"` : field;
}

/** The new file, its changes, and for each of its records the line of the old one. A change has its line, a
 * name, and the text before and after. Null if the file is right as it is, or can't be converted. `titles`
 * has the titles of budget lines that exist. */
export function converted(bytes, titles) {
  const told = readBudget(bytes).faults.length === 0 ? null : textIn(bytes);
  const found = told && tableIn(told.text);
  if (!found) {
    return null;
  }
  const { records, at, separator, skipped } = found;
  const head = at >= 0 ? records[at] : null;
  const columns = head ? columnsOf(head.fields) : { line: 0, kind: 1, amount: 2, title: 3 };
  const changes = [...(told.coding ? [{ line: 1, name: "coding", value: told.coding, told: "UTF-8" }] : []),
    ...(separator === "," ? [] : [{ line: 1, name: "separator", value: separator === "\t" ? "TAB" : separator, told: "," }])];
  const drop = (line, name, value) => changes.push({ line: line + skipped, name, value, told: null });
  for (const { line, fields } of records.slice(0, Math.max(at, 0))) {
    drop(line, "above", fields.join(separator));
  }
  if (!head || head.fields.join() !== HEAD.join()) {
    changes.push({ line: (head?.line ?? 1) + skipped, name: "head", value: head?.fields.join(separator) ?? "", told: HEAD.join() });
  }
  const places = new Set(Object.values(columns));
  const rest = (head?.fields ?? []).map((name, place) => [name.trim(), place]).filter(([name, place]) => name !== "" && !places.has(place));
  rest.forEach(([name]) => drop(head.line, "column", name));
  const known = new Set([...places, ...rest.map(([, place]) => place)]);
  const rows = [{ line: (head?.line ?? 1) + skipped, text: HEAD.join() }];
  for (const { line, fields } of records.slice(at + 1)) {
    const isSum = SUMS.includes(plain(fields[columns.line] ?? "")) && (fields[columns.kind] ?? "").trim() === "";
    if (isBlank(fields) || isSum) {
      drop(line, isSum ? "sum" : "blank", fields.join(separator));
    } else {
      fields.forEach((field, place) => !known.has(place) && field.trim() !== "" && drop(line, "beside", field.trim()));
      const tell = (name, value, now) => changes.push({ line: line + skipped, name, value, told: now });
      rows.push({ line: line + skipped, text: rowOf(fields, columns, titles, tell) });
    }
  }
  if (changes.length === 0) {
    drop(rows[0].line - skipped, "beside", "");
  }
  return { bytes: bytesOf(rows.map(({ text }) => `${text}\n`).join("")), changes: changes.toSorted((one, other) => one.line - other.line),
    lines: rows.map(({ line }) => line) };
}

/** A row of the new file. `tell` takes each change. */
function rowOf(fields, columns, titles, tell) {
  const was = Object.fromEntries(HEAD.map((name) => [name, fields[columns[name]] ?? ""]));
  const line = was.line.trim();
  const text = was.title.replace(/\s+/g, " ").trim();
  const now = { line, kind: kindOf(was.kind) ?? was.kind, amount: amountOf(was.amount) ?? was.amount, title: text === "" ? titles.get(line) ?? "" : text };
  HEAD.filter((name) => now[name] !== was[name]).forEach((name) => tell(name, was[name], now[name]));
  return HEAD.map((name) => written(now[name])).join();
}
