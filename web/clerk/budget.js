// A budget file as the office reads it: its rows, the faults of each record, the office's answer, and the
// changes by the file.
import { binaryOf, contentOf, isId, isTextLine, isUtf8, numberOf, recordsOf, textOf, whyNoNumber } from "../common/csv.js";
import { bytesOf } from "../common/digest.js";
import { MOST } from "./values.js";

export const HEAD = ["line", "kind", "amount", "title"];
const SEPARATORS = { ";": "separator.semicolons", "\t": "separator.tabs", "|": "separator.strokes" };
// How files begin that aren't CSV.
const KINDS = [[[0x50, 0x4b, 3, 4], "workbook"], [[0xd0, 0xcf, 0x11, 0xe0], "workbook"], [[0x25, 0x50, 0x44, 0x46], "pdf"], [[0xff, 0xfe], "utf16"],
  [[0xfe, 0xff], "utf16"]];
// Faults of the whole file. If there is one, the faults of single rows are only its echo.
const WHOLE = [...Object.values(SEPARATORS), ...KINDS.map(([, kind]) => kind)];

/** The content of a budget file: `rows` in order, and `faults`. A fault has the number of its record (the
 * header is 1), the line of the file, a code, and a value. The office names the first fault. */
export function readBudget(bytes) {
  const { records, isOpen } = recordsOf(contentOf(binaryOf(bytes)));
  const faults = headFaults(bytes, records);
  const rows = [];
  if (faults.some(({ code }) => WHOLE.includes(code))) {
    return { bytes: bytes.length, rows, faults };
  }
  for (const [at, record] of records.slice(1).entries()) {
    const row = rowOf(record);
    const place = { record: at + 2, line: record.line };
    if (row.code) {
      faults.push({ ...place, ...row });
    } else {
      rows.push({ ...place, ...row });
    }
  }
  if (isOpen && faults.length > 0) {
    faults.push({ record: records.length, line: records.at(-1).line, code: "open" });
  }
  return { bytes: bytes.length, rows, faults };
}

/** Why the first record isn't the header, or nothing.
 * @returns {any} */
function headFaults(bytes, records) {
  const kind = KINDS.find(([sign]) => [...sign].every((byte, at) => bytes[at] === byte))?.[1];
  const [first] = records;
  const place = { record: 1, line: first?.line ?? 1 };
  if (!first) {
    return [{ ...place, code: kind ?? "nothing" }];
  }
  const { fields } = first;
  if (isHead(fields)) {
    return [];
  }
  const sign = fields.length === 1 ? Object.keys(SEPARATORS).find((it) => fields[0].includes(it)) : undefined;
  const isAlike = isHead(fields.map((field) => field.trim().toLowerCase()));
  return [{ ...place, code: kind ?? (sign ? SEPARATORS[sign] : isAlike ? "capitals" : "head"), value: shown(fields.join(",")) }];
}

function isHead(fields) {
  return fields.length === HEAD.length && fields.every((field, at) => field === HEAD[at]);
}

/** A field as messages show it, cut short. */
function shown(field) {
  const text = textOf(field);
  return text.length > 40 ? `${text.slice(0, 39)}…` : text;
}

/** The row in a record, or its faults. */
function rowOf({ fields }) {
  if (fields.length !== HEAD.length) {
    return { code: "fields", value: fields.length };
  }
  const [id, kind, amount, title] = fields;
  const wrong = !isId(id) ? ["line", id] : kind !== "add" && kind !== "cut" ? ["kind", kind]
    : amountFault(amount) ? [amountFault(amount), amount] : titleFault(title) ? [titleFault(title), title] : null;
  return wrong ? { code: wrong[0], value: shown(wrong[1]) } : { id, kind, amount: numberOf(amount), title: textOf(title) };
}

/** Why a field isn't an amount of at least 1. */
function amountFault(field) {
  const why = whyNoNumber(field);
  return why ? `amount.${why}` : numberOf(field) === 0 ? "amount.zero" : null;
}

/** Why a field isn't a title. */
function titleFault(field) {
  if (isTextLine(field)) {
    return null;
  }
  return field === "" ? "title.empty" : field.length > MOST.text ? "title.long" : isUtf8(field) ? "title.control" : "title.coding";
}

/** Applies the rows in order to the existing budget lines (a map from identifiers to `appropriation` and
 * `free`). Returns the state of each line before and after, and the rows that the office would refuse.
 * Amounts are BigInt, because sums of rows may exceed what a Number holds exactly. */
export function changesOf(rows, lines) {
  const changes = new Map();
  const faults = [];
  for (const row of rows) {
    const change = changes.get(row.id) ?? begun(row.id, lines.get(row.id));
    changes.set(row.id, change);
    const wrong = wrongAt(change, BigInt(row.amount), row.kind);
    if (wrong) {
      faults.push({ record: row.record, line: row.line, code: wrong, value: row.id, free: change.free, amount: row.amount });
    }
    take(change, BigInt(row.amount), row.kind);
    change.title = row.title;
  }
  return { changes: [...changes.values()], faults };
}

/** Signs that the file was already imported: the names of journal entries with the same amounts of the same
 * lines, and the lines that would have twice their money. */
export function repeatsOf(rows, changes, entries) {
  const amounts = (some) => JSON.stringify(some.map(({ id, kind, amount }) => [id, kind, amount]).sort());
  const isSame = ({ path, status, found, body }) => path.startsWith("/budget/") && (status === 200 || found === "done") && body !== null
    && amounts(readBudget(bytesOf(body)).rows) === amounts(rows);
  const isDouble = ({ before, appropriation }) => before.appropriation > 0n && appropriation === 2n * before.appropriation;
  return { names: entries.filter(isSame).map(({ path }) => path.slice("/budget/".length)), lines: changes.filter(isDouble).map(({ id }) => id) };
}

// Letters of the two languages, and of names from others; and signs that are within a word if a file's coding is guessed wrongly.
const LETTERS = /[^A-Za-zÄÖÜäöüßẞÀÂÇÈÉÊËÎÏÔÛàâçèéêëîïôûñ\P{L}]|\p{L}[„”‚‘’ƒ†‡ˆ‰‹Œ™¤\u0080-\u009f]\p{L}/u;

/** The titles with letters that neither language uses: perhaps the file has another coding. */
export function oddTitles(rows) {
  return [...new Set(rows.map(({ title }) => title).filter((title) => LETTERS.test(title.normalize("NFC"))))];
}

/** A budget line before its first row. */
function begun(id, held) {
  const [appropriation, free] = [BigInt(held?.appropriation ?? 0), BigInt(held?.free ?? 0)];
  return { id, isNew: held === undefined, isThere: held !== undefined, before: { appropriation, free }, appropriation, free, title: null };
}

/** The office's refusal of a row for this budget line. */
function wrongAt(line, amount, kind) {
  if (kind === "add") {
    return line.appropriation + amount > BigInt(MOST.line) ? "past" : null;
  }
  return !line.isThere ? "unknown" : line.free < amount ? "short" : null;
}

/** Applies a row to a budget line. Nothing goes below 0. */
function take(line, amount, kind) {
  const after = (held) => (kind === "add" ? held + amount : held > amount ? held - amount : 0n);
  line.appropriation = after(line.appropriation);
  line.free = after(line.free);
  line.isThere = true;
}
