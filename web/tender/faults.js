// Why a tender's file has no price: the line and the name of the reason with its values (`fault.NAME` is the
// sentence). This module only explains; papers.js decides.
import { binaryOf, contentOf, recordsOf, textOf, whyNoNumber } from "../common/csv.js";
import { HEAD, MOST_PRICE, MOST_UNIT, SUM, areSame, isHead, priceOf, rowOf, statedOf } from "./papers.js";

// How files begin that aren't CSV.
export const KINDS = [
  ["%PDF", "pdf"], ["PK\x03\x04", "workbook"], ["\xd0\xcf\x11\xe0", "workbook"], ["\xff\xfe", "utf16"], ["\xfe\xff", "utf16"], ["\xef\xbb\xbf", "mark"],
  ["{\\rtf", "rtf"], ["<", "markup"], ["sep=", "sep"],
];
export const SEPARATORS = { ";": "semicolon", "\t": "tab", "|": "stroke" };
const FIGURES = ["quantity", "unit", "total"];
const ITEM_DIGITS = /^0+/;

function fault(line, name, values = {}) {
  return { line, name, values };
}

/** A field as a person reads it, cut short, with `?` for characters that can't be printed. */
export function shown(field) {
  const text = [...textOf(field)].map((sign) => (/[\p{C}\p{Zl}\p{Zp}]/u.test(sign) ? "?" : sign)).join("");
  return text.length <= 40 ? text : `${text.slice(0, 37)}…`;
}

function numberFault(line, figure, item, field) {
  const why = whyNoNumber(field);
  return why === null ? [] : [fault(line, "figure", { figure, item, field: shown(field), why })];
}

/** Why a record doesn't have four fields, or is empty. */
function countFaults({ line, fields }) {
  if (fields.every((field) => field.trim() === "")) {
    return [fault(line, "blank")];
  }
  if (fields.length === HEAD.length) {
    return [];
  }
  const isColumn = fields.length > HEAD.length && fields.slice(HEAD.length).every((field) => field === "");
  return [isColumn ? fault(line, "column") : fault(line, fields.length > HEAD.length ? "more" : "fewer", { count: fields.length })];
}

function headFaults(record) {
  if (isHead(record)) {
    return [];
  }
  const words = record.fields.map((field) => field.trim().toLowerCase());
  if (words.length > 4 && HEAD.every((word, at) => words[at] === word)) {
    return countFaults(record);
  }
  return [fault(record.line, areSame(words, HEAD) ? "letters" : "head", { found: shown(record.fields.join(",")) })];
}

/** Whether a record is probably meant as the sum. */
function isSum({ fields }) {
  return fields[0].trim().toUpperCase() === SUM[0] && areSame(fields.slice(1, 3), SUM.slice(1));
}

function itemFaults(record) {
  const wrong = countFaults(record);
  if (wrong.length > 0) {
    return wrong;
  }
  return isSum(record) ? [fault(record.line, "behind")]
    : record.fields.slice(1).flatMap((field, at) => numberFault(record.line, FIGURES[at], shown(record.fields[0]), field));
}

/** Why the last record states no sum. */
function sumFaults(record, rows) {
  if (statedOf(record) !== null) {
    return [];
  }
  const [word, ...figures] = record.fields;
  if (rowOf(record)) {
    return [fault(record.line, "noSum", { sum: String(priceOf([...rows, rowOf(record)].filter(Boolean))) })];
  }
  if (word.trim().toUpperCase() === SUM[0] && word !== SUM[0]) {
    return [fault(record.line, "sumWord", { found: shown(word) })];
  }
  const wrong = countFaults(record);
  if (wrong.length > 0) {
    return wrong;
  }
  if (word !== SUM[0]) {
    return [fault(record.line, "last", { found: shown(word) })];
  }
  return !areSame(figures.slice(0, 2), SUM.slice(1)) ? [fault(record.line, "between")] : numberFault(record.line, "sum", "TOTAL", figures[2]);
}

/** The faults of a file that doesn't have the form of a tender. */
function whyUnreadable(binary) {
  const content = contentOf(binary);
  const kind = KINDS.find(([sign]) => content.startsWith(sign));
  if (kind || content.includes("\0")) {
    return [fault(1, kind ? kind[1] : "bytes")];
  }
  const { records, isOpen } = recordsOf(content);
  if (records.length === 0) {
    return [fault(1, "nothing")];
  }
  const [first] = records;
  const separator = Object.keys(SEPARATORS).find((sign) => first.fields.length === 1 && first.fields[0].includes(sign));
  if (separator) {
    return [fault(first.line, "separator", { sign: SEPARATORS[separator] })];
  }
  const between = records.slice(1, -1);
  const faults = [...headFaults(first), ...between.flatMap(itemFaults)];
  if (records.length === 1) {
    faults.push(fault(first.line, "alone"));
  } else if (!between.some(isSum)) {
    faults.push(...sumFaults(records.at(-1), between.map(rowOf)));
  }
  return isOpen ? [fault(records.at(-1).line, "open"), ...faults] : faults;
}

/** The item that a name probably means: without its lot, in other case, with a space or zeros in front. */
export function meantBy(name, items) {
  const bare = (text) => text.trim().toLowerCase().replace(ITEM_DIGITS, "");
  const meant = items.filter(({ id }) => bare(id) === bare(name.slice(name.lastIndexOf("/") + 1)));
  return meant.length > 0 ? meant[0] : null;
}

function nameFaults(rows, items) {
  const names = rows.map(({ name }) => name);
  const ids = items.map(({ id }) => id);
  const list = ids.join(", ");
  const unknown = rows.filter(({ name }) => !ids.includes(name));
  const meant = unknown.map(({ name }) => meantBy(textOf(name), items)?.id);
  const faults = unknown.map(({ line, name }, at) => (meant[at] ? fault(line, "meant", { found: shown(name), id: meant[at] })
    : fault(line, "unknown", { found: shown(name), ids: list })));
  faults.push(...rows.filter(({ name }, at) => names.indexOf(name) < at).map(({ line, name }) => fault(line, "again", { id: shown(name) })));
  const last = rows.length > 0 ? rows.at(-1).line + 1 : 2;
  faults.push(...items.filter(({ id }) => !names.includes(id) && !meant.includes(id)).map(({ id, title }) => fault(last, "missing", { id, title })));
  if (faults.length === 0 && !areSame(names, ids)) {
    faults.push(fault(rows.find(({ name }, at) => name !== ids[at]).line, "order", { ids: list }));
  }
  return faults;
}

/** The faults of a file that has the form of a tender but doesn't offer what the lot requires. */
function whyNonconforming(rows, items) {
  const wanted = new Map(items.map(({ id, quantity }) => [id, quantity]));
  const faults = nameFaults(rows, items);
  for (const { line, name, quantity, unit } of rows) {
    if ((wanted.get(name) ?? quantity) !== quantity) {
      faults.push(fault(line, "quantity", { id: shown(name), found: quantity, wanted: wanted.get(name) }));
    }
    if (unit > MOST_UNIT) {
      faults.push(fault(line, "dear", { id: shown(name), most: MOST_UNIT }));
    }
  }
  if (priceOf(rows) > BigInt(MOST_PRICE)) {
    faults.push(fault(rows.at(-1).line, "great", { sum: priceOf(rows), most: MOST_PRICE }));
  }
  return faults;
}

/** The faults of a file that gives no price. */
export function faultsOf(bytes, items, reading) {
  if (reading.kind === "not taken") {
    return [fault(1, "size", { count: bytes.length })];
  }
  return reading.kind === "unreadable" ? whyUnreadable(binaryOf(bytes)) : reading.kind === "nonconforming" ? whyNonconforming(reading.rows, items) : [];
}
