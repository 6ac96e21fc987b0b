// Converts a price file that a spreadsheet wrote to the file that the office reads, and reports each
// change. It refuses a file, with line and reason, in two cases: a figure could mean two things, or the
// tenderer must decide. papers.js always reads the result as a price without a correction.
import { binaryOf, contentOf, isUtf8, recordsOf, textOf } from "../common/csv.js";
import { KINDS, SEPARATORS, faultsOf, meantBy } from "./faults.js";
import { figureOf } from "./figures.js";
import { HEAD, MOST_BYTES, MOST_PRICE, MOST_UNIT, fileOf, priceOf, readingOf } from "./papers.js";

export const MOST_READ = 1 << 20;
// At most this many records can come before the header.
const MOST_ABOVE = 20;
const MARK = "\u00ef\u00bb\u00bf";
// The words by which spreadsheets name the four columns, in small letters and without signs.
const WORDS = {
  item: ["item", "item id", "id", "no", "number", "pos", "position", "posten", "nr", "nummer", "kennung", "oz", "ordnungszahl", "artikel", "artikelnummer"],
  quantity: ["quantity", "qty", "menge", "anzahl"],
  unit: ["unit", "unit price", "price", "unitprice", "price per unit", "preis", "einzelpreis", "stückpreis", "ep", "preis je einheit", "einheitspreis"],
  total: ["total", "sum", "line total", "total price", "summe", "gesamt", "gesamtpreis", "gp", "betrag", "gesamtbetrag"],
};
// Columns without a price. Any other column could change the tender.
const SILENT = ["title", "titel", "description", "name", "text", "bezeichnung", "beschreibung", "leistung", "artikelbezeichnung", "me", "mengeneinheit",
  "einheit", "uom", "unit of measure"];
const SUMS = ["total", "sum", "grand total", "summe", "gesamt", "gesamtsumme", "endsumme"];
// The words that name a net or gross sum, a tax or a discount.
const TAXES = /^((net(to)?|gross|brutto|zwischen)[ -]?(sum|summe|total|betrag|preis)?|sub-?total|vat|tax|mwst|ust|mehrwertsteuer|umsatzsteuer|zzgl|inkl|discount|rabatt|nachlass|skonto)(?![\p{L}])/u;

function fault(line, name, values = {}) {
  return { line, name, values };
}

function plain(text) {
  return text.trim().toLowerCase().replace(/[.:()€$£]/g, "").replace(/\s+/g, " ").trim();
}

function isBlank(fields) {
  return fields.every((field) => field.trim() === "");
}

function cut(text) {
  return text.length <= 40 ? text : `${text.slice(0, 37)}…`;
}

/** The text of a file's bytes, with the changes that it needed; or the fault of a file that isn't such a
 * text. */
function textIn(bytes) {
  const binary = binaryOf(bytes);
  if (binary.startsWith("\xff\xfe") || binary.startsWith("\xfe\xff")) {
    const text = new TextDecoder(binary[0] === "\xff" ? "utf-16le" : "utf-16be").decode(bytes);
    return { text, changes: [fault(1, "utf16")] };
  }
  const content = contentOf(binary);
  const bare = content.startsWith(MARK) ? contentOf(content) : content;
  const kind = KINDS.find(([sign, name]) => bare.startsWith(sign) && name !== "sep");
  if (kind || bare.includes("\0")) {
    return { fault: fault(1, kind ? kind[1] : "bytes") };
  }
  const changes = bare === content ? [] : [fault(1, "mark")];
  return isUtf8(bare) ? { text: textOf(bare), changes } : { text: new TextDecoder("windows-1252").decode(bytes), changes: [...changes, fault(1, "coding")] };
}

/** The place of each of the four columns by the words of a header, or null. */
function columnsOf(fields) {
  const words = fields.map(plain);
  const found = Object.fromEntries(HEAD.map((name) => [name, words.findIndex((word) => WORDS[name].includes(word))]));
  return found.item >= 0 && found.unit >= 0 ? found : null;
}

/** The faults of a header in which two columns could be the same one of the four. */
function twice({ line, fields }) {
  const own = (name) => fields.filter((field) => WORDS[name].includes(plain(field))).map((field) => cut(field.trim()));
  return HEAD.map((figure) => [figure, own(figure)]).filter(([, names]) => names.length > 1)
    .map(([figure, names]) => fault(line, figure === "unit" ? "twoUnits" : "twoColumns", { names: names.join(", ") }));
}

/** The records, split by the separator with which a header is found, or else the items' rows. */
function recordsIn(text, items) {
  const [, forced] = /^sep=(.)\r?\n/.exec(text) ?? [];
  const ids = new Set(items.map(({ id }) => id));
  const tries = (forced ? [forced] : [",", ...Object.keys(SEPARATORS)]).map((separator) => {
    const { records, isOpen } = recordsOf(text, separator);
    const at = records.slice(0, MOST_ABOVE).findIndex(({ fields }) => columnsOf(fields) !== null);
    return { separator, records, isOpen, at, rows: records.filter(({ fields }) => fields.length >= HEAD.length && ids.has(fields[0].trim())).length };
  });
  return tries.find(({ at }) => at >= 0) ?? tries.reduce((best, one) => (one.rows > best.rows ? one : best));
}

/** The rows below the header. The header is found by its words; without one, four columns are read if the
 * rows are those of the items.
 * @returns {any} */
function tableIn(found) {
  const { records, at, separator, rows } = found;
  const changes = separator === "," ? [] : [fault(1, "separator", { sign: SEPARATORS[separator] ?? separator })];
  if (at < 0 && rows === 0) {
    return { faults: [fault(records[0]?.line ?? 1, records.length === 0 ? "nothing" : "head", { found: cut(records[0]?.fields.join(separator) ?? "") })] };
  }
  if (at < 0) {
    const isHeadless = /\d/.test(records[0].fields.slice(1).join(""));
    changes.push(fault(records[0].line, isHeadless ? "headAdded" : "headByPlace", { found: cut(records[0].fields.join(separator)) }));
    return { columns: { item: 0, quantity: 1, unit: 2, total: 3 }, body: records.slice(isHeadless ? 0 : 1), changes, width: HEAD.length };
  }
  const head = records[at];
  const doubled = twice(head);
  if (doubled.length > 0) {
    return { faults: doubled };
  }
  const columns = columnsOf(head.fields);
  const above = records.slice(0, at).filter(({ fields }) => !isBlank(fields));
  changes.push(...above.map(({ line, fields }) => fault(line, "above", { found: cut(fields.join(separator)) })));
  if (head.fields.slice(0, HEAD.length).join() !== HEAD.join()) {
    changes.push(fault(head.line, "headWords", { found: cut(head.fields.join(separator)) }));
  }
  const places = Object.values(columns);
  const more = head.fields.map((name, place) => ({ name: cut(name.trim()), place })).filter(({ name, place }) => name !== "" && !places.includes(place));
  const body = records.slice(at + 1);
  const speaks = more.filter(({ name, place }) => !SILENT.includes(plain(name)) && body.some(({ fields }) => (fields[place] ?? "").trim() !== ""));
  if (speaks.length > 0) {
    return { faults: speaks.map(({ name }) => fault(head.line, "columnUnknown", { name })) };
  }
  const width = Math.max(...[...places, ...more.map(({ place }) => place)]) + 1;
  if ([head, ...body].some(({ fields }) => fields.length > width)) {
    changes.push(fault(head.line, "column"));
  }
  changes.push(...more.map(({ name }) => fault(head.line, "columnOut", { name })));
  return { columns, body, changes, named: new Set(more.map(({ place }) => place)) };
}

/** Whether a record is the sum: its word says so, and it isn't an item's row. */
function isSum({ fields }, { item, quantity }, items, isLast) {
  const name = (fields[item] ?? "").trim();
  return SUMS.includes(plain(name)) && (isLast || !items.some(({ id }) => id === name) || (fields[quantity] ?? "").trim() === "");
}

/** The item that a name means for certain: without its lot, in other case, with a space or zeros in front.
 * Null if it could be two. */
function itemOf(name, items) {
  const named = (id) => items.find((item) => item.id === id);
  const bare = name.slice(name.lastIndexOf("/") + 1).trim();
  const meant = items.filter((item) => meantBy(name, [item]));
  return named(name) ?? named(bare) ?? (meant.length === 1 ? meant[0] : null);
}

/** Why a row is none of an item, and what to do with it. */
function noItem(line, name, fields, items) {
  const tax = [name, ...(name === "" ? fields : [])].map((field) => field.trim()).find((field) => TAXES.test(plain(field)));
  const ids = items.map(({ id }) => id).join(", ");
  return tax ? fault(line, "tax", { found: cut(tax) }) : name === "" ? fault(line, "nameless", { ids }) : fault(line, "unknown", { found: cut(name), ids });
}

/** For each figure a test for the only reading that agrees with certain ones: the notice's quantity, the total
 * as a product with the unit price, the product itself. */
function readingsOf(fields, columns, { quantity }, currency) {
  const total = figureOf(fields[columns.total] ?? "", currency);
  return { quantity: (value) => value === quantity, unit: (value) => value * quantity === total.value, total: (value, right) => value === right };
}

/** An item's row: its item, its unit price, the changes and the faults. */
function rowOf({ line, fields }, table, items, currency) {
  const { columns, named } = table;
  const name = (fields[columns.item] ?? "").trim();
  const item = itemOf(name, items);
  const known = new Set([...Object.values(columns), ...(named ?? [])]);
  if (!item) {
    return { changes: [], faults: [noItem(line, name, fields, items)] };
  }
  if (fields.some((field, place) => !known.has(place) && field.trim() !== "")) {
    return { changes: [], faults: [fault(line, "moreFields", { count: fields.length })] };
  }
  const changes = item.id === (fields[columns.item] ?? "") ? [] : [fault(line, "name", { found: cut(fields[columns.item]), id: item.id })];
  const faults = [];
  const isRight = readingsOf(fields, columns, item, currency);
  const read = (figure, otherwise) => {
    const field = fields[columns[figure]] ?? "";
    const got = figureOf(field, currency, (value) => isRight[figure](value, otherwise));
    if (got.why && otherwise !== undefined && ["empty", "formula"].includes(got.why)) {
      changes.push(fault(line, "filled", { figure, item: item.id, field: cut(field), value: otherwise }));
      return otherwise;
    }
    if (got.why) {
      faults.push(fault(line, figure === "unit" && got.why === "part" ? "cents" : "figure", { figure, item: item.id, field: cut(field), why: got.why }));
      return null;
    }
    if (got.changed) {
      changes.push(fault(line, "figure", { figure, item: item.id, field: cut(field), value: got.value }));
    }
    return got.value;
  };
  const quantity = read("quantity", columns.quantity < 0 || (fields[columns.quantity] ?? "").trim() === "" ? item.quantity : undefined);
  const unit = read("unit");
  if (quantity !== null && quantity !== item.quantity) {
    faults.push(fault(line, "quantity", { id: item.id, found: quantity, wanted: item.quantity }));
  }
  if (unit !== null && unit > MOST_UNIT) {
    faults.push(fault(line, "dear", { id: item.id, most: MOST_UNIT }));
  }
  if (faults.length === 0) {
    const right = item.quantity * unit;
    const total = read("total", right);
    if (total !== null && total !== right) {
      changes.push(fault(line, "product", { item: item.id, found: total, quantity: item.quantity, unit, value: right }));
    }
  }
  return { line, item, unit, changes, faults };
}

/** The changes and faults in the record of the sum. */
function sumOf({ line, fields }, { columns, named }, price, currency) {
  const others = fields.map((field, place) => ({ field: field.trim(), place }))
    .filter(({ field, place }) => field !== "" && place !== columns.item && !named?.has(place));
  const last = others.find(({ place }) => place === columns.total) ?? others.at(-1);
  const changes = fields[columns.item] === "TOTAL" ? [] : [fault(line, "sumWord", { found: cut(fields[columns.item]) })];
  changes.push(...others.filter((one) => one !== last).map(({ field }) => fault(line, "sumCleared", { found: cut(field) })));
  const got = last ? figureOf(last.field, currency) : { why: "empty" };
  if (got.why && !["empty", "formula"].includes(got.why)) {
    return { changes, faults: [fault(line, "figure", { figure: "sum", item: "TOTAL", field: cut(last.field), why: got.why })] };
  }
  const isOther = got.why || got.value !== price;
  return { changes: isOther ? [...changes, fault(line, "sum", { found: last ? cut(last.field) : "", value: price })]
    : got.changed ? [...changes, fault(line, "figure", { figure: "sum", item: "TOTAL", field: cut(last.field), value: price })] : changes, faults: [] };
}

/** The rows of a table, each item once, with all changes and faults. */
function offerOf(table, items, currency) {
  const body = table.body.filter(({ fields }) => !isBlank(fields));
  const blank = table.body.filter(({ fields }) => isBlank(fields)).map(({ line }) => fault(line, "blank"));
  const at = body.findIndex((record, place) => isSum(record, table.columns, items, place === body.length - 1));
  const sum = at < 0 ? null : body[at];
  const rows = (sum ? body.slice(0, at) : body).map((record) => rowOf(record, table, items, currency));
  const faults = [...rows.flatMap((row) => row.faults), ...(sum ? body.slice(at + 1).map(({ line }) => fault(line, "behind")) : [])];
  const changes = [...blank, ...rows.flatMap((row) => row.changes)];
  const found = rows.filter(({ item }) => item);
  const again = found.filter(({ item }, place) => found.findIndex((other) => other.item === item) < place);
  faults.push(...again.map(({ line, item }) => fault(line, "again", { id: item.id })));
  const last = table.body.at(-1)?.line ?? 1;
  const isUnsure = rows.some((row) => !row.item);
  faults.push(...items.filter((item) => !isUnsure && !found.some((row) => row.item === item)).map(({ id, title }) => fault(last, "missing", { id, title })));
  return { rows: found, sum, changes, faults, last };
}

function refused(faults) {
  return { kind: "refused", faults: faults.toSorted((one, other) => one.line - other.line), changes: [] };
}

/** The result for a file: `as it is` if the office reads a price in it; `converted` with the new bytes and
 * each change; or `refused` with each fault. */
export function converted(bytes, items, currency = "") {
  const reading = readingOf(bytes, items);
  if (reading.kind === "priced") {
    return { kind: "as it is", bytes, reading, changes: [], faults: [] };
  }
  if (bytes.length === 0 || bytes.length > MOST_READ) {
    return refused(faultsOf(bytes, items, reading));
  }
  const told = textIn(bytes);
  const found = told.fault ? null : recordsIn(told.text, items);
  const table = found && !found.isOpen ? tableIn(found) : { faults: [told.fault ?? fault(found.records.at(-1).line, "open")] };
  if (table.faults) {
    return refused(table.faults);
  }
  const offer = offerOf(table, items, currency);
  const price = offer.faults.length === 0 ? Number(priceOf(offer.rows.map(({ item, unit }) => ({ quantity: item.quantity, unit })))) : 0;
  if (price > MOST_PRICE) {
    offer.faults.push(fault(offer.last, "great", { sum: price, most: MOST_PRICE }));
  }
  const closing = offer.sum && offer.faults.length === 0 ? sumOf(offer.sum, table, price, currency)
    : { changes: [fault(offer.last, "sumAdded", { value: price })], faults: [] };
  const faults = [...offer.faults, ...closing.faults];
  return faults.length > 0 ? refused(faults) : finished(offer, items, [...told.changes, ...table.changes, ...offer.changes, ...closing.changes], bytes.length);
}

function finished(offer, items, changes, length) {
  const places = offer.rows.map(({ item }) => items.indexOf(item));
  const isInOrder = places.every((place, at) => place === at);
  const units = items.map((item) => offer.rows.find((row) => row.item === item).unit);
  const made = fileOf(items, units);
  const shorter = length > MOST_BYTES ? [fault(1, "shorter", { count: length })] : [];
  const told = [...shorter, ...changes, ...(isInOrder ? [] : [fault(offer.rows[0].line, "order")])];
  const all = told.length > 0 ? told : [fault(1, "written")];
  return { kind: "converted", bytes: made, reading: readingOf(made, items), changes: all.toSorted((one, other) => one.line - other.line), faults: [] };
}
