// CSV as the office reads it (RFC 4180), and the forms of its fields. A field is a text with one character
// for each byte; `textOf` turns it into readable text.

const MARK = "\u00ef\u00bb\u00bf";
const MOST_NUMBER = 1e15;

/** Bytes as a text with one character for each. */
export function binaryOf(bytes) {
  let text = "";
  for (let at = 0; at < bytes.length; at += 8192) {
    text += String.fromCharCode(...bytes.subarray(at, at + 8192));
  }
  return text;
}

/** The bytes of such a text. */
export function bytesOfBinary(text) {
  return Uint8Array.from(text, (sign) => String(sign).charCodeAt(0));
}

/** Such a text as a person reads it, in UTF-8, with a mark for each byte that isn't. */
export function textOf(binary) {
  return new TextDecoder("utf-8", { ignoreBOM: true }).decode(bytesOfBinary(binary));
}

/** A file without its byte order mark. */
export function contentOf(binary) {
  return binary.startsWith(MARK) ? binary.slice(MARK.length) : binary;
}

/** The records of a file, each with its fields and its first line, and whether a quotation mark is still open
 * at the end. A separator ends a field; LF, CR LF or CR ends a record; empty lines are no records. Between
 * quotation marks all of them are text, and two marks mean one. The office separates by commas; other
 * separators are for files to be converted. */
export function recordsOf(binary, separator = ",") {
  const records = [];
  // (Signs that end nothing are taken together.)
  const plain = new RegExp(`[^"\\r\\n${separator}]+`, "y");
  let [fields, field, state, line, begun] = [[], "", "before", 1, 1];
  const ended = () => {
    fields.push(field);
    field = "";
    return fields;
  };
  for (let at = 0; at < binary.length; at = plain.lastIndex) {
    plain.lastIndex = at;
    const sign = plain.exec(binary)?.[0] ?? binary[at];
    plain.lastIndex = at + sign.length;
    begun = state === "before" ? line : begun;
    if (state === "quoted") {
      [state, field] = sign === '"' ? ["closed", field] : ["quoted", field + sign];
    } else if (sign === '"' && state !== "inside") {
      [state, field] = ["quoted", state === "closed" ? `${field}"` : field];
    } else if (sign === separator) {
      ended();
      state = "field";
    } else if (sign !== "\r" && sign !== "\n") {
      [state, field] = ["inside", field + sign];
    } else if (state !== "before") {
      records.push({ line: begun, fields: ended() });
      [state, fields] = ["before", []];
    }
    line += sign === "\n" || (sign === "\r" && binary[at + 1] !== "\n") ? 1 : 0;
  }
  if (state !== "before") {
    records.push({ line: begun, fields: ended() });
  }
  return { records, isOpen: state === "quoted" };
}

/** The number that a field writes: 1 to 16 digits and nothing else, at most 10^15; else null. */
export function numberOf(field) {
  return /^[0-9]{1,16}$/.test(field) && Number(field) <= MOST_NUMBER ? Number(field) : null;
}

/** Whether a field is an identifier. */
export function isId(field) {
  return /^[A-Za-z0-9_.-]{1,32}$/.test(field);
}

/** Whether a field is a line of text: 1 to 200 bytes of UTF-8 without control characters. */
export function isTextLine(field) {
  return /^[^\0-\x1f\x7f]{1,200}$/.test(field) && isUtf8(field);
}

/** Why a typed text isn't a line of text: `empty`, `control`, `long` or `coding`; null if it is one. */
export function lineFault(text) {
  return text === "" ? "empty" : /[\0-\x1f\x7f]/.test(text) ? "control" : !text.isWellFormed() ? "coding"
    : new TextEncoder().encode(text).length > 200 ? "long" : null;
}

/** Whether such a text is UTF-8. */
export function isUtf8(binary) {
  try {
    new TextDecoder("utf-8", { fatal: true }).decode(bytesOfBinary(binary));
    return true;
  } catch {
    return false;
  }
}

// The forms of fields that aren't numbers. (Spreadsheets put three kinds of spaces between digits.)
const NO_NUMBERS = [
  ["empty", /^$/],
  ["great", /^\d{16,}$/],
  ["space", /^[ \t\u00a0]*\d+[ \t\u00a0]*$/],
  ["places", /^\d+[.,]0+$/],
  ["groups", /^\d{1,3}(['. ,\u00a0\u2019\u202f]\d{3})+$/],
  ["part", /^\d+[.,]\d+$|^\d{1,3}(\.\d{3})+,\d+$|^\d{1,3}(,\d{3})+\.\d+$/],
  ["formula", /^=[^]*$/],
  ["sheet", /^#[^]*$/],
  ["sign", /^[-+][^]*$|^[^]*-$/],
  ["exponent", /^\d+([.,]\d+)?[eE][-+]?\d+$/],
  ["beside", /\d/],
];

/** Why a field isn't a number, as a name (`number.NAME` is its sentence); null if it is one. */
export function whyNoNumber(field) {
  if (numberOf(field) !== null) {
    return null;
  }
  const text = textOf(field);
  return NO_NUMBERS.find(([, form]) => new RegExp(form).test(text))?.[0] ?? "none";
}
