// The office's values: lines of text, numbers and moments, as docs/API.md defines them. Runs in node too.
import { isId } from "../common/csv.js";
import { atWall, wallOf } from "../common/zone.js";

export const MOST = { body: 65_536, rows: 500, line: 10 ** 15, amount: 10 ** 12, lots: 20, items: 50, quantity: 10 ** 6, text: 200, validity: 365,
  standstill: 90 };
export const DAY = 86_400_000;
const LAST_SECOND = Date.UTC(2099, 11, 31, 23, 59, 59);

/** The text that the bytes write in UTF-8, or null if they aren't UTF-8. */
export function textOf(bytes) {
  try {
    return new TextDecoder("utf-8", { fatal: true, ignoreBOM: true }).decode(bytes);
  } catch {
    return null;
  }
}

/** Whether an identifier can be a part of an address: browsers treat `.` and `..` as folders. */
export function isAskable(text) {
  return isId(text) && text !== "." && text !== "..";
}

/** The number that digits write, if it is within the bounds, else null. */
export function wholeNumber(text, least, most) {
  if (!/^[0-9]{1,16}$/.test(text)) {
    return null;
  }
  const number = Number(text);
  return number >= least && number <= most ? number : null;
}

/** The digits of a whole number as people and spreadsheets write it: groups of three and decimals of only 0
 * are dropped, so `1.200,00` is `1200`. Null if anything else would have to be guessed. */
export function digitsOf(text) {
  const typed = text.trim().replace(/[.,]0{1,2}$/, "");
  if (/^[0-9]+$/.test(typed)) {
    return typed;
  }
  return /^[0-9]{1,3}(?:([.,'\u2019 \u00a0\u202f])[0-9]{3})(?:\1[0-9]{3})*$/.test(typed) ? typed.replace(/[^0-9]/g, "") : null;
}

/** The digits of an amount: the same, also with a currency or with `,-`. Null if anything else would have to be guessed. */
export function amountOf(text) {
  const bare = text.replace(/(€|Euro|EUR)/gi, "").replace(/[.,](-|–)\s*$/, "").trim();
  return /^0[.,]\d{3}/.test(bare) ? null : digitsOf(bare);
}

/** A moment in milliseconds as the office writes it; null outside of the years that the office knows. */
export function momentText(milliseconds) {
  const second = Math.floor(milliseconds / 1000) * 1000;
  return Number.isFinite(second) && second >= 0 && second <= LAST_SECOND ? new Date(second).toISOString().replace(/\.\d{3}Z$/, "Z") : null;
}

/** The milliseconds of a date and time field (`2026-03-01T13:00`), which has the time of the zone in use; or null. */
export function localMilliseconds(text) {
  if (!/^\d{4}-\d\d-\d\dT\d\d:\d\d(:\d\d)?$/.test(text)) {
    return null;
  }
  const found = Date.parse(`${text}Z`);
  return Number.isNaN(found) ? null : atWall(found);
}

/** The content of a date and time field, from milliseconds. */
export function localText(milliseconds) {
  if (milliseconds === null) {
    return "";
  }
  const text = new Date(wallOf(milliseconds)).toISOString();
  return text.slice(0, text.slice(17, 19) === "00" ? 16 : 19);
}

// By so many minutes clocks go forward or back.
const SHIFTS = [30, 60, 120];

/** Whether the local time in such a field is odd: `missing` if clocks skip it, `twice` if they repeat it, else
 * null. */
export function oddHour(text) {
  const at = localMilliseconds(text);
  const typed = text.replace(/(T\d\d:\d\d):00$/, "$1");
  const isTwice = () => SHIFTS.flatMap((minutes) => [minutes, -minutes]).some((minutes) => localText(at + minutes * 60_000) === typed);
  return at === null ? null : localText(at) !== typed ? "missing" : isTwice() ? "twice" : null;
}
