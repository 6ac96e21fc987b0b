// A figure as spreadsheets write it, read if it can mean only one thing.

// The separators of the digits of a large number: several kinds of spaces, and apostrophes.
const GAP = "[ \\u00a0\\u202f\\u2009'\\u2019]";
const GROUPED = new RegExp(`^\\d{1,3}(?:${GAP}\\d{3})+$`);
const TWICE_GROUPED = /^\d{1,3}(?:\.\d{3}){2,}$|^\d{1,3}(?:,\d{3}){2,}$/;
const BOTH = /^(\d{1,3}(?:\.\d{3})+),(\d+)$|^(\d{1,3}(?:,\d{3})+)\.(\d+)$/;
const PLACES = new RegExp(`^(\\d+|\\d{1,3}(?:${GAP}\\d{3})+)[.,](\\d+)$`);
const MOST_DIGITS = 15;
const NO_FIGURES = [["empty", /^$/], ["formula", /^=/], ["sheet", /^#/], ["sign", /^[-+\u2212]|-$/], ["exponent", /^\d+(?:[.,]\d+)?[eE][-+]?\d+$/],
  ["beside", /\d/]];

/** The text without spaces around it and without a currency at one end (`€`, `EUR`, the notice's own), or the
 * dash for no cents (`150.-`). */
function bareOf(text, currency) {
  const names = [...new Set(["EUR", "€", "\\$", "£", "CHF", currency.replace(/[^A-Za-z]/g, "")].filter(Boolean))].join("|");
  return text.trim().replace(new RegExp(`^(?:${names})\\s*(?=\\d)`, "i"), "").replace(new RegExp(`(?<=[\\d\\-])\\s*(?:${names})$`, "i"), "")
    .replace(/(?<=\d)[.,](?:-|–)$/, "").trim();
}

function whole(digits) {
  const bare = digits.replace(/\D/g, "").replace(/^0+(?=\d)/, "");
  return bare.length > MOST_DIGITS ? { why: "great" } : { value: Number(bare) };
}

/** Digits before and after a point or comma: only whole units, and no cents. If the sign can also separate
 * groups, `grouped` is the number with such groups; the other reading isn't a whole number. */
function parted(front, behind, isSure) {
  if (!isSure && behind.length === 3 && /^[1-9]\d{0,2}$/.test(front)) {
    return { why: "ambiguous", grouped: Number(front + behind) };
  }
  return /^0+$/.test(behind) ? whole(front) : { why: "part" };
}

function read(text) {
  if (/^\d+$/.test(text) || GROUPED.test(text) || TWICE_GROUPED.test(text)) {
    return whole(text);
  }
  const both = BOTH.exec(text);
  if (both) {
    return parted(both[1] ?? both[3], both[2] ?? both[4], true);
  }
  const places = PLACES.exec(text);
  if (places) {
    return parted(places[1], places[2], false);
  }
  return { why: NO_FIGURES.find(([, form]) => new RegExp(form).test(text))?.[0] ?? "none" };
}

/** The whole number in a field, and whether the field had to be changed; or `why` it isn't one, as the name
 * of a text (`number.NAME`, `number.ambiguous`). `isRight` returns whether only this reading agrees with other
 * figures. Then a figure with two readings is no guess. */
export function figureOf(field, currency = "", isRight = (_grouped) => false) {
  const got = read(bareOf(field, currency));
  if (got.why === "ambiguous" && isRight(got.grouped)) {
    return { value: got.grouped, changed: true };
  }
  return got.why ? got : { ...got, changed: !/^\d{1,16}$/.test(field) };
}
