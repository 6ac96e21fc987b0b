// Charts: SVG bars between names and figures that are words of the page, so that they keep their size on a
// phone; and columns along the months. Patterns distinguish the kinds.
import { element } from "./common/draw.js";
import { growing, table } from "./common/forms.js";
import { drawing, drawn, picture, rounds, scale } from "./common/svg.js";
import { number } from "./common/money.js";
import { language, say } from "./common/texts.js";

// The pattern of each kind that isn't plain: its size, and its drawing.
const PATTERNS = {
  contracted: () => [9, drawn("path", { d: "M-2 11 11 -2 M-2 2 2 -2 M7 11 11 7", class: "stripe" })],
  reserved: () => [8, drawn("circle", { cx: "4", cy: "4", r: "2.5", class: "dot" })],
};
let charts = 0;
// So many bars are shown at first, and with each press of the button.
const FIRST = 25, AT_ONCE = 100;
// The height of a picture of columns, the gap above them, and the most amounts beside them.
const HEIGHT = 180, ABOVE = 8, AMOUNTS = 4;
// A picture of columns has places for at least so many, so that a single one isn't as wide as the picture.
const LEAST = 12;

function patternsOf(chart, kinds) {
  const defined = kinds.filter((kind) => PATTERNS[kind]).map((kind) => {
    const [size, mark] = PATTERNS[kind]();
    return drawn("pattern", { id: `${chart}-${kind}`, width: size, height: size, patternUnits: "userSpaceOnUse" },
      drawn("rect", { width: size, height: size, class: "ground" }), mark);
  });
  return defined.length > 0 ? [drawn("defs", {}, ...defined)] : [];
}

/** One bar. Its length is the sum of its parts; a sum of `most` is as wide as the chart. */
function barOf(parts, most) {
  charts += 1;
  const chart = `chart-${charts}`;
  let at = 0;
  const pieces = parts.filter(({ amount }) => amount > 0).map(({ kind, amount }) => {
    const width = (100 * amount) / most;
    const fill = PATTERNS[kind] ? { fill: `url(#${chart}-${kind})` } : {};
    const piece = drawn("rect", { x: `${at}%`, y: "1", width: `${width}%`, height: "20", class: `piece ${kind}`, ...fill });
    at += width;
    return piece;
  });
  return drawing(22, ...patternsOf(chart, parts.map(({ kind }) => kind)), ...pieces);
}

/** Bars below each other. A row has a `name` (a text or elements), `parts` with a kind and an amount, and the
 * text `told` after the bar. Screen readers get a list of names and figures. */
export function bars(label, rows) {
  const most = Math.max(1, ...rows.map(({ parts }) => parts.reduce((sum, { amount }) => sum + amount, 0)));
  const row = ({ name, parts, told }) =>
    element("li", {}, element("span", { class: "name" }, name), barOf(parts, most), element("b", { class: "figure" }, told));
  return growing(element("ul", { class: "bars", "aria-label": label }), rows, row, AT_ONCE, FIRST);
}

/** A round amount in a few signs, such as `1.5M`. */
function short(amount) {
  return new Intl.NumberFormat(language(), { notation: "compact" }).format(amount);
}

/** The table of a picture, folded. */
function below(...told) {
  return element("details", {}, element("summary", {}, say("picture.table")), table(...told));
}

/** Groups of bars as one picture with its table. A group has a `name` and `parts`, each of them a bar with a kind, a
 * name and an amount. `heads` are those of the table, and `cells` its rows. */
export function grouped(label, groups, caption, heads, cells) {
  const most = Math.max(1, ...groups.flatMap(({ parts }) => parts.map(({ amount }) => amount)));
  const told = groups.map(({ name, parts }) => `${name}: ${parts.map((part) => `${part.name} ${number(part.amount)}`).join(", ")}`);
  const rows = groups.map(({ name, parts }) => element("div", { class: "group" }, element("b", {}, name), element("div", { class: "bars" },
    parts.map((part) => element("div", { class: "one" }, barOf([part], most), element("span", { class: "figure" }, number(part.amount)))))));
  return picture(`${label}. ${told.join(". ")}.`, rows, below(caption, heads, cells, { figures: heads.map((_, at) => at).slice(1) }));
}

/** Amounts over time as columns, as one picture with its table. A row has a `name`, an `amount`, and a `mark` for the
 * axis, which can be empty. */
export function columns(label, rows, heads) {
  const most = Math.max(1, ...rows.map(({ amount }) => amount));
  const tall = (amount) => ((HEIGHT - ABOVE) * amount) / most;
  const lines = rounds(0, most, AMOUNTS);
  const width = 100 / Math.max(rows.length, LEAST);
  const at = lines.map((amount) => drawn("line", { x1: "0", x2: "100%", y1: HEIGHT - tall(amount), y2: HEIGHT - tall(amount), class: "mark" }));
  const drawnRows = rows.map(({ amount }, place) => drawn("rect", { x: `${width * (place + 0.12)}%`, y: HEIGHT - tall(amount), width: `${width * 0.76}%`,
    height: tall(amount), class: "piece paid" }));
  const amounts = element("div", { class: "amounts" }, lines.map((amount) => {
    const made = element("span", { "data-text": short(amount) });
    made.style.bottom = `${tall(amount)}px`;
    return made;
  }));
  const marks = scale(rows.flatMap(({ mark }, place) => (mark ? [{ part: (width * place) / 100, text: mark }] : [])));
  return picture(label, element("div", { class: "columns" }, amounts, element("div", {}, drawing(HEIGHT, ...at, ...drawnRows), marks)),
    below(label, heads, rows.map(({ name, amount }) => [name, number(amount)]), { figures: [1] }));
}
