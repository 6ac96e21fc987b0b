// The price table of a tender: a unit price for each item of the lot, with products and sum while one types.
import { element, given } from "../common/draw.js";
import { DIGITS, table } from "../common/forms.js";
import { money, number } from "../common/money.js";
import { say } from "../common/texts.js";
import { MOST_PRICE, MOST_UNIT } from "./papers.js";
import { sumOf, unitsOf } from "./session.js";

/** The place where an item's price is typed and its product or fault is shown. */
function rowOf(offer, item, at, changed) {
  const input = element("input", { id: `unit-${at}`, ...DIGITS, autocomplete: "off", "aria-label": say("table.unit.of", { item: item.id }),
    "aria-describedby": `unit-${at}-wrong` });
  input.value = offer.units[item.id] ?? "";
  const product = element("output", { for: `unit-${at}`, class: "figure" });
  const wrong = element("td", { id: `unit-${at}-wrong`, role: "cell", class: "wrong", colspan: "5" });
  const below = element("tr", { role: "row", class: "fault-row", hidden: "" }, wrong);
  input.addEventListener("input", () => {
    offer.units[item.id] = input.value;
    changed();
  });
  const sentenceOf = ({ fault }) => {
    const more = { above: () => ` ${say("table.most", { most: MOST_UNIT })}`, point: () => ` ${say("table.cents")}` }[fault];
    return say(`typed.${fault}`) + (more?.() ?? "");
  };
  const tell = (/** @type {any} */ { value, fault }, isAsked) => {
    const isTold = Boolean(fault) && (isAsked || fault !== "empty");
    product.textContent = value === undefined ? "–" : number(BigInt(value) * BigInt(item.quantity));
    wrong.textContent = isTold ? sentenceOf({ fault }) : "";
    below.hidden = !isTold;
    input.setAttribute("aria-invalid", String(isTold));
  };
  return { tell, sentenceOf, input, below, cells: [given(item.id), given(item.title), number(item.quantity), input, product] };
}

/** The table: its elements, and `faults()`, which shows each missing or wrong price and returns them as `faultNote` takes them. It
 * calls `changed` after each change. */
export function drawTable(offer, changed) {
  const { lot, terms } = offer;
  const sum = element("output", { class: "figure" });
  const told = element("p", { class: "wrong", role: "status" });
  const left = element("p", { class: "quiet" });
  const rows = lot.items.map((item, at) => rowOf(offer, item, at, () => update()));
  let isAsked = false;
  const update = () => {
    const units = unitsOf(offer);
    rows.forEach(({ tell }, at) => tell(units[at], isAsked));
    const { sum: all, isAbove } = sumOf(offer);
    sum.textContent = money(all, terms.currency);
    told.textContent = isAbove ? say("table.above", { most: MOST_PRICE }) : "";
    const counts = [["left", units.filter(({ fault }) => fault === "empty").length], ["wrong", units.filter(({ fault }) => fault && fault !== "empty").length]];
    left.textContent = counts.filter(([, count]) => count > 0).map(([name, count]) => say(`table.${name}`, { count })).join(" ");
    changed();
  };
  const faults = () => {
    isAsked = true;
    update();
    const wrong = unitsOf(offer).map((unit, at) => [say("table.unit.of", { item: lot.items[at].id }), unit]).map(([name, unit], at) =>
      (unit.fault ? [name, rows[at].sentenceOf(unit), rows[at].input] : null)).filter(Boolean);
    return wrong.length === 0 && sumOf(offer).isAbove ? [[say("table.sum"), told.textContent, rows[0].input]] : wrong;
  };
  const heads = ["table.item", "table.title", "table.quantity", "table.unit", "table.total"].map((name) => say(name));
  const made = table(say("table.caption", { lot: lot.id, currency: terms.currency }), heads, rows.map(({ cells }) => cells),
    { figures: [2, 3, 4], foot: [say("table.sum"), "", "", "", sum] });
  [...made.tBodies[0].rows].forEach((row, at) => row.after(rows[at].below));
  update();
  return { faults, made: [element("p", {}, say("table.why", { currency: terms.currency })), made, told, left] };
}
