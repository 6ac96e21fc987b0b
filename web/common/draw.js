// Elements and texts. Texts always become text nodes and never markup.
import { number } from "./money.js";

/** An element with attributes and children: elements, texts, lists of them, or nothing. */
export function element(name, attributes, ...children) {
  const made = document.createElement(name);
  for (const [key, value] of Object.entries(attributes ?? {})) {
    made.setAttribute(key, value);
  }
  made.append(...children.flat(Infinity).filter((child) => child !== null && child !== undefined));
  return made;
}

let count = 0;

/** An identifier that no other element of the page has. */
export function fresh(word) {
  count += 1;
  return `${word}-${count}`;
}

/** The heading of a view, which gets the focus. */
export function title(...content) {
  return element("h1", { tabindex: "-1" }, ...content);
}

/** A section with a heading that names it. */
export function section(heading, ...content) {
  const id = fresh("part");
  return element("section", { "aria-labelledby": id }, element("h2", { id }, heading), ...content);
}

/** A less important text, in a line of its own. */
export function below(...content) {
  return element("span", { class: "quiet below" }, ...content);
}

/** A link to a view or to another page. It keeps a language that was chosen by hand, which is stored only in
 * the address. */
export function link(content, href, kind = "") {
  const to = href.replace(/^\/(tender\/|clerk\/)?(?=#|$)/, (page) => page + location.search);
  return element("a", kind ? { href: to, class: kind } : { href: to }, content);
}

/** The address of a view and its subject. */
export function placeOf(page, ...rest) {
  return `#${[page, ...rest].map(encodeURIComponent).join("/")}`;
}

/** A text that somebody gave, such as a name. Its writing direction doesn't affect the text around it. */
export function given(text) {
  return element("bdi", {}, text);
}

/** A list of names and values: pairs of texts or elements. */
export function facts(pairs) {
  return element("dl", { class: "facts" }, pairs.map(([name, value]) => element("div", {}, element("dt", {}, name), element("dd", {}, value))));
}

/** A framed text, with a sign that screen readers skip. */
export function badge(kind, text) {
  const signs = { open: "○", running: "◐", done: "●", stopped: "✕", ended: "■" };
  return element("span", { class: `badge ${kind}` }, element("span", { "aria-hidden": "true" }, signs[kind] ?? "", "\u00a0"), text);
}

/** A bar of parts, each with a kind (its pattern), a name and an amount. Its label says what it shows. */
export function bar(label, parts) {
  const whole = parts.reduce((sum, part) => sum + part.amount, 0);
  const told = parts.map((part) => `${part.name} ${number(part.amount)}`).join(", ");
  const made = element("div", { class: "bar", role: "img", "aria-label": `${label}: ${told}` });
  for (const part of parts.filter(({ amount }) => amount > 0)) {
    const piece = element("span", { class: `part ${part.kind}` });
    piece.style.flexGrow = String(part.amount / whole);
    made.append(piece);
  }
  return made;
}

/** The names and amounts of a bar's parts, each after its pattern. */
export function key(parts, unit) {
  return element("ul", { class: "key" }, parts.map((part) => element(
    "li", {}, element("span", { class: `swatch ${part.kind}`, "aria-hidden": "true" }), `${part.name} `, element("b", {}, `${number(part.amount)}${unit}`))));
}

/** A list below a heading of this level. Long lists are folded. */
export function listed(level, heading, entries, attributes = {}) {
  if (entries.length === 0) {
    return null;
  }
  const list = element("ul", attributes, entries.map((entry) => element("li", {}, entry)));
  return entries.length <= 10
    ? [element(`h${level}`, {}, heading), list]
    : element("details", {}, element("summary", {}, `${heading} (${number(entries.length)})`), list);
}
