// The list of all procurements: open ones first, with a clock to the deadline. The address holds the filters
// and the order.
import { tables } from "./common/data.js";
import { element, fresh, given, link, placeOf, title } from "./common/draw.js";
import { NAMES, ORDERS, STATES, addressOf, chosen, entriesOf, filtersOf, noticeOf, ordered } from "./common/filters.js";
import { button, field, form, growing, jumpTo, save, steps } from "./common/forms.js";
import { clock, day, money, moment } from "./common/money.js";
import { notices, officeNow } from "./common/office.js";
import { stateBadge } from "./common/states.js";
import { language, say } from "./common/texts.js";

// So many of each part are shown at first, so that the next part isn't far down; and with each press of its button.
const FIRST = 12, AT_ONCE = 100;

function entry(one) {
  const { known } = one;
  const told = [
    element("span", {}, one.notice), known ? element("span", {}, say("see.estimate"), " ", money(known.estimate, known.currency)) : null,
    element("span", {}, say("see.list.published"), " ", day(one.published)),
    one.winners.size > 0 ? element("span", {}, say("see.list.to"), " ", [...one.winners].map((name, at) => [at > 0 ? ", " : "", given(name)])) : null];
  return element("li", { class: "entry-of-list" }, element("h3", {}, link(given(one.title), placeOf("notice", one.notice))),
    element("p", { class: "quiet told" }, told), element("p", {}, stateBadge(one.state), one.state === "open" ? [" ", clock(one.deadline)] : null),
    one.state === "open" ? element("p", { class: "quiet" }, say("see.deadline"), " ", moment(one.deadline)) : null);
}

function part(name, entries) {
  const text = say(`see.list.${name}`, { count: entries.length });
  const head = element("h2", { id: fresh("part"), tabindex: "-1" }, text);
  return { jump: jumpTo(head, text), made: element("section", { "aria-labelledby": head.id }, head,
    growing(element("ol", { class: "list", "aria-label": text }), entries, entry, AT_ONCE, FIRST)) };
}

/** A table as a file for spreadsheets: its names, and rows of texts and numbers. A text that a sheet would read
 * as a formula has an apostrophe before it, as in the tables of the mirror. `separator` is a semicolon where
 * numbers have commas. */
export function tableOf(names, rows, separator = ",") {
  const guarded = (text) => text.replace(/(^|[,;\t|])('*)(?=[=+\-@\t\r])/g, "$1'$2");
  const cell = (value) => (typeof value === "number" ? String(value) : `"${guarded(String(value ?? "")).replaceAll('"', '""')}"`);
  return `\ufeff${[names, ...rows].map((row) => row.map(cell).join(separator)).join("\r\n")}\r\n`;
}

/** Saves the entries that are shown as a table. */
function saveTable(entries) {
  const names = ["see.notice", "see.procurement", "see.state", "see.list.published", "see.deadline", "see.estimate", "see.currency", "see.list.to"]
    .map((name) => say(name));
  const rows = entries.map(({ notice, title: text, state, published, deadline, known, winners }) =>
    [notice, text, say(`see.state.${state}`), published, deadline, known?.estimate ?? "", known?.currency ?? "", [...winners].join(", ")]);
  save("procurements.csv", tableOf(names, rows, language() === "de" ? ";" : ","), "text/csv");
}

function drawFound(entries, all) {
  const count = entries.length === all ? say("see.list.all", { count: all }) : say("see.list.some", { some: entries.length, count: all });
  const [open, rest] = [entries.filter(({ state }) => state === "open"), entries.filter(({ state }) => state !== "open")];
  const parts = [["open", open], ["rest", rest]].filter(([, some]) => some.length > 0).map(([name, some]) => part(name, some));
  const jumps = open.length > FIRST && parts.length > 1
    ? element("div", { class: "jumps", role: "group", "aria-label": say("see.list.parts") }, parts.map(({ jump }) => jump)) : null;
  return [element("p", { class: "count", "aria-live": "polite" }, count), jumps, ...parts.map(({ made }) => made),
    entries.length === 0 ? element("p", {}, say("see.list.none"))
      : steps(button(say("see.list.save", { count: entries.length }), () => saveTable(entries), "second"))].filter(Boolean);
}

/** The filter fields. Those that need the mirror's tables are left out without it. */
function fieldsOf(filters, entries, data) {
  const any = ["", say("see.any")];
  const made = (name, options = {}) => field(say(`see.by.${name}`), { id: `by-${name}`, value: filters[name], ...options });
  const chosenOf = (name, pairs) => made(name, { kind: "choice", options: [any, ...pairs] });
  const years = [...new Set(entries.map(({ year }) => year))].sort().reverse();
  const fields = { words: made("words", { kind: "search" }), state: chosenOf("state", STATES.map((state) => [state, say(`see.state.${state}`)])),
    year: chosenOf("year", years.map((year) => [year, year])) };
  const orders = ORDERS.filter((name) => data || name !== "amount").map((name, at) => [at === 0 ? "" : name, say(`see.order.${name}`)]);
  const order = made("order", { kind: "choice", options: orders });
  return data ? { ...fields, line: chosenOf("line", data.budget.map(({ line, title: text }) => [line, `${line} ${text}`])),
    firm: made("firm", { kind: "search" }), from: made("from", { kind: "number", min: "0", inputmode: "numeric" }),
    to: made("to", { kind: "number", min: "0", inputmode: "numeric" }), order } : { ...fields, order };
}

/** The search field, which finds while one types. If a notice number was typed, Enter goes to the notice, in
 * whatever case. */
function search(filters, entries, data) {
  const found = element("div", { id: "found" });
  const fields = fieldsOf(filters, entries, data);
  const redraw = () => {
    const asked = Object.fromEntries(NAMES.map((name) => [name, fields[name]?.value() ?? ""]));
    const address = addressOf(asked);
    history.replaceState(history.state, "", address ? `#list?${address}` : "#list");
    draw(asked);
  };
  const draw = (asked) => found.replaceChildren(...drawFound(ordered(chosen(entries, asked), asked.order), entries.length));
  draw(filters);
  const { words, ...others } = fields;
  const isOpen = Object.keys(others).some((name) => filters[name]) || matchMedia("(min-width: 64rem)").matches;
  const more = element("details", isOpen ? { open: "" } : {}, element("summary", {}, say("see.filters")),
    element("div", { class: "fields" }, Object.values(others).map(({ made }) => made)));
  const asks = form(say("see.search"), [words.made, more], say("see.search"), () => {
    const notice = noticeOf(entries, words.value());
    if (notice) {
      location.hash = placeOf("notice", notice);
    } else {
      redraw();
    }
  });
  asks.setAttribute("role", "search");
  asks.addEventListener("input", redraw);
  return [asks, found];
}

/** The view of the list. `text` is the part of the address with the filters. */
export async function drawList(text) {
  const [list, data] = await Promise.all([notices(), tables("notices", "lots", "items", "tenders", "budget")]);
  const entries = entriesOf(list, data, officeNow());
  return { title: "", told: say("see.list.all", { count: list.length }), content: [title(say("see.page.list")),
    element("p", { class: "intro" }, say("see.list.intro")), data ? null : element("p", { class: "note" }, say("see.nodata")),
    list.length === 0 ? element("p", {}, say("see.list.empty")) : search(filtersOf(text), entries, data),
    data ? element("p", {}, link(say("see.list.feed.notices"), `/data/${language()}/notices.atom`), " · ",
      link(say("see.list.feed"), `/data/${language()}/feed.atom`), " · ",
      link(say("see.list.calendar"), "/data/deadlines.ics"), " · ", link(say("see.about.data"), "/data/")) : null] };
}

/** The notice whose number differs from this one only in case, or null. */
export async function meant(text) {
  return noticeOf(await notices(), text);
}
