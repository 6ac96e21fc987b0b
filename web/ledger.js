// The budget: for each budget line a bar of its paid, contracted, reserved and free money; and one line with
// its procurements.
import { grouped, rows, sum, tables, worthNow } from "./common/data.js";
import { bar, element, given, key, link, placeOf, section, title } from "./common/draw.js";
import { entriesOf, finder, searchable } from "./common/filters.js";
import { field, growing } from "./common/forms.js";
import { number } from "./common/money.js";
import { ledger, line as lookAtLine, notices, officeNow, part } from "./common/office.js";
import { POTS, pots } from "./common/pots.js";
import { stateBadge } from "./common/states.js";
import { say } from "./common/texts.js";

const AT_ONCE = 20;

function potsOf(name, line) {
  const parts = pots((kind) => line[kind]);
  return [element("p", {}, say("see.appropriation"), " ", element("b", {}, number(line.appropriation))), bar(name, parts), key(parts, "")];
}

/** The title of a budget line, from the mirror or else from the office. If it can't be fetched, only the
 * identifier is shown. */
function addTitle(heading, line, titles) {
  const told = titles.has(line) ? Promise.resolve(titles.get(line)) : lookAtLine(line).then(({ title: text }) => text);
  told.then((text) => heading.append(": ", given(text)), () => heading.append(": –"));
}

function card(line, titles, counts) {
  const name = say("see.line.of", { line: line.line });
  const heading = element("h3", {}, link(name, placeOf("line", line.line)));
  addTitle(heading, line.line, titles);
  const count = new Set(counts?.get(line.line)?.map(({ notice }) => notice)).size;
  return element("li", { class: "card" }, heading, potsOf(name, line),
    counts ? element("p", { class: "quiet" }, say("see.line.procurements", { count })) : null);
}

/** All budget lines. If there are many, a field searches numbers and titles. */
function search(lines, titles, counts) {
  const shown = (some) => growing(element("ul", { class: "lines" }), some, (line) => card(line, titles, counts), AT_ONCE);
  const { made, input, value } = field(say("see.budget.search"), { id: "by-line", kind: "search" });
  const found = element("div", {}, shown(lines));
  input.addEventListener("input", () => {
    const isFound = finder(value());
    found.replaceChildren(...shown(lines.filter(({ line }) => isFound(searchable(`${line} ${titles.get(line) ?? ""}`)))));
  });
  return [lines.length > AT_ONCE ? made : null, found];
}

/** The whole budget. */
export async function drawBudget() {
  const [lines, budget, lots] = await Promise.all([ledger(), rows("budget"), rows("lots")]);
  const told = say("see.budget.lines", { count: lines.length });
  if (lines.length === 0) {
    return { title: say("see.page.ledger"), told, content: [title(say("see.page.ledger")), element("p", {}, say("see.budget.none"))] };
  }
  const all = Object.fromEntries(["appropriation", ...POTS].map((name) => [name, sum(lines.map((line) => line[name]))]));
  const whole = section(told, potsOf(say("see.budget.all"), all));
  whole.classList.add("card");
  const titles = new Map((budget ?? []).map(({ line, title: text }) => [line, text]));
  const counts = lots && grouped(lots, ({ line }) => line);
  return { title: say("see.page.ledger"), told, content: [title(say("see.page.ledger")), element("p", { class: "intro" }, say("see.budget.intro")),
    Number.isSafeInteger(all.appropriation) ? whole : null,
    section(say("see.budget.each"), search(lines, titles, counts)),
    element("p", {}, say("see.from"), " ", link("/ledger", "/ledger"))] };
}

async function lotTable(lots, entries, currency) {
  const { growingTable } = await import("./common/many.js");
  const known = new Map(entries.map((one) => [one.notice, one]));
  const deadline = ({ notice }) => known.get(notice).deadline;
  const own = lots.filter(({ notice }) => known.has(notice)).sort((one, other) => (deadline(one) > deadline(other) ? -1 : deadline(one) < deadline(other) ? 1 : 0));
  const rowOf = (lot) => {
    const { title: text, state } = known.get(lot.notice);
    const now = lot.status === "active" ? (lot.winner && state === "opened" ? "awarded" : state)
      : lot.status === "complete" && lot.contract_status === "active" ? "running" : lot.status;
    const amount = (value) => (value === null ? "–" : number(value));
    return [link(given(text), placeOf("notice", lot.notice)), [`${lot.lot} `, given(lot.title)], stateBadge(now),
      amount(lot.estimate), amount(worthNow(lot) ?? lot.price), amount(lot.paid)];
  };
  return growingTable(say("see.line.table", { count: own.length, currency }), [say("see.procurement"), say("see.lot.short"), say("see.state"), say("see.estimate"),
    say("see.worth"), say("see.paid")], own, rowOf, { figures: [3, 4, 5] });
}

/** One budget line, and the lots that it pays for. */
export async function drawLine(name) {
  const [line, list, data] = await Promise.all([lookAtLine(part(name)), notices(), tables("notices", "lots", "payments")]);
  const own = (data?.lots ?? []).filter((lot) => lot.line === name);
  const told = `${say("see.line.of", { line: name })}: ${line.title}`;
  const bought = own.length > 0 ? await lotTable(own, entriesOf(list, data, officeNow()), own[0].currency)
    : element("p", {}, say(data ? "see.line.nothing" : "see.nodata"));
  const lots = new Set(own.map(({ notice, lot }) => `${notice}/${lot}`));
  const payments = (data?.payments ?? []).filter(({ notice, lot }) => lots.has(`${notice}/${lot}`));
  // (The module of charts is loaded when there is something to draw.)
  const paid = payments.length > 0 ? section(say("see.chart.months"), (await import("./figures.js")).byMonth(payments, own[0].currency)) : null;
  return { title: told, told, content: [title(say("see.line.of", { line: name }), ": ", given(line.title)),
    element("section", { class: "card", "aria-label": say("see.pots") }, potsOf(say("see.line.of", { line: name }), line)),
    paid, section(say("see.line.bought"), bought),
    element("p", {}, link(say("see.budget.back"), "#ledger"), " · ", link(say("see.line.list"), `#list?line=${encodeURIComponent(name)}`))] };
}
