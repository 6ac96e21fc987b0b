// Figures of all procurements: payments by month and by year, money by budget line, tenders for each lot, and
// the time from the notice to the contract.
import { bars, columns, grouped } from "./chart.js";
import { grouped as groupedBy, sum, tables } from "./common/data.js";
import { marksOf, monthAfter, monthOf } from "./common/days.js";
import { below, element, given, key, link, placeOf, section, title } from "./common/draw.js";
import { field } from "./common/forms.js";
import { number } from "./common/money.js";
import { pots } from "./common/pots.js";
import { addTexts, language, say } from "./common/texts.js";

await addTexts({ en: () => import("./common/en_pictures.js"), de: () => import("./common/de_pictures.js") });
const DAY = 86_400_000;
// The longest time of each bar in the last chart, in days.
const DAYS = [30, 60, 90, 120, 180, Infinity];
const MOST = 5;
// The most months of a picture, and of their marks.
const MONTHS = 24, MARKS = 4;
// The orders of budget lines, and the money that their bars show. (Free money is nearly everything.)
const ORDERS = ["paid", "contracted", "reserved", "line"], USED = ["paid", "contracted", "reserved"];

function card(...content) {
  const made = section(...content);
  made.classList.add("card");
  return made;
}

function monthText(month, parts) {
  return new Intl.DateTimeFormat(language() === "en" ? "en-GB" : language(), { ...parts, timeZone: "UTC" }).format(new Date(`${month}-01`));
}

/** The months of payments, the last ones, each with its sum: also those in between in which nothing was paid. */
export function monthsOf(payments) {
  const sums = new Map([...groupedBy(payments, ({ date }) => monthOf(date))].map(([month, some]) => [month, sum(some.map(({ amount }) => amount))]));
  const names = [...sums.keys()].sort();
  const last = names.at(-1);
  const first = [names[0], monthAfter(last, 1 - MONTHS)].sort().at(-1);
  const found = [];
  for (let month = first; month <= last; month = monthAfter(month, 1)) {
    found.push([month, sums.get(month) ?? 0]);
  }
  return found;
}

/** The payments by month, as a picture; a sentence if there are none. */
export function byMonth(payments, currency) {
  if (payments.length === 0) {
    return element("p", {}, say("see.month.none"));
  }
  const months = monthsOf(payments);
  const marked = marksOf(Date.parse(months[0][0]), Date.parse(months.at(-1)[0]), MARKS).marks.map((at) => new Date(at).toISOString().slice(0, 7));
  const mark = (month) => (month.endsWith("-01") ? month.slice(0, 4) : monthText(month, { month: "short" }));
  const rows = months.map(([month, amount]) => ({ name: monthText(month, { month: "long", year: "numeric" }), amount,
    mark: marked.includes(month) || months.length === 1 ? mark(month) : "" }));
  const label = say("see.month.label", { count: rows.length, first: rows[0].name, last: rows.at(-1).name, sum: number(sum(rows.map(({ amount }) => amount))), currency });
  return element("div", {}, element("p", {}, label), columns(label, rows, [say("see.month"), say("see.paid")]));
}

/** Payments by month, of all budget lines or of one. */
function monthCard(data, currency) {
  const lineOf = new Map(data.lots.map((lot) => [`${lot.notice}/${lot.lot}`, lot.line]));
  const { payments } = data;
  const of = ({ notice, lot }) => lineOf.get(`${notice}/${lot}`);
  const paid = new Set(payments.map(of));
  const options = [["", say("see.any")], ...data.budget.filter(({ line }) => paid.has(line)).map(({ line, title: text }) => [line, `${line} ${text}`])];
  const { made, input } = field(say("see.by.line"), { id: "months-of", kind: "choice", options });
  const shown = element("div", {}, byMonth(payments, currency));
  input.addEventListener("change", () => shown.replaceChildren(byMonth(input.value ? payments.filter((row) => of(row) === input.value) : payments, currency)));
  return card(say("see.chart.months"), payments.length > 0 ? made : null, shown);
}

/** The years in which a contract was signed or something was paid, newest first. Each has the estimates and prices of the
 * lots whose contracts were signed in it, and its payments. */
export function yearsOf({ lots, contracts, payments }) {
  const estimates = new Map(lots.map(({ notice, lot, estimate }) => [`${notice}/${lot}`, estimate]));
  const [signed, paid] = [groupedBy(contracts, (row) => monthOf(row.signed).slice(0, 4)), groupedBy(payments, ({ date }) => monthOf(date).slice(0, 4))];
  return [...new Set([...signed.keys(), ...paid.keys()])].sort().reverse().map((year) => {
    const own = signed.get(year) ?? [];
    return { year, count: own.length, estimate: sum(own.map(({ notice, lot }) => estimates.get(`${notice}/${lot}`) ?? 0)),
      price: sum(own.map(({ price }) => price)), paid: sum((paid.get(year) ?? []).map(({ amount }) => amount)) };
  });
}

function yearCard(data, currency) {
  const years = yearsOf(data);
  const parts = (one) => [["reserved", "estimate"], ["contracted", "price"], ["paid", "paid"]].map(([kind, name]) => ({ kind, name: say(`see.${name}`), amount: one[name] }));
  const heads = [say("see.by.year"), say("see.contracts"), say("see.estimate"), say("see.price"), say("see.paid")];
  const cells = years.map(({ year, count, estimate, price, paid }) => [year, ...[count, estimate, price, paid].map(number)]);
  const label = say("see.chart.years");
  const all = parts(Object.fromEntries(["estimate", "price", "paid"].map((name) => [name, sum(years.map((one) => one[name]))])));
  return card(label, element("p", {}, say("see.chart.years.what", { currency })), key(all, ` ${currency}`),
    years.length === 0 ? element("p", {}, say("see.month.none")) : grouped(label, years.map((one) => ({ name: one.year, parts: parts(one) })), label, heads, cells));
}

function used(line) {
  return sum(USED.map((kind) => line[kind]));
}

/** The budget lines that have an appropriation, in one of the orders. */
export function linesBy(order, budget) {
  const own = budget.filter(({ appropriation }) => appropriation > 0);
  return order === "line" ? own : own.toSorted((one, other) => other[order] - one[order] || used(other) - used(one));
}

function byLine(budget, currency) {
  const rowOf = (line) => ({ name: link([`${line.line} `, given(line.title)], placeOf("line", line.line)), parts: pots((kind) => (kind === "free" ? 0 : line[kind])),
    told: [number(used(line)), below(say("see.chart.lines.of", { appropriation: number(line.appropriation) }))] });
  const all = pots((kind) => sum(budget.map((line) => line[kind])));
  const { made, input } = field(say("see.by.order"), { id: "lines-by", kind: "choice", value: ORDERS[0], options: ORDERS.map((name) => [name, say(`see.lines.by.${name}`)]) });
  const draw = () => bars(say("see.chart.lines"), linesBy(input.value, budget).map(rowOf));
  const shown = element("div", {}, draw());
  input.addEventListener("change", () => shown.replaceChildren(...draw()));
  return card(say("see.chart.lines"), element("p", {}, say("see.chart.lines.what", { currency })), key(all, ` ${currency}`), made, shown);
}

function tendersALot(lots) {
  const opened = lots.filter(({ tenders }) => tenders !== null);
  const counted = Array.from({ length: MOST + 1 }, (_, count) => opened.filter(({ tenders }) => Math.min(tenders, MOST) === count).length);
  const rows = counted.map((count, at) => ({ name: say(at === MOST ? "see.chart.tenders.more" : "see.chart.tenders.count", { count: at }),
    parts: [{ kind: "count", amount: count }], told: number(count) }));
  const told = say("see.chart.tenders.what", { count: opened.length, one: counted[1], none: counted[0] });
  return opened.length === 0 ? card(say("see.chart.tenders"), element("p", {}, say("see.firms.none")))
    : card(say("see.chart.tenders"), element("p", {}, told), bars(say("see.chart.tenders"), rows));
}

/** The days from a notice's publication to the signing of each of its contracts. */
function daysToContract(notices, contracts) {
  const published = new Map(notices.map((row) => [row.notice, Date.parse(row.published)]));
  return contracts.filter(({ notice }) => published.has(notice)).map(({ notice, signed }) => Math.ceil((Date.parse(signed) - published.get(notice)) / DAY))
    .sort((one, other) => one - other);
}

function timeToContract(days) {
  if (days.length === 0) {
    return card(say("see.chart.days"), element("p", {}, say("see.chart.days.none")));
  }
  const rows = DAYS.map((most, at) => {
    const count = days.filter((one) => one <= most && one > (DAYS[at - 1] ?? -1)).length;
    const least = at === 0 ? 0 : DAYS[at - 1] + 1;
    const name = most === Infinity ? say("see.chart.days.more", { most: least - 1 }) : say("see.chart.days.most", { least, most });
    return { name, parts: [{ kind: "count", amount: count }], told: number(count) };
  });
  const middle = say("see.days", { count: days[Math.floor((days.length - 1) / 2)] });
  return card(say("see.chart.days"), element("p", {}, say("see.chart.days.what", { count: days.length, middle })),
    bars(say("see.chart.days"), rows));
}

function charts(data, year) {
  const notices = data.notices.filter(({ published }) => year === "" || published.startsWith(year));
  const names = new Set(notices.map(({ notice }) => notice));
  const own = (rows) => rows.filter(({ notice }) => names.has(notice));
  return [tendersALot(own(data.lots)), timeToContract(daysToContract(notices, own(data.contracts)))];
}

/** The view of all charts. The address holds the year of the notices. */
export async function drawFigures(text) {
  const data = await tables("notices", "lots", "contracts", "payments", "budget");
  const heading = title(say("see.page.figures"));
  if (data === null) {
    return { title: say("see.page.figures"), told: say("see.nodata"), content: [heading, element("p", { class: "note" }, say("see.nodata"))] };
  }
  const years = [...new Set(data.notices.map(({ published }) => published.slice(0, 4)))].sort().reverse();
  const asked = new URLSearchParams(text).get("year") ?? "";
  const choices = [["", say("see.any")], ...years.map((year) => [year, year])];
  const { made, input } = field(say("see.figures.year"), { id: "of-year", kind: "choice", options: choices, value: years.includes(asked) ? asked : "" });
  const shown = element("div", {}, charts(data, input.value));
  input.addEventListener("change", () => {
    history.replaceState(history.state, "", input.value ? `#figures?year=${input.value}` : "#figures");
    shown.replaceChildren(...charts(data, input.value));
  });
  const currency = data.lots[0]?.currency ?? "";
  return { title: say("see.page.figures"), told: say("see.page.figures"), content: [heading, element("p", { class: "intro" }, say("see.figures.intro")),
    monthCard(data, currency), yearCard(data, currency), byLine(data.budget, currency), made, shown] };
}
