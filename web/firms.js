// Firms: the tenders, awards and payments of each, from the mirror's tables.
import { bars } from "./chart.js";
import { grouped, sum, tables, worthNow } from "./common/data.js";
import { badge, below, element, facts, given, key, link, placeOf, section, title } from "./common/draw.js";
import { finder, searchable } from "./common/filters.js";
import { kindOfSigned } from "./common/findings.js";
import { field, table } from "./common/forms.js";
import { growingTable } from "./common/many.js";
import { day, number } from "./common/money.js";
import { Refused } from "./common/office.js";
import { say } from "./common/texts.js";

// So many firms are in the picture.
const FIRST = 20;

function amount(value) {
  return value === null ? "–" : number(value);
}

/** The firms with their sums, the highest payments first. */
function firmsOf({ tenders, contracts, payments }) {
  const [contracted, paid] = [grouped(contracts, ({ tenderer }) => tenderer), grouped(payments, ({ tenderer }) => tenderer)];
  const firms = [...grouped(tenders, ({ tenderer }) => tenderer)].map(([tenderer, own]) => {
    const won = contracted.get(tenderer) ?? [];
    return { tenderer, name: own.at(-1).name, address: own.at(-1).address, tenders: own.length, won: won.length, worth: sum(won.map(worthNow)),
      paid: sum((paid.get(tenderer) ?? []).map((one) => one.amount)) };
  });
  return firms.sort((one, other) => other.paid - one.paid || other.worth - one.worth || other.tenders - one.tenders || (one.name < other.name ? -1 : 1));
}

function firmTable(firms, currency) {
  const cells = firms.map((firm) => [[link(given(firm.name), placeOf("firm", firm.tenderer)), below(given(firm.address))],
    number(firm.tenders), number(firm.won), number(firm.worth), number(firm.paid)]);
  const heads = [say("see.firm"), say("see.tenders"), say("see.contracts"), say("see.worth"), say("see.paid")];
  return table(say("see.firms.table", { count: firms.length, currency }), heads, cells, { figures: [1, 2, 3, 4] });
}

function without() {
  return { title: say("see.page.firms"), told: say("see.nodata"),
    content: [title(say("see.page.firms")), element("p", { class: "note" }, say("see.nodata"))] };
}

/** The firms with the most contracts, by their number or by their value. */
function most(firms, currency) {
  const own = firms.filter(({ won }) => won > 0);
  const parts = { won: ({ won }) => [{ kind: "count", amount: won }],
    worth: ({ worth, paid }) => [{ kind: "paid", amount: paid }, { kind: "contracted", amount: worth - paid }] };
  const kinds = [{ kind: "paid", name: say("see.paid"), amount: sum(own.map(({ paid }) => paid)) },
    { kind: "contracted", name: say("see.topay"), amount: sum(own.map(({ worth, paid }) => worth - paid)) }];
  const { made, input } = field(say("see.firms.by"), { id: "firms-by", kind: "choice", value: "won",
    options: ["won", "worth"].map((name) => [name, say(`see.firms.by.${name}`, { currency })]) });
  const shown = element("div");
  const draw = () => {
    const by = input.value;
    const rows = own.toSorted((one, other) => other[by] - one[by] || other.worth - one.worth).slice(0, FIRST).map((firm) =>
      ({ name: link(given(firm.name), placeOf("firm", firm.tenderer)), parts: parts[by](firm), told: number(firm[by]) }));
    shown.replaceChildren(...[by === "worth" ? key(kinds, ` ${currency}`) : null, bars(say("see.chart.firms"), rows)].flat().filter(Boolean));
  };
  draw();
  input.addEventListener("change", draw);
  const drawn = section(say("see.chart.firms"), element("p", {}, say("see.chart.firms.what", { count: Math.min(FIRST, own.length) })), made, shown);
  drawn.classList.add("card");
  return own.length > 1 ? drawn : null;
}

/** All firms that tendered. The address holds the search. */
export async function drawFirms(text) {
  const data = await tables("tenders", "contracts", "payments");
  if (data === null) {
    return without();
  }
  const firms = firmsOf(data);
  const currency = data.contracts[0]?.currency ?? "";
  const { made, input, value } = field(say("see.firms.search"), { id: "by-name", kind: "search", value: new URLSearchParams(text).get("name") ?? "" });
  const chosen = () => {
    const isFound = finder(value());
    return firmTable(firms.filter(({ name, tenderer }) => isFound(searchable(`${name} ${tenderer}`))), currency);
  };
  const found = element("div", {}, chosen());
  input.addEventListener("input", () => {
    history.replaceState(history.state, "", value() ? `#firms?${new URLSearchParams({ name: value() })}` : "#firms");
    found.replaceChildren(chosen());
  });
  return { title: say("see.page.firms"), told: say("see.firms.count", { count: firms.length }),
    content: [title(say("see.page.firms")), element("p", { class: "intro" }, say("see.firms.intro")),
      firms.length === 0 ? element("p", {}, say("see.firms.none")) : [most(firms, currency), made, found]] };
}

/** The result of a tender, from the tables only: that of its award, else that of its examination. */
function outcome(tender, lot, award, contract) {
  const [kind, name] = contract ? [kindOfSigned(contract), "signed"] : award?.status === "active" ? ["running", "won"]
    : award ? ["stopped", tender.standing === "failed" ? "passed" : "awardended"] : withoutAward(tender, lot);
  return badge(kind, say(`see.outcome.${name}`));
}

function withoutAward({ reading, standing, answer }, lot) {
  if (reading !== "priced" || standing === "failed" || answer === "unresponsive") {
    return ["stopped", reading !== "priced" ? reading : standing === "failed" ? "late" : answer];
  }
  if (standing === "admissible") {
    return ["open", lot.winner ? "notchosen" : "undecided"];
  }
  return lot.status === "active" ? ["running", "waits"] : ["stopped", "unexamined"];
}

/** A firm, with all its tenders. */
export async function drawFirm(tenderer) {
  const data = await tables("notices", "lots", "tenders", "awards", "contracts", "payments");
  if (data === null) {
    return without();
  }
  const firm = firmsOf(data).find((one) => one.tenderer === tenderer);
  if (!firm) {
    throw new Refused({ name: "NoSuch" });
  }
  const notices = new Map(data.notices.map((row) => [row.notice, row]));
  const lots = new Map(data.lots.map((row) => [`${row.notice}/${row.lot}`, row]));
  const [tenders, awards, contracts] = [data.tenders, data.awards, data.contracts].map((all) => all.filter((row) => row.tenderer === tenderer));
  const ofTender = (all, { notice, lot }) => all.findLast((row) => row.notice === notice && row.lot === lot);
  const own = tenders.sort((one, other) => other.receipt - one.receipt);
  const rowOf = (tender) => {
    const contract = ofTender(contracts, tender);
    const { title: text, opened } = notices.get(tender.notice);
    const lot = lots.get(`${tender.notice}/${tender.lot}`);
    const found = outcome(tender, lot, ofTender(awards, tender), contract);
    const bought = [say("see.lot", { lot: tender.lot }), ": ", given(lot.title)];
    return [[link(given(text), placeOf("notice", tender.notice, tender.lot)), below(bought), below(day(opened))],
    amount(tender.corrected), found, amount(contract ? worthNow(contract) : null), amount(contract?.paid ?? null)];
  };
  const currency = data.notices[0].currency;
  const years = [...grouped(data.payments.filter((row) => row.tenderer === tenderer), ({ date }) => date.slice(0, 4))].sort().reverse();
  const byYear = years.map(([year, some]) => below(`${year}: ${number(sum(some.map((one) => one.amount)))}`));
  const heads = [say("see.procurement"), say("see.price"), say("see.found"), say("see.worth"), say("see.paid")];
  return { title: firm.name, told: firm.name, content: [title(given(firm.name)),
    element("p", { class: "quiet" }, given(firm.address)),
    facts([[say("see.tenders"), number(firm.tenders)], [say("see.contracts"), number(firm.won)], [say("see.worth"), `${number(firm.worth)} ${currency}`],
      [say("see.paid"), [`${number(firm.paid)} ${currency}`, byYear]]]),
    growingTable(say("see.firm.table", { count: own.length, currency }), heads, own, rowOf, { figures: [1, 3, 4] }),
    element("p", {}, link(say("see.firms.back"), "#firms"))] };
}
