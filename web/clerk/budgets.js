// The budget: its lines, and a budget file that is checked row by row and shown with its changes before it is
// sent.
import { rows as tableOf } from "../common/data.js";
import { bytesOfFile } from "../common/digest.js";
import { bar, below, element, given, key as legend, section, title } from "../common/draw.js";
import { ID, areRight, drop, field, form, note } from "../common/forms.js";
import { growingTable, searched } from "../common/many.js";
import { number } from "../common/money.js";
import { ledger, line as lineOf, sentenceOf } from "../common/office.js";
import { POTS, pots } from "../common/pots.js";
import { hasText, say } from "../common/texts.js";
import { changesOf, oddTitles, readBudget, repeatsOf } from "./budget.js";
import { converted } from "./convert.js";
import { ofBudget } from "./fate.js";
import { isUsed } from "./journal.js";
import { forRole } from "./roles.js";
import { sendThen } from "./send.js";
import { caller, journal } from "./session.js";
import { MOST, isAskable } from "./values.js";

const MOST_NAMED = 5;
const COLUMNS = POTS.toReversed();
// The titles of budget lines. Only a budget file changes them, so they are fetched once: nginx limits queries
// per second. All lines are searched by the titles in the mirror's table, which can be some minutes old.
const titles = new Map(), mirrored = new Map();
// The currency of all amounts, from the mirror; "" if there is no mirror or no lot yet.
let currency = "";

/** A caption with the currency, if it is known. */
function captionOf(name) {
  return currency ? `${say(name)}. ${say("see.money.what", { currency })}` : say(name);
}

/** The title of a budget line, or null if it can't be fetched. */
async function titleOf(name) {
  if (!titles.has(name)) {
    titles.set(name, await lineOf(name, caller()).then(({ title: text }) => text, () => null));
  }
  return titles.get(name);
}

export async function drawBudget(again) {
  const [lines, known, lots] = await Promise.all([ledger(caller()), ...["budget", "lots"].map((name) => tableOf(name).catch(() => null))]);
  currency = lots?.[0]?.currency ?? "";
  for (const { line: name, title: text } of known ?? []) {
    mirrored.set(name, text);
  }
  const place = element("div", { "aria-live": "polite" });
  const take = async (file) => {
    place.replaceChildren(...await checked(file.name, await bytesOfFile(file), new Map(lines.map((one) => [one.line, one])), again));
    place.querySelector("h3")?.focus();
  };
  return { title: say("page.budget"), content: [title(say("page.budget")), element("p", { class: "intro" }, say("budget.intro")),
    section(say("budget.file"), forRole("budget", () => [drop(say("budget.drop"), formHint(), take, { accept: ".csv,text/csv" }), place])),
    section(say("budget.lines"), lineTable(lines))] };
}

/** The form of a budget file, as two example lines. */
function formHint() {
  const lines = ["line,kind,amount,title", say("budget.drop.row")].map((text) => element("span", { class: "code below" }, text));
  return [say("budget.drop.hint"), lines];
}

/** The existing budget lines, each with a bar of its four balances. */
function lineTable(lines) {
  if (lines.length === 0) {
    return element("p", {}, say("see.budget.none"));
  }
  const heads = [say("see.line"), say("see.appropriation"), ...COLUMNS.map((name) => say(`see.pot.${name}`)), say("budget.bar")];
  const rowOf = (one) => [titled(one.line), number(one.appropriation), ...COLUMNS.map((name) => number(one[name])),
    bar(`${say("see.line")} ${one.line}`, pots((kind) => one[kind]))];
  return [searched(say("budget.search"), lines, wordsOf, (some) => growingTable(captionOf("budget.table"), heads, some, rowOf, { figures: [1, 2, 3, 4, 5] })),
    sums(lines)];
}

/** The text in which a budget line is searched. */
function wordsOf({ line: name }) {
  return `${name} ${titles.get(name) ?? mirrored.get(name) ?? ""}`;
}

/** The sums over all budget lines, as long as a Number holds them exactly. */
function sums(lines) {
  const all = pots((kind) => lines.reduce((sum, one) => sum + one[kind], 0));
  return all.every(({ amount }) => Number.isSafeInteger(amount)) ? [element("p", { class: "quiet" }, say("budget.sums")), legend(all, currency && ` ${currency}`)] : [];
}

/** A budget line's identifier, and its title when that has arrived. */
function titled(name) {
  const place = below();
  titleOf(name).then((title) => place.append(given(title ?? "")));
  return [name, place];
}

/** The content of a file, its faults or its changes, and the form that sends it. A file of a spreadsheet is
 * converted first, and each change of it is shown. */
async function checked(name, bytes, lines, again) {
  const turned = converted(bytes, new Map([...mirrored, ...titles]));
  const sent = turned?.bytes ?? bytes;
  const reading = readBudget(sent);
  const size = say("budget.size", { bytes: sent.length, rows: reading.rows.length, count: reading.rows.length });
  const head = element("h3", { tabindex: "-1" }, name, " ", element("span", { class: "quiet" }, size));
  const { changes, faults } = changesOf(reading.rows, lines);
  const all = [...reading.faults, ...(reading.faults.length === 0 ? faults : []), ...limits(reading)]
    .map((fault) => (turned && fault.record ? { ...fault, line: turned.lines[fault.record - 1] ?? fault.line } : fault));
  if (all.length > 0) {
    return [head, note("bad", say("budget.refused", { count: all.length }), say("budget.refused.whole")), faultTable(all)];
  }
  const warnings = [...warningsOf(repeatsOf(reading.rows, changes, journal().entries)), ...oddText(reading.rows)];
  return [head, turned ? conversion(turned.changes) : null,
    note(warnings.length > 0 ? "look" : "good", say("budget.right"), say("budget.right.more"), warnings), changeTable(changes),
    sending(name, sent, changes, warnings, again)].filter(Boolean);
}

/** The changes in the file before it is sent, line by line. */
function conversion(changes) {
  const heads = [say("budget.fileline"), say("convert.what"), say("convert.was"), say("convert.now")];
  const rowOf = ({ line, name, value, told }) => [number(line), say(`convert.${name}`), given(value),
    told === null ? say("convert.out") : element("b", {}, given(told))];
  return element("div", {}, note("look", say("convert.done", { count: changes.length }), say("convert.check")),
    searched(say("budget.search.changes"), changes, ({ line, value, told }) => `${line} ${value} ${told ?? ""}`,
      (some) => growingTable(say("convert.table"), heads, some, rowOf, { figures: [0] })));
}

/** Warnings that the file may already be imported. */
function warningsOf({ names, lines }) {
  const some = lines.length > MOST_NAMED ? [...lines.slice(0, MOST_NAMED), "…"] : lines;
  return [names.length > 0 ? say("budget.again", { names: names.join(", ") }) : "",
    lines.length > 0 ? say("budget.double", { lines: some.join(", "), count: lines.length }) : ""].filter(Boolean);
}

/** A warning about titles that look misread. */
function oddText(rows) {
  const odd = oddTitles(rows);
  return odd.length === 0 ? [] : [say("budget.odd", { titles: odd.slice(0, MOST_NAMED).map((title) => say("budget.odd.title", { title })).join(", "), count: odd.length })];
}

function limits({ bytes, rows }) {
  return [...(bytes > MOST.body ? [{ line: 1, code: "size", value: bytes }] : []),
    ...(rows.length > MOST.rows ? [{ line: 1, code: "many", value: rows.length }] : [])];
}

function faultTable(faults) {
  const heads = [say("budget.fileline"), say("budget.wrong"), say("budget.mend")];
  const rowOf = (fault) => [number(fault.line), wrongText(fault), mendText(fault)];
  return element("div", {}, searched(say("budget.search.faults"), faults, (fault) => `${fault.line} ${wrongText(fault)}`,
    (some) => growingTable(say("budget.faults"), heads, some, rowOf, { figures: [0] })));
}

function values({ value = "", free = 0n, amount = 0 }) {
  return { value, free, amount, count: Number(value) };
}

/** The sentences for wrong numbers are the same on all desks. */
function wrongText(fault) {
  const { code, value = "" } = fault;
  const name = `budget.fault.${code}`;
  return hasText(name) ? say(name, values(fault)) : say("budget.fault.amount", { value, why: say(code.replace("amount.", "number.")) });
}

function mendText(fault) {
  const [first] = fault.code.split(".");
  const names = [`budget.mend.${fault.code}`, `budget.mend.${first}`, "budget.mend.head"];
  return say(names.find(hasText), values(fault));
}

/** Each budget line before and after, and its new title if the file changes it. */
function changeTable(changes) {
  const heads = [say("see.line"), say("see.appropriation"), say("budget.difference"), say("see.pot.free"), say("column.title")];
  const step = (from, to) => [number(from), " → ", element("b", {}, number(to))];
  const rowOf = (change) => {
    const difference = change.appropriation - change.before.appropriation;
    const name = [change.id, change.isNew ? below(say("budget.new")) : ""];
    return [name, step(change.before.appropriation, change.appropriation), signed(difference), step(change.before.free, change.free), newTitle(change)];
  };
  return element("div", {}, searched(say("budget.search.changes"), changes, ({ id, title: text }) => `${id} ${text}`,
    (some) => growingTable(captionOf("budget.changes"), heads, some, rowOf, { figures: [1, 2, 3] })));
}

/** The title that a budget line gets, after the one that it has, if that is another one. */
function newTitle({ id, isNew, title: text }) {
  const place = element("span", {}, given(text));
  if (!isNew) {
    titleOf(id).then((held) => held !== null && held !== text && place.replaceChildren(given(held), " → ", element("b", {}, given(text))));
  }
  return place;
}

/** A name for the file at the office, made from its name here. */
function nameOf(file) {
  return file.replace(/\.csv$/i, "").replace(/[^A-Za-z0-9_.-]/g, "-").slice(0, 32);
}

function sending(name, bytes, changes, warnings, again) {
  const batch = field(say("budget.batch"), { hint: say("budget.batch.hint"), why: say("why.batch"), value: nameOf(name), ...ID });
  const run = () => {
    const typed = batch.value();
    if (areRight([[batch, !isAskable(typed) ? say("id.wrong") : isUsed(journal(), `/budget/${typed}`) ? say("budget.used") : ""]])) {
      return sendThen(importOrder(typed, bytes, changes, warnings), () => {
        titles.clear();
        again();
      });
    }
  };
  return form(say("budget.send"), [batch.made], say("budget.send"), run);
}

function signed(amount) {
  return `${amount < 0n ? "−" : "+"}${number(amount < 0n ? -amount : amount)}`;
}

function importOrder(batch, bytes, changes, warnings) {
  const sum = changes.reduce((all, change) => all + change.appropriation - change.before.appropriation, 0n);
  return { kind: "budget", values: { batch }, path: `/budget/${batch}`, body: bytes, again: "Exists", find: () => ofBudget(changes),
    says: [say("budget.does", { count: changes.length, sum: signed(sum) }), say("budget.once", { batch }),
      ...warnings.map((text) => element("span", { class: "wrong" }, text))],
    explain: (fault) => (/^row \d+$/.test(fault.what) ? say("budget.row", { row: fault.what.slice(4) }) : sentenceOf(fault)) };
}
