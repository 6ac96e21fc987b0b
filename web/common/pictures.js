// The pictures of a procurement: its days as a line, and the prices of a lot against its estimate.
import { element, section } from "./draw.js";
import { STEPS, marksOf, rangeOf, stateOfStep, stepsOf } from "./days.js";
import { outcomeOf } from "./findings.js";
import { table } from "./forms.js";
import { day, money, number } from "./money.js";
import { officeNow } from "./office.js";
import { drawing, drawn, legend, picture, rounds, scale, sign, upright } from "./svg.js";
import { addTexts, language, say } from "./texts.js";

await addTexts({ en: () => import("./en_pictures.js"), de: () => import("./de_pictures.js") });
// The height of a row, and of its bar.
const ROW = 30, BAR = 14;
// The most marks of an axis: on a phone their texts fit.
const MARKS = 5, PRICES = 3;

function dayOf(milliseconds) {
  return day(new Date(milliseconds).toISOString().replace(/\.\d+Z$/, "Z"));
}

/** The text of a mark: `Mar`, `9 Mar` or `2026`. */
function markText(milliseconds, unit) {
  const isYear = unit === "year" || (unit === "month" && new Date(milliseconds).getUTCMonth() === 0);
  const parts = /** @type {any} */ (isYear ? { year: "numeric" } : unit === "month" ? { month: "short" } : { day: "numeric", month: "short" });
  return new Intl.DateTimeFormat(language() === "en" ? "en-GB" : language(), { ...parts, timeZone: "UTC" }).format(milliseconds);
}

/** The days of one or several steps of a kind, as elements: from the first to the last, or since the first. */
function daysText(steps) {
  const from = Math.min(...steps.map((one) => one.from));
  const isOpen = steps.some(({ to }) => to === null);
  const to = Math.max(...steps.map((one) => one.to ?? one.from));
  const [first, last] = [dayOf(from), dayOf(to)];
  if (isOpen || first.textContent === last.textContent) {
    return isOpen ? [say("way.since"), " ", first] : [first];
  }
  // (A year that both have is said once.)
  const year = last.textContent.slice(-5);
  if (first.textContent.endsWith(year)) {
    first.textContent = first.textContent.slice(0, -5);
  }
  return [first, " – ", last];
}

/** The state of all steps of a kind. */
function stateOfAll(steps, now) {
  const states = new Set(steps.map((one) => stateOfStep(one, now)));
  return states.size === 1 ? [...states][0] : "running";
}

function rowOf(steps, now, /** @type {number[]} */ [least, most]) {
  const part = (moment) => (Math.min(Math.max(moment, least), most) - least) / (most - least);
  const top = (ROW - BAR) / 2;
  const bar = (from, to, kind) => drawn("rect", { x: `${100 * part(from)}%`, y: top, width: `${100 * (part(to) - part(from))}%`, height: BAR, class: `span ${kind}` });
  const shapes = steps.flatMap((one) => {
    const { from } = one;
    const to = one.to ?? now;
    if (from === one.to) {
      return [sign(one.step === "stopped" ? "cross" : stateOfStep(one, now) === "done" ? "disc" : "ring", part(from), ROW / 2)];
    }
    return [...(from < now ? [bar(from, Math.min(to, now), "done")] : []), ...(to > now ? [bar(Math.max(from, now), to, "coming")] : [])];
  });
  return drawing(ROW, ...(now > least && now <= most ? [upright(part(now), ROW, "now")] : []), ...shapes);
}

/** The text of a step that has no days yet. */
function unknown(step, { standstill_days: days }) {
  return step === "standstill" ? say("way.standstill.after", { count: days }) : say(`way.${step}.after`);
}

/** The steps that a notice shows: those that it has, and the standstill and the contract if they are still to come. */
function shownOf(notice, steps) {
  const isStopped = steps.some(({ step }) => step === "stopped");
  const isExpected = (step) => !isStopped && (step === "contract" || (step === "standstill" && notice.terms.standstill_days > 0));
  return STEPS.map((step) => [step, steps.filter((one) => one.step === step)]).filter(([step, some]) => some.length > 0 || isExpected(step));
}

/** The days of a procurement as a picture: bars and points along the time, what is done filled, what is to come hollow. */
export function daysOf(notice) {
  const now = officeNow();
  const steps = stepsOf(notice);
  const range = rangeOf(steps, now, notice.compiled.tender.status === "active");
  const shown = shownOf(notice, steps);
  const { unit, marks: all } = marksOf(range[0], range[1], MARKS);
  // (The text of a day is longer than that of a month.)
  const marks = all.filter((_, at) => unit !== "day" || all.length < 4 || at % 2 === 0);
  const rows = shown.map(([step, some]) => element("div", { class: "row" }, element("b", {}, say(`way.${step}`)),
    rowOf(some, now, range), element("span", { class: "quiet" }, some.length > 0 ? daysText(some) : unknown(step, notice.terms))));
  const axis = element("div", { class: "row axis" }, element("span"), scale(marks.map((at) =>
    ({ part: (at - range[0]) / (range[1] - range[0]), text: markText(at, unit) }))), element("span"));
  const text = (some) => daysText(some).map((one) => one.textContent ?? one).join("");
  const told = shown.map(([step, some]) => (some.length > 0 ? `${say(`way.${step}`)}: ${text(some)} (${say(`way.is.${stateOfAll(some, now)}`)})`
    : `${say(`way.${step}`)}: ${unknown(step, notice.terms)}`));
  const cells = steps.map((one) => [say(`way.${one.step}`), one.lot ?? "–", daysText([one]), say(`way.is.${stateOfStep(one, now)}`)]);
  const box = (kind) => drawn("svg", { width: 22, height: 16 }, drawn("rect", { x: 1, y: 1, width: 20, height: 14, class: `span ${kind}` }));
  const line = drawn("svg", { width: 10, height: 16 }, drawn("line", { x1: 5, x2: 5, y1: 0, y2: 16, class: "now" }));
  const isComing = steps.some((one) => one.to !== null && stateOfStep(one, now) !== "done");
  const made = section(say("way.title"), picture(`${say("way.title")}. ${told.join(". ")}.`, [...rows, axis]),
    legend([[box("done"), say("way.is.done")], ...(isComing ? [[box("coming"), say("way.is.coming")]] : []), ...(now <= range[1] ? [[line, say("way.now")]] : [])]),
    element("details", {}, element("summary", {}, say("picture.table")),
      table(say("way.title"), [say("way.step"), say("see.lot.short"), say("way.days"), say("see.state")], cells)));
  made.classList.add("card", "days");
  return made;
}

// A sign for the outcome of a tender: the winner's, one that can win, one that can't.
const SIGN = { won: "disc", signed: "disc", unresponsive: "cross", late: "cross", passed: "cross", awardended: "cross", unexamined: "cross" };
const NEAR = 0.05, STEP = 15;

/** Points above each other where they would hide each other: each with its part of the width and its level. */
function levels(points) {
  const placed = [];
  for (const point of points) {
    let level = 0;
    while (placed.some((one) => one.level === level && Math.abs(one.part - point.part) < NEAR)) {
      level += 1;
    }
    placed.push({ ...point, level });
  }
  return placed;
}

/** The prices of a lot's tenders along a line, with the estimate. The table of tenders is beside it. */
export function pricesOf({ terms }, lot, tenders, shown) {
  const priced = tenders.filter(({ reading }) => reading === "priced").sort((one, other) => one.corrected - other.corrected);
  if (priced.length === 0) {
    return null;
  }
  const { amount: estimate, currency } = lot.value;
  const all = [estimate, ...priced.map(({ corrected }) => corrected)];
  const [low, high] = [Math.min(...all), Math.max(...all)];
  const room = Math.max((high - low) * 0.08, high * 0.02, 1);
  const [least, most] = [Math.max(0, low - room), high + room];
  const part = (amount) => (amount - least) / (most - least);
  const kinds = priced.map((tender) => SIGN[outcomeOf(tender, shown, terms.criteria === "points")[1]] ?? "ring");
  const points = levels(priced.map(({ corrected }, at) => ({ part: part(corrected), kind: kinds[at] })));
  const height = 28 + STEP * Math.max(...points.map(({ level }) => level));
  const marks = rounds(least, most, PRICES).map((amount) => ({ part: part(amount), text: number(amount) }));
  const won = priced.find((_, at) => kinds[at] === "disc");
  const told = [say("price.label", { count: priced.length, lot: lot.id, lowest: money(priced[0].corrected, currency),
    highest: money(priced.at(-1).corrected, currency), estimate: money(estimate, currency) }), won ? say("price.won.label", { price: money(won.corrected, currency) }) : ""];
  const own = (kind) => drawn("svg", { width: 16, height: 16 }, sign(kind, 0.5, 8));
  const line = drawn("svg", { width: 10, height: 16 }, drawn("line", { x1: 5, x2: 5, y1: 0, y2: 16, class: "estimate" }));
  return [picture(told.join(" ").trim(), [drawing(height, ...marks.map((mark) => upright(mark.part, height, "mark")), upright(part(estimate), height, "estimate"),
    ...points.map(({ part: at, kind, level }) => sign(kind, at, height - 14 - STEP * level))), scale(marks)]),
  legend([[line, `${say("see.estimate")} `, element("b", {}, money(estimate, currency))],
    ...["disc", "ring", "cross"].filter((kind) => kinds.includes(kind)).map((kind) => [own(kind), say(kind === "ring" && !won ? "price.any" : `price.${kind}`)])])];
}
