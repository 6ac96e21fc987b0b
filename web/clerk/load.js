// Stages of notices, and the next tasks as sentences.
import { element, given, link, placeOf } from "../common/draw.js";
import { evaluationOf } from "../common/findings.js";
import { countdown, moment, span, when } from "../common/money.js";
import { evaluationText, officeNow, record, terms } from "../common/office.js";
import { hasText, say, sayParts } from "../common/texts.js";
import { caller, may } from "./session.js";
import { isFact, rolesOf, stageOf, tasksOf } from "./stage.js";
import { momentText } from "./values.js";

// The results of queries for an opened notice are used for a minute, unless the notice has a new release or
// this tab sent a command. An examination by another clerk has no release.
const KEPT = 60_000;
let kept = new Map();

/** From now on all notices are queried again. */
export function forgetStages() {
  kept = new Map();
}

/** The stage of an opened notice, with as few queries as possible: nginx limits them. `count` is the number of
 * its releases in the list. */
export async function stageOfOpened(name, count) {
  const isWhole = caller() !== null;
  const from = kept;
  let held = from.get(name);
  if (!held || held.count !== count || held.isWhole !== isWhole || Date.now() > held.since + KEPT) {
    held = { count, isWhole, since: Date.now(), seen: await openedOf(name) };
    from.set(name, held);
  }
  return stageOf(held.seen, officeNow());
}

async function openedOf(name) {
  const [compiled, own, text] = await Promise.all([record(name), terms(name), evaluationText(name, caller())]);
  const evaluation = evaluationOf(text, caller() !== null);
  const tenders = [...evaluation].flatMap(([lot, shown]) => [...shown.tenders].map(([receipt, { reading, price }]) =>
    ({ lot, receipt, reading, corrected: price })));
  return { compiled, terms: own, tenders, evaluation };
}

/** A moment (in milliseconds), as `shown` shows it, with the time until or since it in so many units. */
export function momentAndSpan(milliseconds, shown = when, units = 2) {
  const away = countdown(milliseconds, (place, seconds) => {
    place.textContent = seconds > 0 ? say("in", { span: span(seconds, units) }) : say("ago", { span: span(-seconds, units) });
    place.className = "quiet";
    return true;
  });
  return [shown(momentText(milliseconds) ?? ""), " ", away];
}

// Tasks whose moment is a deadline.
const DEADLINES = ["wait", "open"];

/** Whether a task is this clerk's own, or only a date. */
export function isOwn(task) {
  const roles = rolesOf(task);
  return roles.length === 0 || roles.some(may);
}

/** How many of these tasks are left to other roles, as a sentence; '' for none. */
export function othersText(all) {
  const others = all.filter((task) => !isOwn(task));
  const names = [...new Set(others.map((task) => rolesOf(task)[0]))].map((role) => say(`role.${role}`));
  return others.length === 0 ? "" : say("task.others", { count: others.length, roles: names.join(", ") });
}

/** The place of a task: its lot, or the opening. */
export function placeOfTask(name, { code, lot }) {
  return lot ? placeOf("notice", name, lot) : code === "open" ? placeOf("notice", name, "", "opening") : placeOf("notice", name);
}

/** A task or a date as a sentence. */
function sentence({ code, lot = "", count = 0, contract: number = "", until, since }) {
  const [shown, ...away] = momentAndSpan(until ?? since ?? 0, DEADLINES.includes(code) ? moment : when);
  const told = sayParts(`task.${code}`, { lot: given(lot), count, contract: number, until: shown, since: shown });
  return [told, told.includes(shown) ? away : []];
}

/** A task or a date as an entry of a list, which leads to its place. A task without a place is a warning. */
function entryOf(name, task, isTask) {
  const [told, away] = sentence(task);
  const isLinked = task.lot || task.code === "open";
  return element("li", isTask && !isLinked ? { class: "wrong" } : {}, isLinked ? link(told, placeOfTask(name, task)) : told, away);
}

/** The letters for lots that were awarded or ended without a contract. (Nothing records whether they were sent.) */
function lettersOf(name, { kind, lots }) {
  return lots.filter(({ state, tenders }) => hasText(`task.letters.${state}`) && (kind === "cancelled" || tenders.length > 0)).map(({ id, state }) =>
    element("li", {}, link(say(`task.letters.${state}`, { lot: id }), placeOf("letter", name, id))));
}

/** The next tasks of this clerk, as sentences, and those of others; and the dates to wait for. */
export function tasks(name, stage) {
  const now = officeNow();
  const all = tasksOf(stage, now);
  const own = all.filter(isOwn);
  const others = othersText(all);
  const made = own.filter((task) => !isFact(task, now)).map((task) => entryOf(name, task, true));
  return { todo: [...made, ...lettersOf(name, stage), ...(others ? [element("li", { class: "quiet" }, others)] : [])],
    dates: own.filter((task) => isFact(task, now)).map((task) => entryOf(name, task, false)) };
}
