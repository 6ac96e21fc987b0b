// The stage of a procurement and the tasks that are possible now, from its terms, record, minutes and
// evaluation. Runs in node too.
import { awardsOf, contractOf, paidOf } from "../common/findings.js";
import { ranked } from "../common/tenders.js";
import { DAY } from "./values.js";

/** The stage: its `kind` (`receiving` until the deadline, `due` after it, `opened`, or `cancelled` if it was
 * cancelled before the opening), the end of the tenders' validity, and the lots. */
export function stageOf({ compiled, terms, tenders, evaluation }, now) {
  const deadline = Date.parse(terms.deadline);
  const bindsUntil = deadline + terms.validity_days * DAY;
  const kind = terms.state === "receiving" ? (now < deadline ? "receiving" : "due") : terms.state;
  const byPoints = terms.criteria === "points";
  const lots = terms.lots.map((lot) => lotOf(lot, { compiled, terms, tenders: tenders ?? [], shown: evaluation?.get(lot.id) ?? null, byPoints }));
  const canCancel = lots.some(({ state }) => ["undecided", "awarded"].includes(state));
  return { kind, deadline, bindsUntil, isExpired: now >= bindsUntil, byPoints, lots, canCancel };
}

function lotOf(lot, { compiled, terms, tenders, shown, byPoints }) {
  const own = tenders.filter((one) => one.lot === lot.id).map((one) => ({ ...one, found: shown?.tenders.get(one.receipt) ?? null }));
  const active = awardsOf(compiled, lot).find(({ status }) => status === "active") ?? null;
  // (the money of a winner that was passed over stays reserved)
  return { ...lot, shown, active, contract: active ? contractOf(compiled, active) ?? null : null, tenders: ranked(own, byPoints, shown),
    reserved: awardsOf(compiled, lot).at(-1)?.value.amount ?? lot.estimate, hasStandstill: terms.standstill_days > 0,
    standstillUntil: active ? Date.parse(active.date) + terms.standstill_days * DAY : null };
}

/** Whether a tender can win. */
export function isAdmissible({ found }) {
  return found?.standing === "admissible";
}

/** Whether a tender isn't examined yet. */
export function isWaiting({ reading, found }) {
  return reading === "priced" && found?.answer === "-" && found.standing !== "failed";
}

/** The result of an award now: `waits` with the number of open examinations; `nobody`; `best` with the
 * tender; `unknown` if the evaluation isn't shown. The office decides. */
export function outlookOf({ tenders, shown }) {
  const waiting = tenders.filter(isWaiting);
  if (shown === null && tenders.length > 0) {
    return { code: "unknown" };
  }
  return waiting.length > 0 ? { code: "waits", count: waiting.length }
    : tenders.some(isAdmissible) ? { code: "best", tender: tenders.find(isAdmissible) } : { code: "nobody" };
}

/** The steps of a procurement, in order. */
export const STEPS = ["tenders", "opening", "examination", "award", "signing", "contract"];

/** The current step: that of the lot that is furthest back. `over` after the last step; null if the notice
 * was cancelled. */
export function stepOf({ kind, lots }) {
  if (kind !== "opened") {
    return { receiving: "tenders", due: "opening" }[kind] ?? null;
  }
  const places = lots.map((lot) => STEPS.indexOf(stepOfLot(lot))).filter((place) => place >= 0);
  return places.length > 0 ? STEPS[Math.min(...places)] : "over";
}

function stepOfLot({ state, tenders, contract }) {
  if (state === "undecided") {
    return tenders.some(isWaiting) ? "examination" : "award";
  }
  return state === "awarded" ? "signing" : state === "contracted" && contract?.status !== "terminated" ? "contract" : "over";
}

/** The moment when a task is due, or since when. An expired validity comes first; a task without a moment
 * comes last. */
function momentOf({ code, until, since }) {
  return code === "expired" ? 0 : until ?? since ?? Infinity;
}

/** The stage of a notice in the list. While it is open for tenders, the list's row is enough. */
export function stageOfEntry({ state, deadline, stage }) {
  return stage ?? { kind: state === "open" ? "receiving" : "due", deadline: Date.parse(deadline), lots: [] };
}

/** Notices in the order in which their first task is due, of the clerk's own ones. */
export function inOrder(entries, now, isOwn = () => true) {
  const due = (entry) => Math.min(...tasksOf(stageOfEntry(entry), now).filter(isOwn).map(momentOf));
  return entries.toSorted((one, other) => due(one) - due(other));
}

// The roles that each task concerns. The others are dates, for everybody.
const ROLES = { open: ["evaluation"], examine: ["evaluation"], award: ["evaluation"], endlot: ["evaluation"], sign: ["contracts"], unsigned: ["contracts"],
  contract: ["contracts"], end: ["contracts"], expired: ["notices", "evaluation", "contracts"] };

/** The roles that a task concerns, the one that acts first. */
export function rolesOf({ code }) {
  return ROLES[code] ?? [];
}

/** The next tasks for a notice: those that can be done now, then dates, each the earliest first. They are codes with a lot, a
 * contract or a moment. */
export function tasksOf(stage, now) {
  const { kind, deadline, bindsUntil, isExpired, lots } = stage;
  if (kind !== "opened") {
    return { receiving: [{ code: "wait", until: deadline }], due: [{ code: "open", since: deadline }], cancelled: [] }[kind];
  }
  const isBinding = lots.some(({ state }) => state === "undecided" || state === "awarded");
  return [...(isBinding ? [{ code: isExpired ? "expired" : "binds", until: bindsUntil }] : []), ...lots.flatMap((lot) => tasksOfLot(lot, now))]
    .sort((one, other) => DATES.indexOf(one.code) - DATES.indexOf(other.code) || momentOf(one) - momentOf(other));
}

/** The groups of notices, the most urgent first: a date has passed; something is to be done now or within seven
 * days; later; and only to wait. */
export const GROUPS = ["overdue", "week", "later", "waiting"];
const OVERDUE = ["open", "sign", "expired"], NOW = ["examine", "award", "endlot", "unsigned"], RUNNING = ["contract", "end"];
// Dates to wait for, in the order in which they are shown after the tasks.
const DATES = ["contract", "wait", "standstill", "binds"], CLOSE = 14 * DAY;

/** Whether a task is only a date to wait for. */
export function isDate(code) {
  return DATES.includes(code);
}

/** Whether a task is shown after the tasks, as a date. The end of the tenders' validity is a task from two weeks before it on. */
export function isFact({ code, until }, now) {
  return isDate(code) && (code !== "binds" || until - now >= CLOSE);
}

/** The group of a notice by those of its tasks that are this clerk's own, and the first of the tasks that put it there. */
export function workOf(stage, now, isOwn = () => true) {
  const all = tasksOf(stage, now).filter(isOwn);
  const first = (codes) => all.find(({ code }) => codes.includes(code));
  const tries = [["overdue", first(OVERDUE)], ["week", first(NOW) ?? all.find(({ until }) => until < now + 7 * DAY)], ["later", first(RUNNING)]];
  return tries.find(([, task]) => task) ?? ["waiting", all[0] ?? { code: "none" }];
}

export function groupOf(stage, now, isOwn = () => true) {
  return workOf(stage, now, isOwn)[0];
}

function tasksOfLot({ id, state, tenders, shown, contract, standstillUntil, hasStandstill }, now) {
  if (state === "undecided") {
    const { code, count } = outlookOf({ tenders, shown });
    return [code === "waits" ? { code: "examine", lot: id, count } : { code: code === "nobody" ? "endlot" : "award", lot: id }];
  }
  if (state === "awarded") {
    return [{ code: !hasStandstill ? "unsigned" : now >= standstillUntil ? "sign" : "standstill", lot: id, until: standstillUntil }];
  }
  if (state !== "contracted" || !contract || contract.status === "terminated") {
    return [];
  }
  return [{ code: paidOf(contract) < contract.value.amount ? "contract" : "end", lot: id, contract: contract.id }];
}
