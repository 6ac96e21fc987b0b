// A notice before its publication: the body of the request, what the office would refuse, and warnings. Runs
// in node too.
import { isId, lineFault } from "../common/csv.js";
import { bytesOf } from "../common/digest.js";
import { DAY, MOST, isAskable, localMilliseconds, localText, momentText, oddHour, wholeNumber } from "./values.js";

/** The empty draft. All its values are texts, as they are typed, except for the deadline, which is in
 * milliseconds; `typed` is the local time that was typed for it. */
export function newDraft() {
  return { name: "", title: "", deadline: null, typed: "", validity: "90", standstill: "10", criteria: "price", weight: "60", late: "refused", performance: "0",
    lots: [newLot("L1")] };
}

export function newLot(id) {
  return { id, title: "", line: "", estimate: "", security: "0", items: [{ id: "I1", title: "", quantity: "" }] };
}

/** The draft in a value, such as that of a file; null if there is none. */
export function draftIn(told) {
  const texts = (own, value) => Object.fromEntries(Object.keys(own).map((name) => [name, typeof value?.[name] === "string" ? value[name] : own[name]]));
  if (!Array.isArray(told?.lots)) {
    return null;
  }
  const { lots: [lot], deadline: _, ...own } = newDraft();
  const { items: [item], ...ofLot } = lot;
  return { ...texts(own, told), deadline: Number.isFinite(told.deadline) ? told.deadline : null,
    lots: told.lots.map((one) => ({ ...texts(ofLot, one), items: (Array.isArray(one?.items) ? one.items : []).map((it) => texts(item, it)) })) };
}

/** A number for the body, or the unchanged text, which the faults then report. */
function numeric(text) {
  return wholeNumber(text, 0, 10 ** 15) ?? text;
}

/** The body of the publication. Its members are in the order in which the office checks them. `deadline` is
 * in milliseconds, or null. */
export function bodyOf(draft) {
  const byPoints = draft.criteria === "points";
  return {
    title: draft.title, deadline: draft.deadline === null ? "" : (momentText(draft.deadline) ?? ""), validity_days: numeric(draft.validity),
    standstill_days: numeric(draft.standstill), criteria: draft.criteria, ...(byPoints ? { price_weight: numeric(draft.weight) } : {}),
    late_withdrawal: draft.late, performance: numeric(draft.performance),
    lots: draft.lots.map(({ id, title, line, estimate, security, items }) => ({ id, title, line, estimate: numeric(estimate), security: numeric(security),
      items: items.map((item) => ({ id: item.id, title: item.title, quantity: numeric(item.quantity) })) })),
  };
}

/** The bytes of the body, as they are sent. */
export function bodyBytes(draft) {
  return bytesOf(JSON.stringify(bodyOf(draft)));
}

/** The reasons for which the office would refuse, in its order. A fault has the field, a code and values.
 * `lines` are the existing budget lines; `now` is the office's time. */
export function faultsOf(draft, lines, now) {
  const found = [...headFaults(draft), ...draft.lots.flatMap((lot, at) => lotFaults(draft, lot, `lots.${at}`))];
  if (draft.lots.length === 0) {
    found.push({ field: "lots", code: "lots.none" });
  }
  if (bodyBytes(draft).length > MOST.body) {
    found.push({ field: "lots", code: "size", value: bodyBytes(draft).length });
  }
  found.push(...lineFaults(draft, lines));
  if (draft.deadline !== null && draft.deadline <= now) {
    found.push({ field: "deadline", code: "deadline.passed" });
  }
  found.push(...moneyFaults(draft, lines), ...limitFaults(draft));
  return found;
}

function headFaults(draft) {
  const range = (field, least, most) => (wholeNumber(draft[field], least, most) === null ? [{ field, code: "number", least, most, value: draft[field] }] : []);
  return [
    ...(isAskable(draft.name) ? [] : [{ field: "name", code: "name", value: draft.name }]),
    ...textFaults("title", draft.title),
    ...(draft.deadline === null || momentText(draft.deadline) === null ? [{ field: "deadline", code: "deadline" }] : []),
    ...range("validity", 1, MOST.validity), ...range("standstill", 0, MOST.standstill),
    ...(draft.criteria === "points" ? range("weight", 1, 100) : []), ...range("performance", 0, MOST.amount),
  ];
}

function textFaults(field, text) {
  const code = lineFault(text);
  return code ? [{ field, code: `text.${code}`, value: bytesOf(text).length }] : [];
}

function lotFaults(draft, lot, at) {
  const range = (field, text, least, most) => (wholeNumber(text, least, most) === null ? [{ field, code: "number", least, most, value: text }] : []);
  const ids = draft.lots.map(({ id }) => id);
  return [
    ...idFaults(`${at}.id`, lot.id, ids), ...textFaults(`${at}.title`, lot.title),
    ...(isId(lot.line) ? [] : [{ field: `${at}.line`, code: lot.line === "" ? "line.none" : "id", value: lot.line }]),
    ...range(`${at}.estimate`, lot.estimate, 1, MOST.amount), ...range(`${at}.security`, lot.security, 0, MOST.amount),
    ...(lot.items.length === 0 ? [{ field: `${at}.items`, code: "items.none" }] : []),
    ...lot.items.flatMap((item, each) => [
      ...idFaults(`${at}.items.${each}.id`, item.id, lot.items.map(({ id }) => id)), ...textFaults(`${at}.items.${each}.title`, item.title),
      ...range(`${at}.items.${each}.quantity`, item.quantity, 1, MOST.quantity)]),
  ];
}

function idFaults(field, id, all) {
  const again = all.filter((one) => one === id).length > 1;
  return isId(id) ? (again ? [{ field, code: "again", value: id }] : []) : [{ field, code: "id", value: id }];
}

function lineFaults(draft, lines) {
  return draft.lots.flatMap(({ line }, at) => (isId(line) && !lines.has(line) ? [{ field: `lots.${at}.line`, code: "line.unknown", value: line }] : []));
}

/** How much the lots need from each budget line together. */
export function wantedOf(draft) {
  const wanted = new Map();
  for (const { line, estimate } of draft.lots) {
    wanted.set(line, (wanted.get(line) ?? 0) + (wholeNumber(estimate, 1, MOST.amount) ?? 0));
  }
  return wanted;
}

function moneyFaults(draft, lines) {
  return [...wantedOf(draft)].flatMap(([line, amount]) => (lines.has(line) && amount > lines.get(line).free
    ? [{ field: `lots.${draft.lots.findIndex((lot) => lot.line === line)}.estimate`, code: "money", value: line, amount, free: lines.get(line).free }] : []));
}

function limitFaults(draft) {
  const many = draft.lots.findIndex(({ items }) => items.length > MOST.items);
  return [
    ...(draft.lots.length > MOST.lots ? [{ field: "lots", code: "lots.many", value: draft.lots.length }] : []),
    ...(many >= 0 ? [{ field: `lots.${many}.items`, code: "items.many", value: draft.lots[many].items.length }] : [])];
}

/** Warnings about allowed but unusual values, as codes with values. */
export function warningsOf(draft, now) {
  const validity = wholeNumber(draft.validity, 1, MOST.validity);
  const standstill = wholeNumber(draft.standstill, 0, MOST.standstill);
  return [...timeWarnings(draft, now), ...termWarnings(draft, validity, standstill), ...itemWarnings(draft)];
}

const NEAR_DAYS = 15;
const EXAMINATION_DAYS = 14;
// Prices are in whole units of the currency. Below this price a unit, rounding is a matter of percents.
const LEAST_PRICE = 20;

function timeWarnings({ deadline, typed }, now) {
  if (deadline === null || deadline <= now) {
    return [];
  }
  const days = Math.floor((deadline - now) / DAY);
  const local = new Date(deadline);
  const shown = localMilliseconds(typed ?? "") === deadline ? typed : localText(deadline);
  const odd = oddHour(shown);
  const isAtWork = ![0, 6].includes(local.getDay()) && local.getHours() >= 8 && local.getHours() < 18;
  return [...(days < NEAR_DAYS ? [{ code: "near", value: (deadline - now) / 1000, least: NEAR_DAYS }] : []),
    ...(isAtWork ? [] : [{ code: "hour" }]), ...(odd ? [{ code: `hour.${odd}`, value: shown.slice(11), amount: localText(deadline).slice(11) }] : [])];
}

function termWarnings(draft, validity, standstill) {
  const found = [];
  if (standstill === 0) {
    found.push({ code: "standstill.none" });
  }
  if (validity !== null && standstill !== null && validity <= standstill) {
    found.push({ code: "validity.never", value: validity, amount: standstill });
  } else if (validity !== null && standstill !== null && validity < 2 * standstill + EXAMINATION_DAYS) {
    found.push({ code: "validity", value: validity, amount: standstill, least: 2 * standstill + EXAMINATION_DAYS });
  }
  if (draft.criteria === "points" && draft.weight === "100") {
    found.push({ code: "weight" });
  }
  const performance = wholeNumber(draft.performance, 1, MOST.amount);
  const least = Math.min(...draft.lots.map(({ estimate }) => wholeNumber(estimate, 1, MOST.amount) ?? Infinity));
  if (performance !== null && performance * 5 > least) {
    found.push({ code: "performance", value: performance, least });
  }
  return found;
}

function itemWarnings(draft) {
  const items = draft.lots.flatMap(({ items: own }) => own);
  const odd = items.find(({ id }) => isId(id) && !/^[A-Za-z]/.test(id));
  const dear = draft.lots.find(({ estimate, security }) => wholeNumber(security, 1, MOST.amount) * 20 > (wholeNumber(estimate, 1, MOST.amount) ?? Infinity));
  const size = bodyBytes(draft).length;
  const cheap = draft.lots.flatMap(({ id, estimate, items: own }) => own.filter(({ quantity }) => isCheap(estimate, quantity)).map((item) => [id, item.id]));
  return [...(cheap.length > 0 ? [{ code: "cents", value: cheap[0].join("/"), amount: cheap.length, least: LEAST_PRICE }] : []),
    ...(odd ? [{ code: "item.id", value: odd.id }] : []), ...(dear ? [{ code: "security", value: dear.id }] : []),
    ...(size > MOST.body * 0.9 && size <= MOST.body ? [{ code: "size", value: size }] : [])];
}

/** Whether a lot's estimate leaves less than that for each unit of an item. */
function isCheap(estimate, quantity) {
  const [sum, count] = [wholeNumber(estimate, 1, MOST.amount), wholeNumber(quantity, 1, MOST.quantity)];
  return sum !== null && count !== null && sum < LEAST_PRICE * count;
}

/** A draft from the terms of an earlier notice. */
export function draftOf({ title, validity_days: validity, standstill_days: standstill, criteria, price_weight: weight, late_withdrawal: late, ...more }) {
  const lots = more.lots.map(({ id, title: text, line, estimate, security, items }) => ({ id, title: text, line, estimate: String(estimate),
    security: String(security), items: items.map((item) => ({ ...item, quantity: String(item.quantity) })) }));
  return { name: "", title, deadline: null, typed: "", validity: String(validity), standstill: String(standstill), criteria, weight: String(weight ?? 60), late,
    performance: String(more.performance), lots };
}
