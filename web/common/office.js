// The office: every request is made here, by one function for each query, so that a changed query changes
// only one file.
import { isId } from "./csv.js";
import { hasText, say } from "./texts.js";

const LONGEST = 90_000;
// How often a query is repeated that came too soon, and the least seconds to wait before that.
const TRIES = 60, PAUSE = 2;
let ahead = 0;

/** A request without a normal answer. `name` is the office's refusal, or empty; `what`, `status` and `text`
 * are as they came. `isOpen`: it isn't known whether a command was done. */
export class Refused extends Error {
  what; status; kind; wait; text;

  constructor({ name = "", what = "", status = 0, kind = "", wait = 0, text = "" }) {
    super(name || kind || String(status));
    Object.assign(this, { name, what, status, kind, wait, text });
  }

  get isOpen() {
    return this.kind === "away" || this.kind === "unread" || [500, 502, 503, 504].includes(this.status);
  }

  /** The refusal as a sentence, in the spoken language. */
  sentence() {
    const names = [`refusal.${this.name}.${this.what}`, `refusal.${this.name}`, `kind.${this.kind}`, `status.${this.status}`];
    const known = names.find(hasText);
    return known ? say(known) : say("status.other", { status: String(this.status) });
  }
}

/** Any fault as a sentence. If it isn't a refusal, the console shows more. */
export function sentenceOf(fault) {
  if (fault instanceof Refused) {
    return fault.sentence();
  }
  console.error(fault);
  return say("kind.fault");
}

/** The server's time in milliseconds: that of its last answer, plus what has passed since. */
export function officeNow() {
  return Date.now() + ahead;
}

function hearClock(answer) {
  const told = Date.parse(answer.headers.get("date") ?? "");
  ahead = Number.isNaN(told) ? ahead : told - Date.now();
}

/** The words of a refusal by the office. Anything else comes from nginx or from somewhere else. */
function refusalOf(answer, text) {
  let told = {};
  try {
    told = JSON.parse(text) ?? {};
  } catch {
    // Only the status is known.
  }
  const isOwn = typeof told.name === "string";
  return new Refused({ name: isOwn ? told.name : "", what: isOwn ? String(told.what ?? "") : "", status: answer.status,
    wait: Number(answer.headers.get("retry-after") ?? 0), text });
}

/** The text of an answer. A caller is `{ caller, key }`, or nothing for the public. Without a key it is somebody whom
 * nginx knows: the browser then sends the name and the password, or the certificate. */
async function send(path, /** @type {any} */ { method = "GET", caller = null, body = undefined, cache = "no-store", longest = LONGEST } = {}) {
  const isKnown = caller !== null && caller.key === null;
  const headers = caller ? { "Office-Caller": caller.caller, ...(isKnown ? {} : { "Office-Key": caller.key }) } : {};
  const credentials = isKnown ? "same-origin" : "omit";
  let answer, text;
  try {
    answer = await fetch(path, { method, headers, body, credentials, cache, redirect: "error", signal: /** @type {any} */ (AbortSignal).timeout(longest) });
    text = await answer.text();
  } catch {
    throw new Refused({ kind: "away" });
  }
  hearClock(answer);
  if (!answer.ok) {
    throw refusalOf(answer, text);
  }
  return text;
}

function pause(seconds) {
  return new Promise((done) => { setTimeout(done, seconds * 1000); });
}

// nginx keeps public answers for three whole seconds, so for four seconds after a command they can be older than it. It keeps the
// ledger for longer; the clerk gets the current one.
const KEPT = 4100;
let changed = 0;

/** If the office doesn't answer a public query in `longest` milliseconds, `find` gives a text for its path, or null. Only
 * the portal has more than this (mirror.js): the desks show what the office has now. */
export const substitute = { find: async (_path) => null, longest: LONGEST };

/** A query: repeated as long as nginx answers that queries come too fast. */
export async function look(path, caller = null) {
  const left = changed + KEPT - Date.now();
  if (caller === null && left > 0) {
    await pause(left / 1000);
  }
  for (let turn = 1; ; turn += 1) {
    try {
      return await send(path, { caller, longest: caller === null ? substitute.longest : LONGEST });
    } catch (fault) {
      const found = fault.isOpen && caller === null ? await substitute.find(path) : null;
      if (found !== null) {
        return found;
      }
      if (fault.status !== 429 || turn === TRIES) {
        throw fault;
      }
      await pause(Math.max(fault.wait, PAUSE));
    }
  }
}

export async function lookJson(path, caller = null) {
  return valueOf(await look(path, caller));
}

function valueOf(text) {
  try {
    return JSON.parse(text);
  } catch {
    throw new Refused({ kind: "unread" });
  }
}

/** A command: sent once, and never repeated by this code. Returns the office's answer as text and as a value. */
export async function command(path, caller, body = undefined) {
  try {
    return await commandOf(path, caller, body);
  } finally {
    changed = Date.now();
  }
}

/** A command of a tenderer. Before an opening it changes no public answer, so no query waits for it. */
async function commandOf(path, caller, body = undefined) {
  const text = await send(path, { method: "POST", caller, body });
  return { text, value: valueOf(text) };
}

/** An identifier as a part of a path. `.` and `..` are refused, because browsers treat them as folders. */
export function part(id) {
  if (!isId(id) || id === "." || id === "..") {
    throw new Refused({ kind: "id" });
  }
  return id;
}

// Queries for everybody.

/** The compiled record of a notice. */
export async function record(notice) {
  const compiled = (await lookJson(`/notices/${part(notice)}/record`)).records?.[0]?.compiledRelease;
  if (!compiled?.tender?.lots) {
    throw new Refused({ kind: "late" });
  }
  return compiled;
}

/** All rows of a list, fetched in pages of a hundred. */
async function listed(path, name, caller = null) {
  const found = [];
  let next = "";
  do {
    const page = await lookJson(`${path}${next && `?after=${next}`}`, caller);
    found.push(...page[name]);
    next = page.next;
  } while (next);
  return found;
}

/** All notices. */
export function notices() {
  return listed("/notices", "notices");
}

/** The terms of a notice. */
export async function terms(notice) {
  return lookJson(`/notices/${part(notice)}/terms`);
}

/** The evaluation of a notice as the office wrote it, with all lots for the clerk; null before the opening. */
export async function evaluationText(notice, caller = null) {
  return ifOpened(`/notices/${part(notice)}/evaluation`, caller);
}

/** A file beside the office, such as the mirror's: its text, or null if it doesn't exist. The browser caches
 * it, and asks whether it changed. */
export async function file(path) {
  try {
    return await send(path, { cache: "no-cache" });
  } catch (fault) {
    if (fault.status === 404) {
      return null;
    }
    throw fault;
  }
}

/** The releases of a notice, in order. */
export async function releases(notice) {
  return (await lookJson(`/notices/${part(notice)}/releases`)).releases ?? [];
}

/** The minutes of an opening as the office wrote them; null before the opening. */
export async function minutesText(notice) {
  return ifOpened(`/notices/${part(notice)}/minutes`);
}

async function ifOpened(path, caller = null) {
  try {
    return await look(path, caller);
  } catch (fault) {
    if (fault.name === "NotOpened") {
      return null;
    }
    throw fault;
  }
}

/** A budget line. For the clerk it is that of now, else it may be some seconds old. */
export async function line(name, caller = null) {
  return lookJson(`/lines/${part(name)}`, caller);
}

/** The ledger: a header, a line of column names, and one line for each budget line. The clerk gets the current one; for others it may be two minutes old. */
export async function ledger(caller = null) {
  const lines = (await look("/ledger", caller)).split("\n").slice(2).filter((text) => text !== "");
  return lines.map((text) => {
    const [name, ...amounts] = text.split("\t");
    const [appropriation, free, reserved, contracted, paid] = amounts.map(Number);
    return { line: name, appropriation, free, reserved, contracted, paid };
  });
}

// Queries for the parties concerned.

/** The caller's tender with a receipt. */
export async function tender(receipt, caller) {
  return lookJson(`/tenders/${Number(receipt)}`, caller);
}

/** The caller's tenders for a notice. */
export async function ownTenders(notice, caller) {
  return (await lookJson(`/notices/${part(notice)}/tenders`, caller)).tenders;
}

/** A contract, with its payments and changes. */
export async function contract(number, caller) {
  return lookJson(`/contracts/${Number(number)}`, caller);
}

/** A tender's security. */
export async function security(number, caller) {
  return lookJson(`/securities/${Number(number)}`, caller);
}

/** The performance security of a contract. */
export async function performance(contract, caller) {
  return lookJson(`/contracts/${Number(contract)}/security`, caller);
}

/** The register of a notice, as the office wrote it. */
export async function registerText(notice, caller) {
  return look(`/notices/${part(notice)}/register`, caller);
}

/** The tender securities of a notice. */
export async function securities(notice, caller) {
  return (await lookJson(`/notices/${part(notice)}/securities`, caller)).securities;
}

/** All tenderers. */
export function tenderers(caller) {
  return listed("/tenderers", "tenderers", caller);
}

// Commands of a tenderer.

/** Submits a tender's bytes for a lot. A security is `{ security, amount }`, or null. */
export async function present(notice, lot, bytes, named, caller) {
  const query = named ? `?${new URLSearchParams({ security: named.security, amount: String(named.amount) })}` : "";
  return commandOf(`/notices/${part(notice)}/lots/${part(lot)}/tenders${query}`, caller, bytes);
}

/** Replaces the bytes of a sealed tender. */
export function modify(receipt, bytes, caller) {
  return commandOf(`/tenders/${Number(receipt)}/modify`, caller, bytes);
}

export function withdraw(receipt, caller) {
  return commandOf(`/tenders/${Number(receipt)}/withdraw`, caller);
}
