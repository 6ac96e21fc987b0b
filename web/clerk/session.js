// The data that only this tab has: the key, the clerk's name, the journal and a draft. Nothing of it is
// stored. Only the draft and the reasons in letters are also in this tab's history: a reload keeps them.
import { Refused, lookJson, registerText } from "../common/office.js";
import { newJournal } from "./journal.js";

const session = { caller: null, who: "", way: "key", roles: [], journal: newJournal(globalThis.location?.origin ?? null), draft: null, isUnsaved: false, former: null,
  place: "", reasons: new Map(), isUnprinted: false };

export function journal() {
  return session.journal;
}

export function replaceJournal(other) {
  session.journal = other;
}

/** The caller of the clerk's requests, or null if the tab holds no key. */
export function caller() {
  return session.caller;
}

export function who() {
  return session.who;
}

/** Holds a key, if the office accepts it. To test it, the tab queries the register of a notice that can't
 * exist. Throws what the office refuses. */
export async function holdKey(key, name) {
  const asked = { caller: "clerk", key };
  try {
    await registerText("-", asked);
  } catch (fault) {
    if (!(fault instanceof Refused) || fault.name !== "NoSuch") {
      throw fault;
    }
  }
  session.caller = asked;
  session.who = name;
}

/** Asks nginx who has signed in by name, if clerks do. Then the tab needs no key. */
export async function signIn() {
  const known = { caller: "clerk", key: null };
  try {
    const { name, roles: own } = await lookJson("/front/who", known);
    Object.assign(session, { caller: known, who: name, way: "name", roles: own.split(" ") });
  } catch (fault) {
    session.way = fault.status === 401 || fault.status === 403 ? "nobody" : "key";
  }
}

/** How clerks come: with the `key`, by `name`, or as `nobody`, if clerks sign in and this one hasn't, or has no role. */
export function way() {
  return session.way;
}

export function roles() {
  return session.roles;
}

/** Whether this clerk may give the commands of a role. The key is for all of them. */
export function may(role) {
  return session.way !== "name" || session.roles.includes(role) || session.roles.includes("all");
}

export function forgetKey() {
  session.caller = null;
}

/** Remembers the view before the key is asked for, to return to it. */
export function keepPlace(hash) {
  session.place = hash;
}

export function placeBefore() {
  return session.place;
}

/** The draft of a notice. It stays while other screens are shown, and after a reload. */
export function draft() {
  return session.draft;
}

/** Replaces the draft. One that isn't saved can be brought back. */
export function keepDraft(other) {
  session.former = session.isUnsaved ? session.draft : session.former;
  session.draft = other;
  session.isUnsaved = false;
  write();
}

/** The draft has changed. Browsers limit how often a page may write into its history. */
export function touchDraft() {
  session.isUnsaved = true;
  timer ??= setTimeout(write, BETWEEN);
}

/** The draft was saved as a file, or published. */
export function draftSaved() {
  session.isUnsaved = false;
  write();
}

/** The draft that was replaced without being saved, or null. */
export function formerDraft() {
  return session.former;
}

/** Brings it back; null: it isn't needed any more. */
export function keepFormer(other) {
  if (other) {
    [session.former, session.draft, session.isUnsaved] = [null, other, true];
    write();
  }
  session.former = null;
}

/** The reason that was typed for a letter. */
export function reasonOf(letter) {
  return session.reasons.get(letter) ?? "";
}

/** All of them, by letter. */
export function reasons() {
  return Object.fromEntries(session.reasons);
}

/** Takes those of a saved journal, except for letters whose reason was typed since. */
export function takeReasons(saved) {
  session.reasons = new Map([...Object.entries(saved), ...session.reasons]);
}

/** Keeps it. Until something is printed, the page asks before it is lost. */
export function keepReason(letter, text) {
  session.reasons.set(letter, text);
  session.isUnprinted = true;
  timer ??= setTimeout(write, BETWEEN);
}

// Milliseconds between two writings of the draft into the history.
const BETWEEN = 400;
let timer = null;

/** Writes the draft into the current entry of the tab's history. */
function write() {
  clearTimeout(timer);
  timer = null;
  const { draft: own, isUnsaved, reasons, isUnprinted } = session;
  globalThis.history?.replaceState({ ...history.state, draft: own, isUnsaved, reasons: [...reasons], isUnprinted }, "");
}

const before = globalThis.history?.state;
if (Array.isArray(before?.draft?.lots)) {
  [session.draft, session.isUnsaved] = [before.draft, before.isUnsaved === true];
}
if (Array.isArray(before?.reasons)) {
  [session.reasons, session.isUnprinted] = [new Map(before.reasons), before.isUnprinted === true];
}
globalThis.addEventListener?.("afterprint", () => { session.isUnprinted = false; });
// (each view has an entry of its own)
globalThis.addEventListener?.("hashchange", write);
globalThis.addEventListener?.("pagehide", () => timer !== null && write());
// A reload by its keys keeps the draft. It counts as one for so many milliseconds.
const RELOAD = 1000;
let reloaded = -RELOAD;
globalThis.addEventListener?.("keydown", ({ key, ctrlKey, metaKey, timeStamp }) => {
  reloaded = key === "F5" || ((ctrlKey || metaKey) && key.toLowerCase() === "r") ? timeStamp : reloaded;
});
globalThis.addEventListener?.("beforeunload", (event) => {
  const isDraftLost = (session.isUnsaved || session.isUnprinted) && event.timeStamp >= reloaded + RELOAD;
  if (session.journal.entries.length > session.journal.saved || isDraftLost) {
    event.preventDefault();
  }
});
