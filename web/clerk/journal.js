// The journal of this desk's commands: one entry for each, a line of JSON with the digest of the line
// before it. Runs in node too.
import { bytesOf, sha256 } from "../common/digest.js";
import { textOf } from "./values.js";

const KIND = "procure clerk's journal";
const VERSION = 1;
const NONE = "0".repeat(64);

/** An empty journal, for the office at this address. */
export function newJournal(office) {
  return { office, entries: [], saved: 0 };
}

/** Adds an entry: the moment by the office's clock, the clerk's name, the request, and the answer. `answer`
 * is `{ status, text }`, or null if none came; `found` is the state that queries showed then. */
export async function addEntry(journal, { moment, who, title, method, path, body, answer, found }) {
  const bytes = body ?? new Uint8Array();
  const entry = { number: journal.entries.length + 1, moment, who, title, method, path, bytes: bytes.length, digest: await sha256(bytes),
    body: textOf(bytes), status: answer?.status ?? null, answer: answer?.text ?? null, found: found ?? null };
  journal.entries.push(entry);
  return entry;
}

/** The file of a journal: a header, a line for each entry, and a line that ends it. Each line holds the
 * digest of the line before it, so that changed or missing lines are found. The header has the reasons that
 * were typed for letters. */
export async function fileOf(journal) {
  let before = NONE;
  let text = "";
  const letters = Object.keys(journal.letters ?? {}).length > 0 ? { letters: journal.letters } : {};
  for (const part of [{ journal: KIND, version: VERSION, office: journal.office, ...letters }, ...journal.entries, { end: journal.entries.length }]) {
    const line = JSON.stringify({ ...part, before });
    text += `${line}\n`;
    before = await sha256(bytesOf(line));
  }
  return text;
}

/** The journal in a saved file, or the number of the first wrong line and why it is wrong (`none`, `chain`,
 * `body`, `end`). */
export async function readFile(text) {
  const lines = text.replace(/\n$/, "").split("\n");
  const journal = newJournal(null);
  let before = NONE;
  for (const [at, line] of lines.entries()) {
    const part = parsed(line);
    const wrong = at === 0 ? headFault(part) : at < lines.length - 1 ? await entryFault(part, before, at) : endFault(part, before, at - 1);
    if (wrong) {
      return { fault: { line: at + 1, code: wrong } };
    }
    [journal.office, journal.letters] = at === 0 ? [part.office, part.letters] : [journal.office, journal.letters];
    if (at > 0 && at < lines.length - 1) {
      const { before: _, ...entry } = part;
      journal.entries.push(entry);
    }
    before = await sha256(bytesOf(line));
  }
  journal.saved = journal.entries.length;
  return lines.length > 1 ? { journal } : { fault: { line: 2, code: "end" } };
}

function parsed(line) {
  try {
    return JSON.parse(line);
  } catch {
    return null;
  }
}

function headFault(part) {
  return part?.journal === KIND && part.version === VERSION && part.before === NONE ? null : "none";
}

async function entryFault(part, before, number) {
  if (typeof part?.path !== "string" || typeof part.digest !== "string") {
    return "none";
  }
  if (part.before !== before || part.number !== number) {
    return "chain";
  }
  return typeof part.body === "string" && (await sha256(bytesOf(part.body))) !== part.digest ? "body" : null;
}

function endFault(part, before, count) {
  return part?.end !== count ? "end" : part.before === before ? null : "chain";
}

/** Puts the entries of a saved journal before those of this tab, so that it continues. Null if the two belong
 * to different offices. */
export function joined(earlier, later) {
  if (later.office !== null && earlier.office !== later.office) {
    return null;
  }
  const known = new Set(earlier.entries.map(keyOf));
  const more = later.entries.filter((entry) => !known.has(keyOf(entry)));
  const entries = [...earlier.entries, ...more].map((entry, at) => ({ ...entry, number: at + 1 }));
  return { office: earlier.office, entries, saved: more.length === 0 ? entries.length : earlier.entries.length };
}

/** The members that distinguish one entry from another. */
function keyOf({ moment, method, path, digest, status, answer }) {
  return JSON.stringify([moment, method, path, digest, status, answer]);
}

/** Whether a command at this path was accepted, or its name was already used, as far as this journal shows. */
export function isUsed(journal, path) {
  return journal.entries.some((entry) => entry.path === path && (entry.status === 200 || entry.found === "done" || /"name":"Exists"/.test(entry.answer ?? "")));
}
