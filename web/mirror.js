// What the mirror beside the office has of its public answers. The portal shows that while the office is
// away, and says of which moment it is.
import { rowsOf } from "./common/data.js";
import { element, link } from "./common/draw.js";
import { button, note, steps } from "./common/forms.js";
import { minute } from "./common/money.js";
import { Refused, file } from "./common/office.js";
import { say, sayParts } from "./common/texts.js";

// The file of each answer. Releases are a part of the record.
const FOLDERS = { record: ["records", "json"], releases: ["records", "json"], terms: ["terms", "json"], minutes: ["minutes", "txt"],
  evaluation: ["evaluations", "txt"] };
// When the mirror asked the office for what the present view shows; null if the view has nothing of it.
let asked = null;
// The mirror's own file, which has the moment; read once for each view.
let state = null;

/** A file of the mirror; null if there is none. */
async function read(path) {
  return file(`/data/${path}`).catch(() => null);
}

/** The answer about a notice. Without minutes and an evaluation nothing is opened. */
async function ofNotice(notice, kind) {
  const [folder, ending] = FOLDERS[kind];
  const text = await read(`${folder}/${notice}.${ending}`);
  if (text === null && ending === "txt" && await read(`records/${notice}.json`) !== null) {
    throw new Refused({ name: "NotOpened" });
  }
  return text !== null && kind === "releases" ? JSON.stringify({ releases: JSON.parse(text).records[0].releases }) : text;
}

/** The answer about a budget line, from the table of all. */
async function ofLine(name) {
  const row = rowsOf((await read("budget.csv")) ?? "").find(({ line }) => line === name);
  return row ? JSON.stringify(row) : null;
}

/** The text that the office gave for a path, or null. */
export async function fromMirror(path) {
  state ??= read("mirror.json").then((text) => JSON.parse(text ?? "null"));
  const known = await state;
  const text = known === null ? null : await answerOf(path);
  asked = text === null ? asked : known.moment;
  return text;
}

async function answerOf(path) {
  const [, notice, kind] = /^\/notices\/([^/?]+)\/([a-z]+)$/.exec(path) ?? [];
  const [, line] = /^\/lines\/([^/]+)$/.exec(path) ?? [];
  return path === "/ledger" ? read("ledger.txt") : line ? ofLine(line) : notice ? ofNotice(notice, kind)
    : path.startsWith("/notices") ? read("list.json") : null;
}

/** Draws a view, and says in it of which moment it is if it is the mirror's. `draw` draws it, and `again`
 * tries again. */
export async function ofItsMoment(draw, again) {
  [asked, state] = [null, null];
  const shown = await draw();
  const [head, ...rest] = shown.content;
  return asked === null ? shown : { ...shown, content: [head, note("look", say("see.away"), element("p", {}, sayParts("see.away.asked", { moment: minute(asked) })),
    steps(button(say("frame.again"), () => again()), link(say("see.about.contact"), "#about"))), rest] };
}
