// The screen of the journal: the requests and answers of this desk; saves the journal as a file, and
// continues one from a file.
import { bytesOfFile, inGroups } from "../common/digest.js";
import { below, element, section, title } from "../common/draw.js";
import { button, drop, growing, note, printButton, save, steps } from "../common/forms.js";
import { minute } from "../common/money.js";
import { officeNow } from "../common/office.js";
import { say } from "../common/texts.js";
import { fileOf, joined, readFile } from "./journal.js";
import { FIRST } from "../common/many.js";
import { journal, reasons, replaceJournal, takeReasons } from "./session.js";
import { momentText, textOf } from "./values.js";

export function drawJournal(again) {
  const { entries, saved } = journal();
  const told = element("div", { role: "status" });
  const keep = button(say("journal.save"), async () => {
    save(`journal-${momentText(officeNow()).replace(/[-:]/g, "")}.jsonl`, await fileOf({ ...journal(), letters: reasons() }), "application/jsonl");
    journal().saved = entries.length;
    again();
  });
  keep.disabled = entries.length === 0;
  const take = async (file) => told.replaceChildren(await taken(textOf(await bytesOfFile(file)), again));
  const list = entries.length === 0 ? element("p", {}, say("journal.empty"))
    : growing(element("ol", { class: "entries" }), entries.toReversed(), entryPart, FIRST);
  return { title: say("page.journal"), content: [title(say("page.journal")), element("p", { class: "intro" }, say("journal.intro")),
    savedNote(entries.length, saved), steps(keep, printButton()),
    section(say("journal.take"), drop(say("journal.drop"), say("journal.drop.hint"), take, { accept: ".jsonl,application/jsonl" }), told),
    section(say("journal.entries"), list)] };
}

/** Whether closing the tab would lose entries. */
function savedNote(count, saved) {
  if (count === saved) {
    return count === 0 ? null : note("good", say("journal.saved"));
  }
  return note("look", say("journal.unsaved", { count: count - saved }), say("journal.unsaved.do"));
}

/** Puts the entries of a file before those of this tab. */
async function taken(text, again) {
  const { journal: earlier, fault } = text === null ? { journal: null, fault: { line: 1, code: "none" } } : await readFile(text);
  if (fault) {
    return note("bad", say(`journal.fault.${fault.code}`, { line: String(fault.line) }), say("journal.fault.do"));
  }
  if (earlier.office !== location.origin) {
    return note("bad", say("journal.other", { office: earlier.office }));
  }
  replaceJournal(joined(earlier, journal()));
  takeReasons(earlier.letters ?? {});
  again();
  return note("good", say("journal.taken", { count: earlier.entries.length }));
}

/** The result of an entry: a kind and a sentence. */
function outcome({ status, found }) {
  if (status === 200 || found === "done") {
    return ["right", say("journal.done")];
  }
  return ["wrong", found === null ? say("journal.refused", { status: String(status) }) : say(found === "not done" ? "journal.notdone" : "journal.unknown")];
}

function entryPart(entry) {
  const [kind, text] = outcome(entry);
  return element("li", { value: String(entry.number) }, element("b", {}, entry.title), " ", element("span", { class: kind }, text),
    below(minute(entry.moment), ` · ${entry.who}`),
    element("details", {}, element("summary", {}, say("journal.more")), element("p", { class: "code" }, `${entry.method} ${entry.path}`),
      element("p", { class: "quiet" }, say("journal.body", { bytes: entry.bytes }), " ", element("span", { class: "code" }, inGroups(entry.digest))),
      entry.body ? element("pre", { tabindex: "0" }, entry.body) : "",
      entry.answer ? element("pre", { tabindex: "0" }, entry.answer) : element("p", {}, say("journal.noanswer"))));
}
