// The draft of a notice as a whole: begun from an earlier notice or from a saved file, saved as a file, and
// brought back after it was replaced.
import { bytesOfFile } from "../common/digest.js";
import { element } from "../common/draw.js";
import { button, drop, field, note, save, steps } from "../common/forms.js";
import { terms as termsOf } from "../common/office.js";
import { say } from "../common/texts.js";
import { draftIn, draftOf } from "./notice.js";
import { draftSaved, formerDraft, keepDraft, keepFormer } from "./session.js";
import { textOf } from "./values.js";

const KIND = "procure draft";

/** Ways to begin: a copy of an earlier notice, a saved draft, and the draft that was replaced last. */
export function beginnings({ list, again }) {
  return [former(again), list.length === 0 ? null : earlier(list, again), fromFile(again)];
}

/** Copies a notice that was published before. */
function earlier(list, again) {
  const options = list.toSorted((one, other) => (one.published < other.published ? 1 : -1)).map(({ notice, title: text }) => [notice, `${notice}: ${text}`]);
  const chosen = field(say("see.notice"), { kind: "choice", options, value: options[0][0] });
  const take = button(say("editor.take"), async () => {
    keepDraft(draftOf(await termsOf(chosen.value())));
    again();
  }, "second");
  return element("details", {}, element("summary", {}, say("editor.fromearlier")), chosen.made, steps(take));
}

/** Opens a saved draft. */
function fromFile(again) {
  const told = element("div", { "aria-live": "polite" });
  const take = async (file) => {
    const found = draftFile(textOf(await bytesOfFile(file)) ?? "");
    if (found) {
      keepDraft(found);
      again();
    } else {
      told.replaceChildren(note("bad", say("draft.unread")));
    }
  };
  return element("details", {}, element("summary", {}, say("draft.open")),
    drop(say("draft.drop"), say("draft.drop.hint"), take, { accept: ".json,application/json" }), told);
}

function draftFile(text) {
  try {
    const told = JSON.parse(text);
    return told?.kind === KIND ? draftIn(told.draft) : null;
  } catch {
    return null;
  }
}

/** The draft that was replaced or cleared last. */
function former(again) {
  if (!formerDraft()) {
    return null;
  }
  const settle = (draft) => () => {
    keepFormer(draft);
    again();
  };
  return note("look", say("draft.former"), steps(button(say("draft.back"), settle(formerDraft()), "second"),
    button(say("draft.drop.former"), settle(null), "second")));
}

/** The button that saves the draft. */
export function saving(draft) {
  return button(say("draft.save"), () => {
    save(`draft-${draft.name.replace(/[^A-Za-z0-9_.-]/g, "") || "notice"}.json`, JSON.stringify({ kind: KIND, draft }, null, 1), "application/json");
    draftSaved();
  }, "second");
}
