// The clerk's key: a file that is dropped here, checked at the office, and held only by this tab. It is never
// typed, so no browser offers to save it.
import { bytesOfFile } from "../common/digest.js";
import { element, title } from "../common/draw.js";
import { areRight, drop, field, form, note } from "../common/forms.js";
import { sentenceOf } from "../common/office.js";
import { say } from "../common/texts.js";
import { holdKey, placeBefore, who } from "./session.js";
import { textOf } from "./values.js";

/** A key from a file for curl, or the bare key; null if the text is none. */
function keyIn(text) {
  const key = /^Office-Key:\s*(\S.*?)\s*$/im.exec(text)?.[1] ?? text.trim();
  return /^[\x21-\x7e]{1,200}$/.test(key) ? key : null;
}

export function drawKey() {
  const name = field(say("key.name"), { hint: say("key.name.hint"), maxlength: "100", value: who() });
  const place = element("div", { "aria-live": "polite" });
  const tell = (...notes) => place.replaceChildren(...notes);
  let key = null;
  const take = async (file) => {
    key = keyIn(textOf(await bytesOfFile(file)) ?? "");
    tell(key === null ? note("bad", say("key.key.wrong")) : note("good", say("key.read", { file: file.name }), say("key.read.more")));
  };
  const hold = async () => {
    if (!areRight([[name, name.value() === "" ? say("key.name.wrong") : ""]])) {
      return;
    }
    if (key === null) {
      tell(note("bad", say("key.missing")));
      return;
    }
    tell(note("look", say("key.asking")));
    try {
      await holdKey(key, name.value());
      location.hash = placeBefore() || "#today";
    } catch (fault) {
      tell(note("bad", sentenceOf(fault), say("key.wrong.more")));
    }
  };
  return { title: say("key.title"), content: [title(say("key.title")), element("p", { class: "intro" }, say("key.intro")),
    form(say("key.title"), [name.made, drop(say("key.key"), say("key.key.hint"), take), place], say("key.hold"), hold),
    note("look", say("key.care"), say("key.care.more"))] };
}
