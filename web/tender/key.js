// The key: reads it from its file, makes a new one, asks whether it is registered, and draws the sheet for
// the clerk.
import { isId } from "../common/csv.js";
import { bytesOf, bytesOfFile, inGroups, newKey, sha256 } from "../common/digest.js";
import { element, facts, given, link, section, title } from "../common/draw.js";
import { ID, areRight, button, drop, field, form, lineText, note, printButton, save, sheet, signs, steps } from "../common/forms.js";
import { sourceOf } from "../common/frame.js";
import { sentenceOf, tender } from "../common/office.js";
import { say } from "../common/texts.js";
import { putAway, session } from "./session.js";

/** The name and the key in a key file: two lines, as `curl -H @FILE` reads them. Null if there is none. */
export function keyIn(text) {
  const [, caller] = /^\ufeff?Office-Caller:[ \t]*(\S+)[ \t]*$/m.exec(text) ?? [];
  const [, key] = /^Office-Key:[ \t]*([!-~](?:[ -~]*[!-~])?)[ \t]*$/m.exec(text) ?? [];
  return caller && key && isId(caller) ? { caller, key } : null;
}

/** The content of a key file. */
export function keyFile({ caller, key }) {
  return `Office-Caller: ${caller}\nOffice-Key: ${key}\n`;
}

/** Reads a key file. Prices that were typed without a key stay. */
async function take(file, { redraw }) {
  const found = file.size <= 4096 ? keyIn(new TextDecoder().decode(await bytesOfFile(file))) : null;
  if (found) {
    session.caller && putAway();
    session.caller = found;
    session.registration.isSaved = session.registration.digest === await sha256(bytesOf(found.key));
  }
  redraw(found ? say("key.taken", { name: found.caller }) : say("key.noKey"), !found);
}

/** Whether the office knows the key: every answer except `BadKey` shows that. */
async function ask(where) {
  where.replaceChildren(note("look", say("key.asking")));
  try {
    await tender(1, session.caller);
  } catch (fault) {
    if (!["NoSuch", "NotYourTender"].includes(fault.name)) {
      where.replaceChildren(fault.name === "BadKey" ? note("look", say("key.unregistered"), say("key.unknown")) : note("bad", sentenceOf(fault)));
      return;
    }
  }
  where.replaceChildren(note("good", say("key.registered", { name: session.caller.caller })));
}

/** The place for the key file. */
export function keyPlace(context) {
  return drop(say("key.drop"), say("key.drop.hint"), (file) => take(file, context), { id: "key-file" });
}

function ofKey(context) {
  if (!session.caller) {
    return [element("p", {}, say("key.drop.why")), keyPlace(context),
      element("details", {}, element("summary", {}, say("key.lost")), element("p", {}, say("key.lost.what")))];
  }
  const answer = element("div", { "aria-live": "polite" });
  return [note("good", say("key.there", { name: session.caller.caller }), say("key.there.why")),
    session.registration.isSaved ? element("p", { class: "right" }, say("key.saved")) : null, answer,
    steps(link(say("tenders.title"), "#tenders", "button"), link(say("offer.title"), "#offer", "button"),
      button(say("key.ask"), () => ask(answer), "second", say("key.asking")), button(say("key.away"), () => { putAway(); context.redraw(say("key.away.done")); }, "second"))];
}

async function make(fields, context) {
  const { tenderer, name, address } = fields;
  if (!areRight([[tenderer, isId(tenderer.value()) ? "" : say("key.wrong.tenderer")], [name, lineText(name.value())], [address, lineText(address.value())]])) {
    return;
  }
  const key = newKey();
  const caller = tenderer.value();
  session.registration = { tenderer: caller, name: name.value(), address: address.value(), digest: await sha256(bytesOf(key)), isSaved: false };
  save(`${caller}.key`, keyFile({ caller, key }));
  putAway();
  context.redraw(say("key.made", { file: `${caller}.key` }));
}

function ofMaking(context) {
  const { registration } = session;
  const made = (name, more) => {
    const value = registration.typed?.[name] ?? registration[name];
    const one = field(say(`key.${name}`), { id: `key-${name}`, hint: say(`key.${name}.hint`), value, ...more });
    one.input.addEventListener("input", () => { registration.typed = { ...registration.typed, [name]: one.input.value }; });
    return one;
  };
  const fields = { tenderer: made("tenderer", ID), name: made("name", { autocapitalize: "words" }), address: made("address", { autocapitalize: "words" }) };
  return [element("p", {}, say("key.make.why")),
    form(say("key.new"), Object.values(fields).map((one) => one.made), say("key.make"), () => make(fields, context))];
}

/** The sheet for the clerk: the tenderer to register, and the key's SHA-256. */
function registrationSheet(context) {
  const { tenderer, name, address, digest } = session.registration;
  const file = `${JSON.stringify({ tenderer, name, address, key: digest })}\n`;
  const keep = button(say("key.sheet.save"), () => save(`registration-${tenderer}.json`, file, "application/json"), "second");
  const other = button(say("key.another"), () => {
    session.registration = { tenderer: "", name: "", address: "", digest: "" };
    context.redraw();
  }, "second");
  return [section(say("key.next"), element("ol", {}, ["give", "ask", "offer"].map((name) => element("li", {}, say(`key.next.${name}`))))),
    steps(printButton(), keep, other), sheet(element("h2", {}, say("key.sheet")), element("p", {}, say("key.sheet.why")),
    facts([[say("key.tenderer"), given(tenderer)], [say("key.name"), given(name)], [say("key.address"), given(address)]]),
    element("p", {}, say("key.sheet.digest")), element("p", { class: "code" }, inGroups(digest)), element("p", { class: "quiet" }, sourceOf()),
    signs(say("key.sheet.sign.tenderer"), say("key.sheet.sign.clerk")))];
}

/** The view of the key. */
export function drawKey(context) {
  const { registration } = session;
  const isMade = registration.digest !== "";
  return { title: say("key.title"), isSheet: isMade, content: [title(say("key.title")),
    isMade && !registration.isSaved ? note("look", say("key.dropMade", { file: `${registration.tenderer}.key` }), say("key.dropMade.why")) : null,
    section(say("key.use"), ofKey(context)), session.caller || isMade ? null : section(say("key.new"), ofMaking(context)),
    isMade ? registrationSheet(context) : null] };
}
