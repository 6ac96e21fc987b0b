// The window of a command: shows the request, asks for confirmation, sends it once, and keeps the answer in
// the journal. If no answer comes, queries find out what happened.
import { bytesOf, inGroups, sha256 } from "../common/digest.js";
import { element } from "../common/draw.js";
import { ID, button, field, note, steps, tick } from "../common/forms.js";
import { moment } from "../common/money.js";
import { Refused, command, officeNow, sentenceOf } from "../common/office.js";
import { hasText, say } from "../common/texts.js";
import { addEntry } from "./journal.js";
import { touch } from "./idle.js";
import { forgetStages } from "./load.js";
import { caller, journal, way, who } from "./session.js";
import { momentText, textOf } from "./values.js";

const LONGEST_SHOWN = 6000;

/** Shows an order and sends it. `kind` names its texts and `values` fill them; `says` lists what it will do;
 * `path` and `body` (bytes, or null) are sent. An `isFinal` order can't be undone and is confirmed by a
 * tick; one with a `word` by typing the word. `shows(leave)` makes more content; `leave` closes the window. An
 * `isSad` order isn't shown in green when it is done. `told(answer)` makes the sentence of the result, if the
 * text of the kind isn't enough. `find` queries whether an unanswered order was done
 * (true, false, or null if unknown). `again` is the refusal that proves it when the same request is sent
 * again; null if that would do it twice. An order with `orders` sends these one after another. Returns the
 * office's answer if it is done, else null. */
export function send(order) {
  return new Promise((finish) => {
    const dialog = element("dialog", { class: "order", "aria-labelledby": "order-title" });
    // `isOpen`: the last request got no answer.
    const state = { order, dialog, isBusy: false, isOpen: false, entry: null, value: null };
    dialog.addEventListener("cancel", (event) => state.isBusy && event.preventDefault());
    dialog.addEventListener("close", () => {
      dialog.remove();
      finish(state.value);
    });
    document.body.append(dialog);
    drawAsked(state);
    dialog.showModal();
  });
}

/** Says that this tab holds no key, if so. */
function hasNoKey(state) {
  if (caller() === null) {
    draw(state, note("bad", ...(way() === "key" ? [say("order.nokey"), say("order.nokey.do")] : [say("signed.nobody")])), [closing(state)]);
  }
  return caller() === null;
}

/** Shows an order, and calls `behind` if it was done. */
export async function sendThen(order, behind) {
  if (await send(order)) {
    behind();
  }
}

/** Shows content that is read out, and more below it that isn't. */
function draw(state, content, buttons, more = []) {
  const { kind, values = {} } = state.order;
  const status = element("div", { role: "status" }, content);
  state.dialog.replaceChildren(element("h2", { id: "order-title", tabindex: "-1" }, say(`order.${kind}.title`, values)), status,
    ...[more].flat(Infinity).filter(Boolean), steps(buttons));
}

function closing(state, text = say("order.close")) {
  return button(text, () => state.dialog.close(), "second");
}

/** The request, and the button that sends it. */
async function drawAsked(state) {
  const { order } = state;
  if (hasNoKey(state)) {
    return;
  }
  const sure = confirmation(order);
  const sending = button(say(`order.${order.kind}.send`), () => (order.orders ? transmitAll(state) : transmit(state)), order.isFinal || order.word ? "harm" : "");
  sending.disabled = sure !== null;
  const why = sure ? element("p", { id: "order-why", class: "quiet" }, say(order.word ? "order.why.word" : "order.why.tick")) : null;
  sure?.input.addEventListener("input", () => {
    sending.disabled = !sure.isGiven();
    why.hidden = sure.isGiven();
  });
  sure && sending.setAttribute("aria-describedby", "order-why");
  const says = element("ul", {}, order.says.map((part) => element("li", {}, part)));
  const request = await (order.orders ? requestsShown(order.orders) : requestShown(order));
  draw(state, says, [sure?.made, why, sending, closing(state, say("order.back"))].filter(Boolean), [order.shows?.(() => state.dialog.close()), request]);
  // (a window with much to read begins at its top)
  (order.shows ? state.dialog.querySelector("h2") : sure?.input ?? sending).focus();
}

/** The confirmation: a tick, a word to type, or null if the order can be undone. */
function confirmation(order) {
  if (order.word) {
    const typed = field(say("order.word", { word: order.word }), ID);
    return { ...typed, isGiven: () => typed.value() === order.word };
  }
  if (order.isFinal) {
    const ticked = tick(say("order.final"), () => {});
    return { ...ticked, isGiven: () => ticked.input.checked };
  }
  return null;
}

/** The request without the key. It is folded, because the sentences above it say the same in plain words. */
async function requestShown(order) {
  const bytes = order.body ?? new Uint8Array();
  const digest = await sha256(bytes);
  const text = textOf(bytes) ?? say("order.notext");
  const head = `POST ${order.path}\nOffice-Caller: clerk\n${way() === "key" ? "Office-Key: ••••••\n" : ""}Content-Length: ${bytes.length}`;
  const body = text.length > LONGEST_SHOWN ? `${text.slice(0, LONGEST_SHOWN)}\n${say("order.more", { count: text.length - LONGEST_SHOWN })}` : text;
  const whole = bytes.length > 0 ? `${head}\n\n${body}` : head;
  return folded(say("order.request"), whole, element("p", { class: "quiet" }, say("order.digest"), " ", element("span", { class: "code" }, inGroups(digest))));
}

/** Several requests without the key, a line each. */
function requestsShown(orders) {
  return folded(say("order.request"), orders.map(({ path, body }) => `POST ${path} ${textOf(body ?? new Uint8Array())}`).join("\n"));
}

/** Sends the commands of an order one after another, each with its own entry in the journal. Stops at the
 * first one that isn't done: the rest stays unsent. */
async function transmitAll(state) {
  const { orders, kind } = state.order;
  if (hasNoKey(state)) {
    return;
  }
  const parts = [];
  let last = null;
  state.isBusy = true;
  while (parts.length < orders.length && (last === null || last.isDone)) {
    draw(state, element("p", {}, say("order.sending.of", { number: parts.length + 1, count: orders.length })), []);
    last = await transmitted(orders[parts.length]);
    parts.push(last);
  }
  state.isBusy = false;
  const done = parts.filter(({ isDone }) => isDone).length;
  const list = element("ol", {}, parts.map((part) => element("li", {}, partText(part))));
  const unsent = orders.length - parts.length;
  state.value = done > 0 ? { done } : null;
  draw(state, last.isDone ? note("good", say(`order.${kind}.done`, { count: done }), list, keptPart())
    : note("bad", say("order.stopped", { done, count: done }), list, unsent > 0 ? say("order.unsent", { count: unsent }) : "", say("order.stopped.do"),
      keptPart()), [closing(state)]);
  focusFirst(state);
}

/** Sends one of several commands. If no answer came, queries find out what happened. */
async function transmitted(order) {
  const part = { order, isOpen: false, entry: null };
  const outcome = await outcomeOf(order).finally(forgetStages);
  await keep(part, outcome);
  if (part.isOpen) {
    const found = await foundOf(order);
    part.entry.found = found === true ? "done" : found === false ? "not done" : "unknown";
  }
  return { ...part, fault: outcome.fault, isDone: Boolean(outcome.value) || part.entry.found === "done" };
}

/** The result of one of several commands. */
function partText({ order, entry, fault, isDone }) {
  const name = say(`order.${order.kind}.title`, order.values);
  const advice = `order.${order.kind}.after.${fault?.name}`;
  const why = isDone ? say("journal.done") : entry.found ? say(entry.found === "not done" ? "order.found.not" : "order.found.unknown")
    : [sentenceOf(fault), hasText(advice) ? say(advice) : ""].filter(Boolean).join(" ");
  return [name, ": ", element("b", { class: isDone ? "right" : "wrong" }, why), element("span", { class: "quiet below" },
    say("order.kept", { number: String(entry.number) }))];
}

/** Sends the command, and keeps the answer. */
async function transmit(state) {
  const { order } = state;
  if (hasNoKey(state)) {
    return;
  }
  state.isBusy = true;
  draw(state, element("p", {}, say("order.sending")), []);
  const outcome = await outcomeOf(order).finally(forgetStages);
  state.isBusy = false;
  await keep(state, outcome);
  if (outcome.value) {
    drawDone(state, outcome);
  } else if (outcome.fault instanceof Refused && outcome.fault.isOpen) {
    await drawOpen(state, outcome.fault);
  } else {
    drawRefused(state, outcome.fault);
  }
}

/** The office's answer and its value, or the fault.
 * @returns {Promise<any>} */
async function outcomeOf({ path, body }) {
  touch();
  try {
    const { text, value } = await command(path, caller(), body ?? undefined);
    return { answer: { status: 200, text }, value };
  } catch (fault) {
    return { fault, answer: fault instanceof Refused && fault.text ? { status: fault.status, text: fault.text } : null };
  }
}

/** Whether queries show that an order was done; null if they don't. */
function foundOf({ find }) {
  return Promise.resolve(find?.() ?? null).catch(() => null);
}

/** Writes the entry of a command. A repeated request gets its own entry. If the office refuses it because it
 * was already done, both entries are done, unless queries show that somebody else did it. */
async function keep(state, { answer, fault }) {
  const { path, body, kind, values = {}, again } = state.order;
  const isDone = state.isOpen && fault instanceof Refused && fault.name === again && (await foundOf(state.order)) !== false;
  if (state.isOpen && (isDone || answer?.status === 200)) {
    state.entry.found = isDone ? "done" : "not done";
  }
  state.isOpen = fault instanceof Refused && fault.isOpen;
  state.entry = await addEntry(journal(), { moment: momentText(officeNow()), who: who(), title: say(`order.${kind}.title`, values), method: "POST", path, body,
    answer, found: isDone ? "done" : null });
}

/** A literal text below a summary that unfolds it, and more content after it. */
function folded(name, text, ...content) {
  return element("details", {}, element("summary", {}, name), element("pre", { tabindex: "0" }, text), content);
}

/** Says how to keep the journal. */
function keptPart() {
  return element("p", { class: "quiet" }, say("order.kept.save"));
}

function receipt(state, text) {
  return [element("p", { class: "quiet" }, say("order.kept", { number: String(state.entry.number) })), keptPart(),
    text ? folded(say("order.answer"), text) : ""];
}

/** When the office accepted a command: the moment in its answer, else by the server's clock. */
function takenIn({ entry }, value) {
  return element("p", {}, say("order.at"), " ", moment(value.moment ?? entry.moment));
}

function drawDone(state, { value, answer }) {
  state.value = value;
  const { kind, values = {}, isSad = false } = state.order;
  const told = state.order.told?.(value) ?? say(`order.${kind}.done`, { ...values, ...flat(value), count: value.opened ?? 0 });
  draw(state, note(isSad ? "look" : "good", told,
    takenIn(state, value), receipt(state, answer.text)), [closing(state)]);
  focusFirst(state);
}

/** The members of an answer as values for a text. */
function flat(value) {
  return Object.fromEntries(Object.entries(value).map(([name, one]) => [name, one === null ? "–" : typeof one === "boolean" ? String(one) : one]));
}

function focusFirst(state) {
  state.dialog.querySelector(".steps button")?.focus();
}

function drawRefused(state, fault) {
  const { order } = state;
  if (state.entry.found === "done") {
    state.value = {};
    draw(state, note("good", say("order.found.done"), receipt(state, fault.text)), [closing(state)]);
  } else {
    const advice = `order.${order.kind}.after.${fault.name}`;
    draw(state, note("bad", say("order.refused"), order.explain?.(fault) ?? sentenceOf(fault), hasText(advice) ? say(advice) : "",
      receipt(state, fault.text ?? "")), [button(say("order.again"), () => drawAsked(state)), closing(state)]);
  }
  focusFirst(state);
}

/** No answer came: queries ask what happened. */
async function drawOpen(state, fault) {
  const { order, entry } = state;
  draw(state, note("look", say("order.open"), sentenceOf(fault), say("order.asking")), []);
  const found = await foundOf(order);
  entry.found = found === true ? "done" : found === false ? "not done" : "unknown";
  const asks = button(say("order.askagain"), () => drawOpen(state, fault), "second");
  if (found === true) {
    state.value = {};
    draw(state, note("good", say("order.found.done"), say("order.found.how"), receipt(state, "")), [closing(state)]);
  } else if (found === false) {
    draw(state, note("look", say("order.found.not"), say("order.found.not.do")), [button(say("order.sendagain"), () => transmit(state)), asks, closing(state)]);
  } else {
    const again = order.again ? say("order.found.unknown.again", { name: order.again }) : say("order.found.unknown.look");
    draw(state, note("look", say("order.found.unknown"), again), [order.again ? button(say("order.sendagain"), () => transmit(state)) : null, asks,
      closing(state)].filter(Boolean));
  }
  focusFirst(state);
}

/** A JSON body, as it is sent. */
export function jsonBody(value) {
  return bytesOf(JSON.stringify(value));
}
