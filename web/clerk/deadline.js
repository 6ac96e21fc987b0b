// Up to the opening: move the deadline, watch the register, open the tenders; and cancel every lot that has
// no contract.
import { element, given, link, section } from "../common/draw.js";
import { areRight, button, field, form, lineText, note, steps, table } from "../common/forms.js";
import { clock, minute, money, moment, number } from "../common/money.js";
import { officeNow, registerText, securities, sentenceOf } from "../common/office.js";
import { say } from "../common/texts.js";
import { zoneName } from "../common/zone.js";
import { ofOpening, ofRelease, own } from "./fate.js";
import { momentAndSpan } from "./load.js";
import { forRole } from "./roles.js";
import { jsonBody, sendThen } from "./send.js";
import { caller, way } from "./session.js";
import { localMilliseconds, localText, momentText, oddHour } from "./values.js";

// Seconds between two queries for the register.
const BETWEEN = 15;

/** A field for a deadline in the time zone in use, with the moment as everybody will see it below. */
export function momentField(label, milliseconds, changed) {
  const made = field(label, { hint: say("editor.deadline.hint", { zone: zoneName() }), kind: "datetime-local", value: localText(milliseconds), step: "1" });
  const told = element("p", { class: "quiet" });
  const valueOf = () => localMilliseconds(made.input.value);
  const tell = () => {
    const odd = oddHour(made.input.value);
    told.replaceChildren(...(valueOf() === null ? [] : [moment(momentText(valueOf()) ?? ""), odd ? element("span", { class: "wrong below" },
      say(`warning.hour.${odd}`, { value: made.input.value.slice(11), amount: localText(valueOf()).slice(11) })) : ""]));
  };
  made.input.addEventListener("input", () => {
    tell();
    changed?.(valueOf(), made.input.value);
  });
  tell();
  return { ...made, made: element("div", {}, made.made, told), milliseconds: valueOf };
}

function reasonField() {
  return field(say("rationale"), { hint: say("rationale.hint") });
}

export function movePart(notice, again) {
  const { stage } = notice;
  const later = momentField(say("move.deadline"), stage.deadline);
  const why = reasonField();
  const run = () => {
    const found = later.milliseconds();
    const wrong = found === null ? say("fault.deadline") : found <= stage.deadline ? say("move.earlier") : "";
    if (areRight([[later, wrong], [why, lineText(why.value())]])) {
      return sendThen(moveOrder(notice, { deadline: momentText(found), rationale: why.value() }), again);
    }
  };
  return section(say("move.title"), element("details", {}, element("summary", {}, say("move.open")),
    form(say("move.title"), [later.made, why.made], say("move.send"), run)));
}

function moveOrder({ name, releases }, body) {
  return { kind: "amend", values: { notice: name }, path: `/notices/${name}/amend`, body: jsonBody(body), isFinal: true,
    says: [[say("editor.does.deadline"), " ", moment(body.deadline), "."], say("published.reason"), say("move.stays")],
    // (a second request would move the deadline again)
    again: null, find: () => ofRelease(name, releases.length, own.amend(body.deadline)) };
}

export function cancelPart(notice, again) {
  const why = reasonField();
  const lots = notice.stage.lots.filter(({ state }) => ["undecided", "awarded"].includes(state)).map(({ id }) => id);
  const ending = { lots: lots.join(", "), count: lots.length };
  const run = () => {
    if (areRight([[why, lineText(why.value())]])) {
      return sendThen(cancelOrder(notice, ending, { rationale: why.value() }), again);
    }
  };
  return section(say("cancel.title"), element("details", {}, element("summary", {}, say("cancel.open")), element("p", {}, say("cancel.what", ending)),
    form(say("cancel.title"), [why.made], say("cancel.send"), run, "harm")));
}

function cancelOrder({ name, stage, releases }, ending, body) {
  return { kind: "cancel", values: { notice: name }, path: `/notices/${name}/cancel`, body: jsonBody(body), word: say("cancel.word"),
    says: [say("cancel.does", ending), say(stage.kind === "opened" ? "cancel.opened" : "cancel.sealed"), say("published.reason"), say("cancel.stays")],
    again: "NothingToCancel", find: () => ofRelease(name, releases.length, own.cancel()) };
}

/** The opening. Its button is on from the deadline. */
export function openingPart({ name, stage, terms }, again) {
  const isDue = stage.deadline <= officeNow();
  const order = { kind: "open", values: { notice: name }, path: `/notices/${name}/open`, body: null, isFinal: true, again: "AlreadyOpened",
    find: () => ofOpening(name), says: [say("open.does"), say("open.late"), say("open.minutes")] };
  const open = button(say("open.send"), () => sendThen(order, again));
  open.disabled = !isDue;
  // (one second later the office's own clock has passed the deadline too)
  const told = isDue ? [say("open.now"), " ", ...momentAndSpan(stage.deadline, moment)]
    : [say("see.deadline"), ": ", clock(terms.deadline, () => setTimeout(again, 1000))];
  const made = section(say("step.opening"), element("p", {}, say("open.what")), element("p", {}, told), forRole("evaluation", () => steps(open)));
  Object.assign(made, { id: "opening", tabIndex: -1 });
  return made;
}

/** The register and the securities, fetched again while they are shown and can grow. */
export function registerPart({ name, currency, stage }) {
  if (caller() === null) {
    return section(say("register.title"), element("p", {}, say("register.key"), " ", way() === "key" ? link(say("key.give"), "#key") : ""));
  }
  const [place, looked] = [element("div", {}), element("p", { class: "quiet" })];
  let shown = "";
  const look = async () => {
    try {
      const [text, held] = await Promise.all([registerText(name, caller()), securities(name, caller())]);
      // If nothing changed, the tables stay, so that a selection in them stays too.
      if (text + JSON.stringify(held) !== shown) {
        shown = text + JSON.stringify(held);
        place.replaceChildren(...registerTable(text, stage.kind === "receiving"), ...securityTable(held, currency));
      }
      looked.replaceChildren(say("register.looked"), " ", minute(momentText(officeNow())));
    } catch (fault) {
      looked.replaceChildren(note("bad", sentenceOf(fault)));
    }
  };
  look();
  const timer = setInterval(() => {
    if (!place.isConnected || caller() === null) {
      clearInterval(timer);
    } else if (document.visibilityState === "visible") {
      look();
    }
  }, BETWEEN * 1000);
  const grows = stage.kind === "receiving" ? element("p", { class: "quiet" }, say("register.grows", { seconds: BETWEEN })) : null;
  const told = [element("p", {}, say("register.what")), grows, place, looked];
  return section(say("register.title"), stage.kind === "receiving" || stage.kind === "due" ? told
    : element("details", {}, element("summary", {}, say("register.show")), told));
}

function registerTable(text, isOpen) {
  const rows = text.split("\n").slice(1).filter((line) => line !== "").map((line) => line.split("\t"));
  if (rows.length === 0) {
    return [element("p", {}, say(isOpen ? "register.empty" : "register.none"))];
  }
  const counts = new Map();
  for (const [, lot, , , state] of rows) {
    counts.set(lot, (counts.get(lot) ?? 0) + (state === "sealed" || state === "opened" ? 1 : 0));
  }
  const heads = [say("receipt"), say("see.lot.short"), say("register.came"), say("register.length"), say("see.state")];
  const cells = rows.map(([receipt, lot, came, length, state]) => [receipt, lot, moment(came), number(Number(length)), say(`state.${state}`)]);
  const told = [...counts].map(([lot, count]) => `${lot}: ${count}`).join(", ");
  return [element("p", {}, say("register.counts", { counts: told })), table(say("register.table", { count: rows.length }), heads, cells, { figures: [0, 3] })];
}

/** Before the opening the office doesn't say whose a security is. */
function securityTable(held, currency) {
  const heads = [say("see.security"), say("see.lot.short"), say("contract.amount"), say("see.state"), say("see.tenderer")];
  return held.length === 0 ? [] : [table(say("register.securities", { count: held.length }), heads, held.map(({ reference, lot, amount, state, tenderer }) =>
    [given(reference), lot, money(amount, currency), say(`security.${state}`), tenderer ?? say("register.sealed")]), { figures: [2] })];
}
