// The caller's tenders, each with its state and security; change and withdrawal.
import { tables } from "../common/data.js";
import { inGroups } from "../common/digest.js";
import { badge, below, element, facts, given, link, placeOf, section, title } from "../common/draw.js";
import { DIGITS, areRight, button, field, form, note, steps, tick } from "../common/forms.js";
import { growingTable } from "../common/many.js";
import { clock, money, moment } from "../common/money.js";
import { Refused, notices, officeNow, security, sentenceOf, tender, withdraw } from "../common/office.js";
import { hasText, say } from "../common/texts.js";
import { keyPlace } from "./key.js";
import { factsOf } from "./receipt.js";
import { drawResults } from "./results.js";
import { AGAIN, follow, found, left, lookFirst, lookOn, planOf, repeat, waiting } from "./search.js";
import { becameOf, openPart, refusedPart } from "./send.js";
import { keep, keptOf, noticeOf, session } from "./session.js";

const KINDS = { sealed: "open", opened: "ended", withdrawn: "stopped", returned: "stopped" };
// So many tenders are shown at first.
const ROWS = 10;

/** The receipt of the tender that replaced this one, if it is known: this tab submitted it, or it took over
 * the security. */
function successorOf({ receipt, security: number }) {
  const heirs = session.tenders.filter((one) => one.receipt > receipt && number !== null && one.security === number);
  return keptOf(receipt).successor ?? heirs.at(-1)?.receipt;
}

function stateBadge(one) {
  const { state } = one;
  const successor = state === "withdrawn" ? successorOf(one) : undefined;
  return successor ? badge("ended", say("tenders.replaced", { receipt: String(successor) }))
    : badge(KINDS[state] ?? "running", hasText(`state.${state}`) ? say(`state.${state}`) : state);
}

/** The deadline, with a clock while a tender is sealed; and when it came, which the tables don't know. */
function whenOf({ state, moment: came, deadline }) {
  return [state === "sealed" ? clock(deadline) : null, below(moment(deadline)),
    came === null ? null : below(say("receipt.moment"), " ", moment(came))];
}

/** Whether a tender can be changed or withdrawn for nothing. */
function isOpen(/** @type {any} */ { state, deadline }) {
  return state === "sealed" && Date.parse(deadline) > officeNow();
}

function rowOf(/** @type {any} */ { receipt, state, deadline, ...one }) {
  return [String(receipt), [given(one.title), below(given(one.notice), ", ", say("see.lot", { lot: one.lot }))], whenOf({ ...one, state, deadline }),
    stateBadge({ ...one, receipt, state }),
    link(say(isOpen({ state, deadline }) ? "tenders.do.change" : "tenders.do.look", { receipt: String(receipt) }), placeOf("tender", String(receipt)))];
}

/** The tenders that are known so far. */
function listOf(all, isWhole) {
  if (all.length === 0) {
    return [element("p", {}, say(isWhole ? "tenders.none" : "tenders.none.yet"))];
  }
  const heads = ["receipt.number", "tenders.what", "see.deadline", "see.state", "tenders.do"].map((name) => say(name));
  return growingTable(say("tenders.caption", { count: all.length }), heads, all, rowOf, { first: ROWS });
}

/** Replaces the list. A link that has the focus keeps it. */
function replaced(at, content) {
  const href = at.contains(document.activeElement) ? document.activeElement.getAttribute("href") : null;
  at.replaceChildren(...content);
  href && at.querySelector(`a[href="${CSS.escape(href)}"]`)?.focus();
}

/** A field for a receipt's number, which leads to its tender without a search. */
function ask() {
  const receipt = field(say("tenders.receipt"), { id: "tenders-receipt", hint: say("tenders.receipt.hint"), ...DIGITS });
  const made = form(say("tenders.receipt"), [receipt.made], say("offer.show"), () => {
    if (areRight([[receipt, /^[1-9]\d{0,14}$/.test(receipt.value()) ? "" : say("typed.digits")]])) {
      location.hash = placeOf("tender", receipt.value());
    }
  });
  made.classList.add("seek");
  return made;
}

function withoutKey(context) {
  return { title: say("tenders.title"), content: [title(say("tenders.title")), note("look", say("who.none"), link(say("key.title"), "#key")), keyPlace(context)] };
}

/** The view of all tenders. It is shown after the first queries, and grows with the results of the others. */
export async function drawTenders({ redraw }) {
  if (!session.caller) {
    return withoutKey({ redraw });
  }
  const [list, data] = await Promise.all([notices(), tables("notices", "tenders").catch(() => null)]);
  const plan = planOf(list, data, session.caller.caller, officeNow());
  await lookFirst(plan);
  const [shown, told, due] = [element("div", {}), element("div", {}), element("div", { role: "status" })];
  let [last, isWhole, known] = ["", false, list];
  const drawList = () => {
    const all = found(plan, known);
    const now = JSON.stringify([all.map((one) => [one.receipt, one.state, one.deadline, isOpen(one)]), all.length > 0 || isWhole]);
    if (now !== last) {
      replaced(shown, listOf(all, isWhole));
      last = now;
    }
  };
  const draw = (count, rows = plan.order) => {
    isWhole = count === 0;
    drawList();
    told.replaceChildren(...(count > 0 ? [element("p", { class: "quiet" }, say("tenders.looks", { at: rows.length - count, count: rows.length }))]
      : othersPart(plan.rest, () => search(plan.rest))));
  };
  const search = async (rows) => {
    try {
      await lookOn(rows, () => told.isConnected, (count) => draw(count, rows));
    } catch (fault) {
      told.replaceChildren(note("bad", sentenceOf(fault)), steps(button(say("frame.again"), () => search(rows))));
    }
  };
  const count = left(plan.order).length;
  draw(count);
  const tell = (rows, fault) => {
    known = rows;
    drawList();
    tellDue(due, rows, fault);
  };
  tell(list, null);
  // (once the view is shown)
  setTimeout(() => {
    follow(list, () => due.isConnected, tell);
    count > 0 && search(plan.order);
  });
  return { title: say("tenders.title"), content: [title(say("tenders.title")), told, due, shown, ask()] };
}

/** How many tenders wait for their opening, and that the page asks for them again. */
function tellDue(place, rows, fault) {
  const count = waiting(rows).length;
  const text = count === 0 ? "" : `${say("tenders.due", { count, seconds: AGAIN / 1000 })} ${fault ? sentenceOf(fault) : ""}`.trim();
  if (place.textContent !== text) {
    place.replaceChildren(...(text ? [element("p", { class: fault ? "wrong" : "quiet" }, text)] : []));
  }
}

/** The notices that were opened or cancelled: only tenders that were withdrawn or returned can be missing. */
function othersPart(rest, search) {
  const count = left(rest).length;
  return [element("p", { class: "quiet", role: "status" }, say("tenders.all")), ...(count === 0 ? []
    : [element("p", { class: "quiet" }, say("tenders.others", { count })), steps(button(say("tenders.search"), search, "second"))])];
}

// This many milliseconds before the deadline a request may arrive late: the server's clock is known only to
// the second, and the office handles one request at a time.
const CLOSE = 60_000;

/** When a withdrawal would arrive: `free` before the deadline, `close` to it (if a late one costs something),
 * or `late`. */
function timeOf({ deadline, late_withdrawal: rule }) {
  const left = Date.parse(deadline) - officeNow();
  return left <= 0 ? "late" : left < CLOSE && rule === "forfeits" ? "close" : "free";
}

/** The cost of a withdrawal then, by the terms and the security, and whether it is possible. */
function costOf(one, held, time) {
  const amount = held ? `${money(held.amount, one.currency)} (${held.reference})` : "";
  if (time === "late" && one.late_withdrawal === "refused") {
    return { kind: "bad", sentence: say("withdraw.refused"), isRefused: true };
  }
  const what = held ? "security" : "none";
  const behind = time !== "free" ? null : say(one.late_withdrawal === "refused" ? "withdraw.refused" : `withdraw.behind.${what}`, { amount });
  return { kind: time === "free" ? "look" : "bad", sentence: say(`withdraw.${time}.${what}`, { amount }), behind };
}

async function take(sent, where, redraw) {
  const settle = async () => {
    try {
      const { kind } = await becameOf(sent, session.caller);
      if (kind === "done") {
        await redraw(say("withdraw.done"));
      } else {
        where.replaceChildren(note("look", say(`withdraw.became.${kind}`)), steps(button(say("became.ask"), settle)));
      }
    } catch (other) {
      where.replaceChildren(...openPart(other, settle));
    }
  };
  // (The button shows it.)
  where.replaceChildren(element("p", { class: "unseen" }, say("withdraw.going")));
  try {
    const { value } = await withdraw(sent.receipt, session.caller);
    session.seen.delete(sent.notice);
    await redraw(say(value.state === "withdrawn" ? "withdraw.done" : "withdraw.late.done"));
  } catch (fault) {
    where.replaceChildren(...[fault instanceof Refused && fault.isOpen ? openPart(fault, settle) : refusedPart(fault, "withdraw.help")].flat());
  }
}

/** The form that withdraws a tender. It shows the cost before the button, and needs a tick. If the cost has
 * changed meanwhile, it shows the new one. */
function withdrawPart(found, one, held, redraw) {
  const time = timeOf(one);
  const { kind, sentence, behind, isRefused } = costOf(one, held, time);
  const where = element("div", { "aria-live": "polite" });
  const sent = { kind: "withdraw", notice: found.notice, receipt: found.receipt, isLate: time !== "free" };
  const press = button(say("withdraw.press", { receipt: String(found.receipt) }),
    () => (timeOf(one) === time ? take(sent, where, redraw) : redraw(say("withdraw.anew"), true)), "harm", say("withdraw.going"));
  press.disabled = true;
  const sure = tick(say("withdraw.sure"), (isTicked) => { press.disabled = !isTicked; }, "withdraw-sure");
  return section(say("withdraw.title"), note(kind, say("withdraw.price"), sentence, behind), isRefused ? null : [sure.made, steps(press)], where);
}

function changePart(found, one) {
  const press = button(say("tenders.change", { receipt: String(found.receipt) }), () => {
    session.changing = { notice: found.notice, lot: found.lot, receipt: found.receipt };
    location.hash = placeOf("offer", found.notice, found.lot);
  });
  return section(say("change.title"), element("p", {}, say("change.why"),
    found.security === null ? "" : ` ${say("change.security")}`, " ", clock(one.deadline, () => { press.disabled = true; })), steps(press));
}

/** The state of a tender's security. */
function securityPart(held, currency) {
  return section(say("see.security"), facts([[say("offer.reference"), given(held.reference)], [say("security.amount"), money(held.amount, currency)],
    [say("see.state"), say(`security.${held.state}`)]]), element("p", { class: "quiet" }, say(`security.${held.state}.why`)));
}

/** Draws the view of a sealed tender again when it is opened or returned. */
function watch(found, { deadline }, shown, redraw) {
  const ask = async () => {
    // (a fault is no news: it asks again)
    const now = await tender(found.receipt, session.caller).catch(() => found);
    if (now.state !== found.state && shown.isConnected) {
      await redraw(say("tenders.news", { state: say(`state.${now.state}`) }));
    }
  };
  setTimeout(() => repeat(() => shown.isConnected, () => Date.parse(deadline) <= officeNow(), ask));
}

/** The view of one tender, always fetched again. */
export async function drawTender({ redraw }, receipt) {
  if (!session.caller) {
    return withoutKey({ redraw });
  }
  const found = await tender(receipt, session.caller);
  const [one, held] = await Promise.all([noticeOf(found.notice), found.security === null ? null : security(found.security, session.caller)]);
  const lot = one.lots.find(({ id }) => id === found.lot);
  const isOut = found.state === "withdrawn" || found.state === "returned" || held?.state === "forfeited" || lot.state !== "undecided";
  const isBefore = Date.parse(one.deadline) > officeNow();
  const named = held ? { security: held.reference, amount: held.amount } : null;
  keep(found.receipt, { named });
  const head = say("tenders.one", { receipt: String(receipt) });
  const state = element("p", {}, stateBadge(found));
  if (found.state === "sealed") {
    watch(found, one, state, redraw);
  }
  return { title: head, content: [title(head), state, element("p", {}, given(one.title), " – ", given(lot.title)),
    factsOf(found, { named, currency: one.currency }), element("p", {}, say("tenders.digest", { count: found.length })),
    element("p", { class: "code" }, inGroups(found.digest)),
    found.state === "opened" ? await drawResults(found) : null, held ? securityPart(held, one.currency) : null,
    found.state === "sealed" && isBefore ? changePart(found, one) : null, isOut ? null : withdrawPart(found, one, held, redraw),
    element("p", {}, link(say("tenders.title"), "#tenders"))] };
}
