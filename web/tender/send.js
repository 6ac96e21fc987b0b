// Before a submission: the lines that the office will read at the opening, and the digest of the bytes.
// Then the submission itself, and its receipt, or the outcome if no answer came.
import { inGroups, sha256 } from "../common/digest.js";
import { element, facts, given, link, placeOf, section, title } from "../common/draw.js";
import { button, note, steps, table, tick } from "../common/forms.js";
import { money, number } from "../common/money.js";
import { Refused, modify, officeNow, ownTenders, present, security, sentenceOf, tender } from "../common/office.js";
import { hasText, say } from "../common/texts.js";
import { keyPlace } from "./key.js";
import { deadlineOf, securityFaults, securityOf } from "./offer.js";
import { drawReceipt } from "./receipt.js";
import { keep, keptOf, noticeOf, readyOf, session } from "./session.js";

/** The reading at the opening: each item's row, the price, and the corrections. */
function readingTable({ rows, price, stated, corrections }, { lot, terms }) {
  const corrected = (found, right) => (found === right ? null : element("span", { class: "wrong below" }, say("send.corrects", { found })));
  const heads = ["table.item", "table.title", "table.quantity", "table.unit", "table.total"].map((name) => say(name));
  const cells = rows.map(({ name, quantity, unit, total }, at) => [given(name), given(lot.items[at].title), number(quantity), number(unit),
    [number(quantity * unit), corrected(total, quantity * unit)]]);
  const foot = [say("table.sum"), "", "", "", [money(price, terms.currency), corrected(stated, price)]];
  return [element("h2", {}, say("send.reads")),
    table(say("send.caption", { lot: lot.id, currency: terms.currency }), heads, cells, { figures: [2, 3, 4], foot }),
    corrections > 0 ? note("look", say("send.corrections", { count: corrections }), say("send.corrections.what")) : null];
}

function placeOfLot(offer) {
  return placeOf("offer", offer.terms.notice, offer.lot.id);
}

/** The obstacles to a submission, as sentences with a link to their place. */
function hindrances(offer, ready) {
  const found = [session.caller ? null : ["who.none", "#key", "key.title"], ready ? null : ["send.notReady", placeOfLot(offer), "send.back"],
    Object.keys(securityFaults(offer)).length > 0 ? ["send.wrongSecurity", placeOfLot(offer), "see.security"] : null].filter(Boolean);
  return found.map(([sentence, href, text]) => note("bad", say(sentence), link(say(text), href)));
}

/** The office's answer about a received tender, with the notice and the lot, which aren't in a receipt. If
 * the office can't be asked, only the data of this tab. */
async function lookAt({ notice, lot, length }, { receipt, digest, moment, security, state }) {
  const known = { receipt, digest, moment, security, state, notice, lot, length };
  return { ...known, ...await tender(receipt, session.caller).catch(() => ({})) };
}

async function taken(sent, answer, text) {
  const found = await lookAt(sent, answer);
  session.seen.delete(sent.notice);
  keep(found.receipt, { units: sent.units, named: sent.named });
  if (sent.replaces !== null) {
    keep(sent.replaces, { successor: found.receipt });
  }
  Object.assign(session, { changing: null, offer: null, sent: { ...sent, receipt: found, text, isOpen: false, isGoing: false, fault: null } });
}

/** Submits a tender, once. `session.sent` then holds the result. */
async function send(offer, ready, digest) {
  const { notice, currency } = offer.terms;
  const units = Object.fromEntries(ready.reading.rows.map(({ name, unit }) => [name, String(unit)]));
  const named = offer.changes === null ? securityOf(offer) : keptOf(offer.changes).named;
  const sent = { kind: offer.changes === null ? "present" : "modify", notice, lot: offer.lot.id, receipt: offer.changes, replaces: offer.changes, digest,
    terms: offer.terms, lotTitle: offer.lot.title, currency, price: ready.reading.price, length: ready.bytes.length, bytes: ready.bytes, known: offer.known, units, named, lots: offer.terms.lots.length };
  session.sent = { ...sent, isOpen: true, isGoing: true };
  try {
    const { value, text } = sent.kind === "present" ? await present(notice, sent.lot, ready.bytes, securityOf(offer), session.caller)
      : await modify(offer.changes, ready.bytes, session.caller);
    await taken(sent, value, text);
  } catch (fault) {
    if (!(fault instanceof Refused)) {
      throw fault;
    }
    session.sent = { ...sent, isOpen: fault.isOpen, fault };
  }
}

/** A refusal as a note, with what to do. */
export function refusedPart(fault, help) {
  return note("bad", sentenceOf(fault), say("send.unchanged"), hasText(`${help}.${fault.name}`) ? say(`${help}.${fault.name}`) : null,
    link(say("tenders.title"), "#tenders"));
}

/** A withdrawal before the deadline shows in the tender's state. A late one shows only in its security, and
 * without a security nowhere. */
async function ofWithdrawal({ isLate }, old, caller) {
  if (old.state === "withdrawn") {
    return "done";
  }
  if (!isLate) {
    return old.state === "sealed" ? "not" : "other";
  }
  return old.security === null ? "unknown" : (await security(old.security, caller)).state === "forfeited" ? "done" : "not";
}

/** The outcome of a command that got no answer; it was done completely or not at all. The caller's own
 * tenders show it: `done` with the tender; `not` (so far); `other`, if something else happened to it; or
 * `unknown`. `sent` has the notice and the receipt of the tender to change or withdraw. For a submission it
 * has the lot, the digest, and the newest receipt before it. */
export async function becameOf(sent, caller) {
  const own = await ownTenders(sent.notice, caller);
  const old = own.find(({ receipt }) => receipt === sent.receipt) ?? null;
  if (sent.kind === "withdraw") {
    return { kind: await ofWithdrawal(sent, old, caller), tender: old };
  }
  const found = own.find((one) => one.receipt > sent.known && one.lot === sent.lot && one.digest === sent.digest && one.state !== "withdrawn");
  return found ? { kind: "done", tender: found } : { kind: old === null || old.state === "sealed" ? "not" : "other", tender: old };
}

/** The same for a submission, when the office answers. */
async function settle(sent, where, redraw) {
  const again = steps(button(say("became.ask"), () => settle(sent, where, redraw)));
  try {
    const { kind, tender: found } = await becameOf(sent, session.caller);
    if (kind === "done") {
      await taken(sent, found, JSON.stringify(found));
      await redraw(say("became.done"));
    } else {
      where.replaceChildren(note("look", say(`became.${kind}`), say(`became.${kind}.what`)), again);
    }
  } catch (fault) {
    where.replaceChildren(note("bad", sentenceOf(fault), say("became.later")), again);
  }
}

/** A note that the result is unknown, and the button that asks. */
export function openPart(fault, ask) {
  return [note("bad", say("send.open"), fault ? sentenceOf(fault) : null, say("send.open.what")), steps(button(say("became.ask"), ask))];
}

/** A submission without a receipt yet. If no answer came, this asks the office; before the deadline it is
 * safe to submit the same again. */
function sentPart(sent, redraw) {
  if (sent.isGoing || !sent.isOpen) {
    return [sent.isGoing ? note("look", say("send.going"), say("send.going.what")) : refusedPart(sent.fault, "help")];
  }
  const where = element("div", {});
  const [told, asks] = openPart(sent.fault, () => settle(sent, where, redraw));
  where.append(asks);
  return [told, where];
}

/** The button that submits. A tender is in time in the second of the deadline, a change only before it. A
 * late tender needs a tick. `where` has what was said of an earlier try, until it is pressed. */
function sendButton(offer, ready, digest, where, redraw) {
  const isChange = offer.changes !== null;
  const isPast = () => Date.parse(offer.terms.deadline) < officeNow() + (isChange ? 1 : 0);
  const isLate = isPast();
  if (isLate && isChange) {
    return note("bad", say("refusal.DeadlinePassed"), say("help.DeadlinePassed"), link(say("tenders.title"), "#tenders"));
  }
  const press = button(isChange ? say("send.change", { receipt: String(offer.changes) }) : say("send.send"), async () => {
    if (!isLate && isPast()) {
      // The deadline passed while the view was shown.
      await redraw();
      return;
    }
    where.replaceChildren(note("look", say("send.going"), say("send.going.what")));
    await send(offer, ready, digest);
    await redraw(session.sent.isOpen || session.sent.fault ? "" : say("send.sent"), Boolean(session.sent.fault));
  }, "", say("send.going"));
  press.disabled = isLate;
  const sure = isLate ? tick(say("send.late.tick"), (isTicked) => { press.disabled = !isTicked; }, "send-late") : null;
  return [isLate ? note("bad", say("send.late"), sure.made) : null, steps(press, link(say("send.back"), placeOfLot(offer), "button second"))];
}

/** The bytes to submit, and their digest. */
function bytesPart(bytes, digest) {
  return section(say("send.bytes"), element("p", {}, say("send.bytes.why", { count: bytes.length })), element("pre", {}, new TextDecoder().decode(bytes)),
    element("p", {}, say("send.digest")), element("p", { class: "code", id: "digest" }, inGroups(digest)));
}

/** Fetches the notice and the caller's tenders again. Whatever can't be fetched stays unchanged. */
async function renew(offer) {
  const { notice } = offer.terms;
  const [one, own] = await Promise.all([noticeOf(notice).catch(() => offer.terms), session.caller ? ownTenders(notice, session.caller).catch(() => []) : []]);
  Object.assign(offer, { terms: one, known: Math.max(0, offer.known ?? 0, ...own.map(({ receipt }) => receipt)) });
}

/** The view before the submission. */
async function drawBefore(offer, { redraw }) {
  const sent = session.sent?.fault || session.sent?.isOpen ? session.sent : null;
  const isOf = sent && sent.notice === offer.terms.notice && sent.lot === offer.lot.id;
  await renew(offer);
  const ready = readyOf(offer);
  const digest = ready ? await sha256(ready.bytes) : "";
  const named = ready ? securityOf(offer) : null;
  const what = facts([[say("see.notice"), `${offer.terms.notice}, ${say("see.lot", { lot: offer.lot.id })}`],
    [say("see.tenderer"), session.caller?.caller ?? "–"], [say("see.deadline"), deadlineOf(offer.terms)],
    offer.changes === null ? [say("see.security"), named ? `${named.security}, ${money(named.amount, offer.terms.currency)}` : say("send.noSecurity")]
      : [say("send.replaces"), String(offer.changes)]]);
  const hindered = hindrances(offer, ready);
  const where = element("div", { "aria-live": "polite" }, isOf ? sentPart(sent, redraw) : null);
  return { title: say("send.title"), content: [title(say("send.title")), where, what,
    ready ? readingTable(ready.reading, offer) : null, ready ? bytesPart(ready.bytes, digest) : null,
    hindered, session.caller ? null : keyPlace({ redraw }), hindered.length > 0 ? null : isOf && sent.isGoing ? null : sendButton(offer, ready, digest, where, redraw)] };
}

/** The view at `#send`: before the submission, or the receipt after it. */
export function drawSend(context) {
  if (session.offer) {
    return drawBefore(session.offer, context);
  }
  if (session.sent?.receipt && !session.sent.isOpen && !session.sent.fault) {
    return drawReceipt(session.sent);
  }
  return { title: say("send.title"), content: [title(say("send.title")), element("p", {}, say("send.nothing")),
    steps(link(say("tenders.title"), "#tenders", "button"), link(say("offer.title"), "#offer", "button second"))] };
}
