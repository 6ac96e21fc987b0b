// A new tender: a notice's terms and lots, and the prices of a lot, typed or from a file.
import { isId } from "../common/csv.js";
import { documentPart, documentsOf } from "../common/documents.js";
import { badge, element, facts, given, link, placeOf, section, title } from "../common/draw.js";
import { DIGITS, ID, button, faultNote, field, note, save, steps } from "../common/forms.js";
import { clock, money, moment, number, typed } from "../common/money.js";
import { officeNow } from "../common/office.js";
import { asked, termList } from "../common/terms.js";
import { say } from "../common/texts.js";
import { MOST_PRICE } from "./papers.js";
import { beginOffer, keptOf, noticeOf, readyOf, session } from "./session.js";
import { drawTable } from "./table.js";

/** The deadline, with a clock, after which `over` is called. */
export function deadlineOf({ deadline }, over = () => {}) {
  return [moment(deadline), " – ", clock(deadline, over)];
}

/** The facts about a notice. */
function termsOf(one, over) {
  return [facts([[say("see.notice"), one.notice], [say("see.buyer"), given(one.buyer)], [say("see.deadline"), deadlineOf(one, over)]]),
    element("details", {}, element("summary", {}, say("see.terms")), termList(one, one.currency))];
}

/** Why a notice takes no tenders. */
function closedText({ state }) {
  return state === "cancelled" ? say("refusal.NotOpenForTenders") : state === "opened" ? say("offer.opened") : say("refusal.DeadlinePassed");
}

/** Before anybody types prices that would come too late: a warning, also from the moment of the deadline on. */
function lateNote(one, changes) {
  const place = element("div", {});
  const tell = () => {
    const isLate = one.state !== "cancelled";
    place.replaceChildren(note("bad", closedText(one), isLate ? say(changes === null ? "offer.late" : "help.DeadlinePassed") : null));
  };
  if (!isTaking(one)) {
    tell();
  }
  return { place, tell };
}

/** Whether a notice is open for tenders. */
export function isTaking({ state, deadline }) {
  return state === "receiving" && Date.parse(deadline) >= officeNow();
}

function lotCard(one, lot) {
  return element("li", { class: "card" }, element("h3", {}, say("see.lot", { lot: lot.id }), ": ", given(lot.title)),
    facts([[say("see.estimate"), money(lot.estimate, one.currency)], [say("offer.items"), number(lot.items.length)],
      [say("see.security"), asked(lot.security, one.currency)]]),
    isTaking(one) ? link(say("offer.begin", { lot: lot.id }), placeOf("offer", one.notice, lot.id), "button") : null);
}

/** The view of a notice: its terms, documents and lots. */
async function drawNotice(notice) {
  const [one, documents] = await Promise.all([noticeOf(notice), documentsOf(notice)]);
  return { title: one.title, content: [title(given(one.title)), element("p", {}, isTaking(one) ? badge("open", say("offer.open")) : badge("stopped", closedText(one))),
    termsOf(one), documentPart(documents), element("p", {}, link(say("offer.public"), `/#notice/${notice}`)), element("h2", {}, say("offer.lots")),
    element("ul", { class: "lines" }, one.lots.map((lot) => lotCard(one, lot)))] };
}

/** The fields of a security, if the lot requires one, with their faults beside them; and `faults()` as `faultNote` takes them. */
function securityFields(offer) {
  const { security, lot, terms: one } = offer;
  if (!lot.security) {
    return { faults: () => [], made: section(say("see.security"), element("p", {}, say("see.noneasked"))) };
  }
  const reference = field(say("offer.reference"), { id: "security-reference", hint: say("offer.reference.hint"), why: say("why.reference"), value: security.reference, ...ID });
  const amount = field(say("offer.amount", { currency: one.currency }), { id: "security-amount", why: say("why.amount"), value: security.amount, ...DIGITS });
  const keep = () => Object.assign(security, { reference: reference.value(), amount: amount.value() });
  const check = () => {
    keep();
    const faults = securityFaults(offer);
    const all = [["offer.reference", faults.reference ?? "", reference], ["security.amount", faults.amount ?? "", amount]];
    return all.filter(([, sentence, one]) => [sentence, one.tell(sentence)][0]).map(([name, sentence, one]) => [say(name), sentence, one.input]);
  };
  for (const { input } of [reference, amount]) {
    input.addEventListener("input", keep);
    input.addEventListener("change", check);
  }
  if (security.reference || security.amount) {
    check();
  }
  return { faults: check, made: section(say("see.security"), element("p", {}, say("offer.security.asked", { amount: money(lot.security, one.currency) })),
    element("div", { class: "fields" }, reference.made, amount.made)) };
}

/** The faults of a tender's security, by field. */
export function securityFaults({ security: { reference, amount }, lot, changes }) {
  if (changes !== null || !lot.security) {
    return {};
  }
  const { value, fault } = typed(amount, MOST_PRICE);
  return { ...(isId(reference) ? {} : { reference: say("refusal.BadBody.security") }),
    ...(fault ? { amount: say(`typed.${fault}`) } : value < lot.security ? { amount: say("refusal.SecurityTooSmall") } : {}) };
}

/** The security as it is sent, or null. */
export function securityOf(offer) {
  const { security, lot, changes } = offer;
  return changes !== null || !lot.security || Object.keys(securityFaults(offer)).length > 0 ? null
    : { security: security.reference, amount: typed(security.amount, MOST_PRICE).value };
}

function sources(offer, redraw) {
  const made = (name) => {
    const one = button(say(`offer.source.${name}`), () => {
      offer.source = name;
      redraw("", false, `source-${name}`);
    }, offer.source === name ? "" : "second");
    one.id = `source-${name}`;
    one.setAttribute("aria-pressed", String(offer.source === name));
    return one;
  };
  return element("div", { class: "steps", role: "group", "aria-label": say("offer.source") }, made("table"), made("file"));
}

/** The part for a file. The modules that read files are loaded on demand. */
async function filePart(offer, redraw) {
  const { drawFile } = await import("./file.js");
  const made = drawFile(offer, (sentence, isWrong) => redraw(sentence, isWrong, "offer-file"));
  const faults = () => (readyOf(offer) ? [] : [[say("offer.source.file"), say(offer.file ? "offer.file.wrong" : "offer.file.none"), document.getElementById("offer-file")]]);
  return { faults, made };
}

/** A note on a change: which tender it replaces, what happens to the security, and where the old prices are. */
function changeNote({ changes, lot, terms: one }) {
  const receipt = String(changes);
  return note("look", say("offer.changes", { receipt }), say("offer.changes.why"), lot.security ? say("change.security") : null,
    keptOf(changes).units ? say("offer.changes.there") : say("offer.changes.file", { receipt, file: `${one.notice}-${lot.id}-receipt-${receipt}.csv` }));
}

/** The view of a tender for a lot. */
async function drawLot(notice, name, { redraw }) {
  const one = await noticeOf(notice);
  const lot = one.lots.find(({ id }) => id === name);
  if (!lot) {
    return { title: say("offer.title"), content: [title(say("offer.title")), note("bad", say("refusal.NoSuch.lot")), element("p", {}, link(given(one.title), placeOf("offer", notice)))] };
  }
  const changes = session.changing?.notice === notice && session.changing.lot === name ? session.changing.receipt : null;
  const offer = beginOffer(one, lot, changes);
  const late = lateNote(one, changes);
  const place = element("div", {});
  const go = button(say("offer.go"), () => {
    const faults = [...prices.faults(), ...secured.faults()];
    place.replaceChildren(...(faults.length > 0 ? [faultNote(say("offer.faults", { count: faults.length }), faults)] : []));
    if (faults.length === 0) {
      location.hash = "#send";
    }
  });
  const keep = button(say("offer.keep"), () => save(`${notice}-${name}.csv`, readyOf(offer).bytes, "text/csv"), "second");
  const update = () => {
    keep.hidden = readyOf(offer) === null;
  };
  const prices = offer.source === "table" ? drawTable(offer, update) : await filePart(offer, redraw);
  const secured = changes === null ? securityFields(offer) : { faults: () => [], made: null };
  update();
  const head = say("offer.for", { lot: name, notice });
  return { title: head, content: [title(head), element("p", {}, link(given(one.title), placeOf("offer", notice)), " – ", given(lot.title)), late.place, termsOf(one, late.tell),
    changes === null ? null : changeNote(offer),
    element("h2", {}, say("offer.prices")), sources(offer, redraw), prices.made, secured.made, place, steps(go, keep)] };
}

/** The view at `#offer`, `#offer/NOTICE` and `#offer/NOTICE/LOT`. The list of open notices is loaded on
 * demand. */
export async function drawOffer(context, notice, lot) {
  return notice && lot ? drawLot(notice, lot, context) : notice ? drawNotice(notice) : (await import("./open.js")).drawOpen();
}
