// Receipts: compared with the digest that this tab computed, printed and saved; and whether a file and a
// receipt belong together.
import { cityFile, letterhead } from "../common/city.js";
import { rows } from "../common/data.js";
import { bytesOfFile, inGroups, sha256 } from "../common/digest.js";
import { below, element, facts, given, link, placeOf, title } from "../common/draw.js";
import { button, drop, field, note, printButton, save, sheet, steps } from "../common/forms.js";
import { sourceOf } from "../common/frame.js";
import { money, moment } from "../common/money.js";
import { sentenceOf, tender } from "../common/office.js";
import { hasText, say } from "../common/texts.js";
import { session } from "./session.js";

const MOST_RECEIPT = 16384;

/** A security: its reference and amount if they are known, and its number at the office. */
function securityOf(number, { named, currency }) {
  return number === null || number === undefined ? say("send.noSecurity")
    : [named ? [given(named.security), `, ${money(named.amount, currency)}`, element("br")] : null, say("receipt.security", { number: String(number) })];
}

/** The facts of a receipt. `known` has what else is known: the security (`named`, in a `currency`), elements
 * that name the `firm`, the notice (`titled`) and the lot (`lotTitle`), and `more` facts. */
export function factsOf(receipt, /** @type {any} */ known = {}) {
  const { tenderer, notice, lot, state, security } = receipt;
  const named = (id, text) => (text ? [text, below(given(String(id)))] : given(String(id)));
  return facts([[say("receipt.number"), String(receipt.receipt)], tenderer ? [say("see.tenderer"), named(tenderer, known.firm)] : null,
    notice ? [say("see.notice"), named(notice, known.titled)] : null, lot ? [say("see.lot.short"), named(lot, known.lotTitle && given(known.lotTitle))] : null,
    [say("receipt.moment"), moment(String(receipt.moment))], [say("see.state"), hasText(`state.${state}`) ? say(`state.${state}`) : String(state)],
    [say("see.security"), securityOf(security, known)], ...(known.more ?? [])].filter(Boolean));
}

/** Whether the office received what was submitted. Only equal digests are green. */
function compared(own, others, kind = "receipt") {
  const isSame = own === others;
  const digest = (text) => element("p", { class: "code" }, inGroups(text));
  return note(isSame ? "good" : "bad", say(`${kind}.${isSame ? "same" : "differs"}`), say("receipt.own"), digest(own), say("receipt.office"), digest(others),
    isSame ? null : say(`${kind}.differs.what`));
}

/** The file of a receipt: the office's answer, with the tenderer and where it was submitted. */
function fileOf(receipt) {
  const { digest, length, lot, moment: came, notice, receipt: number, security, state } = receipt;
  const all = { digest, length, lot, moment: came, notice, office: location.origin, receipt: number, security, state, tenderer: session.caller?.caller };
  return `${JSON.stringify(all)}\n`;
}

/** The name of this tab's firm: typed when its key was made here, or for the sheet, or that of its opened
 * tenders. */
async function nameOfFirm() {
  const { caller, registration, firm } = session;
  const opened = async () => (await rows("tenders").catch(() => null))?.findLast(({ tenderer }) => tenderer === caller?.caller)?.name;
  return firm ?? (registration.tenderer === caller?.caller ? registration.name : await opened() ?? "");
}

/** The sheet of a receipt, with a letterhead, and a field above it for the firm's name, which no key file
 * has. */
async function sheetOf(sent, known) {
  const { receipt, terms } = sent;
  const [city, name] = await Promise.all([cityFile(), nameOfFirm()]);
  const firm = element("bdi", {}, name);
  const typed = field(say("receipt.firm"), { id: "receipt-firm", hint: say("receipt.firm.hint"), value: name, maxlength: "200", autocapitalize: "words" });
  typed.input.addEventListener("input", () => {
    session.firm = typed.value();
    firm.textContent = session.firm;
  });
  const head = element("h2", {}, say("receipt.sheet"));
  return [typed.made, sheet(letterhead(city), head, element("p", {}, element("b", {}, say("receipt.secret"))),
    factsOf({ ...receipt, tenderer: session.caller?.caller }, { ...known, firm, titled: given(terms.title), lotTitle: sent.lotTitle }),
    element("p", {}, say("receipt.digest")), element("p", { class: "code" }, inGroups(receipt.digest)),
    element("p", { class: "quiet" }, say("receipt.guess")),
    element("p", { class: "quiet" }, sourceOf()))];
}

/** The view after a submission. */
export async function drawReceipt(sent) {
  const { receipt } = sent;
  const isLate = receipt.state === "returned";
  const isSame = sent.digest === receipt.digest;
  const old = sent.replaces === null ? null : String(sent.replaces);
  const more = [[say("see.buyer"), given(sent.terms.buyer)], [say("see.price"), money(sent.price, sent.currency)], old && [say("send.replaces"), old]];
  const nameOf = `${receipt.notice}-${receipt.lot}-receipt-${receipt.receipt}.csv`;
  const head = say("receipt.title", { receipt: String(receipt.receipt) });
  const keep = button(say("receipt.save"), () => {
    save(`receipt-${receipt.receipt}.json`, fileOf(receipt), "application/json");
    sent.isKept = true;
  });
  return { title: head, isSheet: true, content: [title(head),
    isLate ? note("bad", say("receipt.late"), say("receipt.late.what"))
      : note(isSame ? "good" : "look", say("receipt.sealed"), old && say("receipt.replaced", { receipt: old }),
        isSame ? say("receipt.sealed.what") : null),
    compared(sent.digest, receipt.digest),
    steps(keep, button(say("receipt.saveFile"), () => save(nameOf, sent.bytes, "text/csv")), printButton(),
      sent.lots > 1 ? link(say("receipt.lots"), placeOf("offer", receipt.notice), "button second") : null,
      link(say("tenders.title"), "#tenders", "button second")),
    await sheetOf(sent, { ...sent, more })] };
}

/** The receipt in a file: an object with a digest and a number; null if there is none. */
function receiptIn(text) {
  try {
    const told = JSON.parse(text);
    return /^[0-9a-f]{64}$/i.test(told?.digest) && Number.isInteger(told.receipt) ? { ...told, digest: told.digest.toLowerCase() } : null;
  } catch {
    return null;
  }
}

const chosen = { file: null, receipt: null };

/** Asks the office for the tender of the receipt; only its owner may. */
async function askOffice(where) {
  where.replaceChildren();
  try {
    const found = await tender(chosen.receipt.value.receipt, session.caller);
    const isSame = found.digest === chosen.receipt.value.digest && found.moment === chosen.receipt.value.moment;
    where.replaceChildren(note(isSame ? "good" : "bad", say(isSame ? "check.stands" : "check.other"), factsOf(found)));
  } catch (fault) {
    where.replaceChildren(note("bad", sentenceOf(fault)));
  }
}

function outcome({ file, receipt }) {
  const value = receipt?.value;
  const isLength = !file || !value || value.length === undefined || value.length === file.length;
  return [file ? element("p", {}, say("check.file", { file: file.name, count: file.length })) : null,
    receipt ? element("p", {}, say("check.receipt", { file: receipt.name })) : null, receipt && !value ? note("bad", say("check.noReceipt")) : null,
    file && value ? compared(file.digest, value.digest, "check") : null, isLength ? null : element("p", { class: "wrong" }, say("check.length")),
    value ? sheet(element("h2", {}, say("receipt.sheet")), factsOf(value)) : null];
}

/** The view that takes a file and a receipt, and shows whether they belong together. */
export function drawCheck({ redraw }) {
  const takeFile = async (file) => {
    const bytes = await bytesOfFile(file);
    chosen.file = { name: file.name, length: bytes.length, digest: await sha256(bytes) };
    redraw("", false, "check-file");
  };
  const takeReceipt = async (file) => {
    chosen.receipt = { name: file.name, value: file.size <= MOST_RECEIPT ? receiptIn(new TextDecoder().decode(await bytesOfFile(file))) : null };
    redraw("", false, "check-receipt");
  };
  const where = element("div", { "aria-live": "polite" });
  return { title: say("check.title"), content: [title(say("check.title")), element("p", {}, say("check.why")),
    drop(say("check.file.drop"), say("check.file.hint"), takeFile, { id: "check-file" }),
    drop(say("check.receipt.drop"), say("check.receipt.hint"), takeReceipt, { id: "check-receipt" }), outcome(chosen),
    !chosen.receipt?.value ? null : session.caller ? steps(button(say("check.ask"), () => askOffice(where), "", say("frame.asking")))
      : element("p", { class: "quiet" }, say("check.ask.key")), where] };
}
