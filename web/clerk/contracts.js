// Contracts: raise and cut, payments, and the end.
import { isId } from "../common/csv.js";
import { rows } from "../common/data.js";
import { element } from "../common/draw.js";
import { paidOf } from "../common/findings.js";
import { DIGITS, ID, areRight, button, field, form, lineText, steps } from "../common/forms.js";
import { money } from "../common/money.js";
import { line } from "../common/office.js";
import { say } from "../common/texts.js";
import { ofRelease, own } from "./fate.js";
import { forRole } from "./roles.js";
import { jsonBody, sendThen } from "./send.js";
import { caller } from "./session.js";
import { MOST, amountOf, wholeNumber } from "./values.js";

/** The clerk's actions for a running contract. `behind` gives the function that runs after a command for
 * its lot. */
export function contractPart(notice, contract, behind) {
  if (contract.status === "terminated") {
    return null;
  }
  const worth = contract.value.amount;
  const lot = notice.stage.lots.find((one) => one.contract?.id === contract.id);
  // The values for the texts and the orders of this contract.
  const contracted = { notice, lot, contract, worth, outstanding: worth - paidOf(contract), again: behind(lot),
    amount: (units) => money(units, notice.currency) };
  return forRole("contracts", () => [payPart(contracted), changePart(contracted), endPart(contracted)]);
}

function idField() {
  return field(say("contract.id"), { hint: say("contract.id.hint"), ...ID });
}

function amountField(hint) {
  return field(say("contract.amount"), { hint, ...DIGITS });
}

function unitsOf(one) {
  return wholeNumber(amountOf(one.value()) ?? "", 1, MOST.amount);
}

/** Why an amount is wrong, or too much. */
function amountFault(units, most, tooMuch) {
  return units === null ? say("amount.wrong") : units > most ? tooMuch : "";
}

function paymentsOf(contract) {
  return (contract.implementation?.transactions ?? []).map(({ id, value }) => ({ id, amount: value.amount }));
}

function idFault(one, contract) {
  const typed = one.value();
  const mended = typed.replace(/[^A-Za-z0-9_.-]+/g, "-").slice(0, 32);
  return !isId(typed) ? (isId(mended) ? say("contract.id.wrong", { mended }) : say("contract.id.none")) : [...paymentsOf(contract), ...(contract.amendments ?? [])].some(({ id }) => id === typed) ? say("contract.used") : "";
}

/** A warning if a payment's number or amount was used before, or ''. `paid` are the payments of all contracts
 * that the mirror knows. */
function warningOf({ contract, amount }, paid, typed, units) {
  const elsewhere = [...new Set(paid.filter((one) => one.payment === typed && one.contract !== contract.id).map((one) => one.contract))];
  const same = paymentsOf(contract).find((one) => one.amount === units);
  return [elsewhere.length > 0 ? say("pay.elsewhere", { id: typed, contracts: elsewhere.join(", ") }) : "",
    same ? say("pay.same", { id: same.id, amount: amount(units) }) : ""].join(" ").trim();
}

function payPart(contracted) {
  const { notice, contract, outstanding, again, amount } = contracted;
  if (outstanding === 0) {
    return element("p", {}, say("pay.nothing"));
  }
  const [id, sum] = [idField(), amountField(say("pay.most", { amount: amount(outstanding) }))];
  const warning = element("p", { class: "wrong", role: "status" });
  const here = (notice.compiled.contracts ?? []).flatMap((one) => paymentsOf(one).map((it) => ({ payment: it.id, contract: one.id })));
  let paid = here;
  const warn = () => { warning.textContent = warningOf(contracted, paid, id.value(), unitsOf(sum)); };
  rows("payments").then((all) => { paid = [...here, ...(all ?? [])]; }).then(warn, () => {});
  id.input.addEventListener("input", warn);
  sum.input.addEventListener("input", warn);
  const run = () => {
    const units = unitsOf(sum);
    const tooMuch = say("contract.over", { amount: amount(outstanding) });
    if (areRight([[id, idFault(id, contract)], [sum, amountFault(units, outstanding, tooMuch)]])) {
      return sendThen(payOrder(contracted, { id: id.value(), amount: units }, warning.textContent), again);
    }
  };
  return element("div", {}, element("h4", {}, say("pay.title")), form(say("pay.title"), [id.made, sum.made, warning], say("pay.send"), run));
}

/** The common part of all orders for a contract. The release of the order is one of those after the
 * releases that were shown. */
function orderOf({ notice, lot, contract }, kind, path, body, isOwn, { says, ...rest }) {
  const whose = say("contract.with", { contract: contract.id, lot: lot.id, name: lot.active.suppliers[0].name });
  return { kind, values: { contract: contract.id }, path: `/contracts/${contract.id}/${path}`, body: jsonBody(body), says: [whose, ...says],
    find: () => ofRelease(notice.name, notice.releases.length, isOwn), ...rest };
}

function payOrder(contracted, body, warning) {
  const { contract, outstanding, amount } = contracted;
  const says = [say("pay.does", { amount: amount(body.amount), id: body.id }), say("pay.left", { amount: amount(outstanding - body.amount) }),
    ...(warning ? [element("span", { class: "wrong" }, warning)] : [])];
  const told = (value) => say("order.pay.done", { outstanding: amount(value.outstanding) });
  return orderOf(contracted, "pay", "pay", body, own.pay(contract.id, body.id), { says, told, isFinal: true, again: "Exists" });
}

/** A raise takes free money of the budget line; a cut frees outstanding money. */
function changePart(contracted) {
  const { contract, outstanding, again, amount } = contracted;
  const options = [["raise", say("contract.raise")], ["cut", say("contract.cut")]];
  const kind = field(say("change.kind"), { kind: "choice", options, value: "raise", why: say("why.change") });
  const [id, sum] = [idField(), amountField(say("change.hint", { amount: amount(outstanding) }))];
  const why = field(say("rationale"), { hint: say("rationale.hint") });
  const run = () => {
    const units = unitsOf(sum);
    const most = kind.value() === "cut" ? outstanding : Infinity;
    const tooMuch = say("contract.over", { amount: amount(outstanding) });
    if (areRight([[id, idFault(id, contract)], [sum, amountFault(units, most, tooMuch)], [why, lineText(why.value())]])) {
      return sendThen(changeOrder(contracted, { id: id.value(), kind: kind.value(), amount: units, rationale: why.value() }), again);
    }
  };
  return element("details", {}, element("summary", {}, say("change.title")), freePart(contracted),
    form(say("change.title"), [kind.made, id.made, sum.made, why.made], say("change.send"), run));
}

/** The free money of the lot's budget line. */
function freePart({ lot, amount }) {
  const place = element("p", { class: "quiet" });
  line(lot.line, caller()).then((one) => place.append(say("change.free", { line: lot.line, free: amount(one.free) })), () => {});
  return place;
}

function changeOrder(contracted, body) {
  const { contract, worth, amount } = contracted;
  const after = worth + (body.kind === "cut" ? -body.amount : body.amount);
  const says = [say(`change.does.${body.kind}`, { amount: amount(body.amount), after: amount(after) }), say("published.reason")];
  const told = (value) => say("order.change.done", { contract: contract.id, outstanding: amount(value.outstanding) });
  return orderOf(contracted, "change", "amend", body, own.change(contract.id, body.id), { says, told, isFinal: true, again: "Exists" });
}

function endPart(contracted) {
  const end = (how) => () => sendThen(endOrder(contracted, how), contracted.again);
  return element("details", {}, element("summary", {}, say("end.title")), element("p", {}, say("end.what")),
    steps(button(say("end.regular"), end("regular")), button(say("end.default"), end("default"), "harm")));
}

/** A default must be confirmed by typing a word, because the security is forfeited. */
function endOrder(contracted, how) {
  const { notice, contract, outstanding, amount } = contracted;
  const secured = notice.terms.performance > 0 ? [say(`end.security.${how}`)] : [];
  const freed = outstanding > 0 ? [say("end.frees", { amount: amount(outstanding) })] : [];
  const sure = how === "default" ? { word: say("end.word"), isSad: true } : { isFinal: true };
  const says = [say(`end.does.${how}`), ...secured, ...freed, say("end.stays")];
  return orderOf(contracted, "end", "end", { how }, own.end(contract.id), { says, ...sure, again: "ContractEnded" });
}
