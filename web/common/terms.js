// The terms of a notice, as everybody reads them.
import { element } from "./draw.js";
import { money } from "./money.js";
import { say } from "./texts.js";

/** The required security, or that there is none. */
export function asked(amount, currency) {
  return amount > 0 ? money(amount, currency) : say("see.noneasked");
}

/** The award criteria. */
function criteria({ criteria: kind, price_weight: weight }) {
  return kind === "price" ? say("see.criteria.price") : say("see.criteria.points", { weight, rest: 100 - weight });
}

/** The terms as a list. */
export function termList(terms, currency) {
  const days = (count) => say("see.days", { count });
  const told = [[say("see.criteria"), criteria(terms)], [say("see.validity"), days(terms.validity_days)], [say("see.standstill"), days(terms.standstill_days)],
    [say("see.late"), say(`see.late.${terms.late_withdrawal}`)], [say("see.performance"), asked(terms.performance, currency)]];
  return element("dl", { class: "terms" }, told.map(([name, value]) => [element("dt", {}, name), element("dd", {}, value)]));
}
