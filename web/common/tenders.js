// The opened tenders of a lot as a table: prices, points with their arithmetic, results, and securities.
import { badge, below, element, given, link, placeOf } from "./draw.js";
import { awardsOf, contractOf, hasPoints, kindOfSigned, lowestOf, outcomeOf, pointsOf, securityOf } from "./findings.js";
import { table } from "./forms.js";
import { money, number } from "./money.js";
import { language, say } from "./texts.js";

function who({ name, address, receipt, tenderer }, linked, isShort) {
  const number = say("see.tender.receipt", { receipt: String(receipt) });
  return [linked ? link(given(name), placeOf("firm", tenderer)) : given(name),
    isShort ? below(given(address), " · ", number) : [below(given(address)), below(number)]];
}

function priceOf({ reading, stated, corrected, corrections }, currency) {
  if (reading !== "priced") {
    return "–";
  }
  return [money(corrected, currency), corrections > 0 ? below(say("see.tender.stated", { stated: number(stated), count: corrections })) : null];
}

/** The points of a tender with their arithmetic, such as `60 × 500 ÷ 750 = 40`, its quality, and the sum. */
function pointsShown(found, weight, lowest) {
  const points = found ? pointsOf(found) : null;
  if (points === null) {
    return "–";
  }
  const decimals = (value) => new Intl.NumberFormat(language(), { maximumFractionDigits: 3 }).format(value);
  const price = found.price === 0 ? say("see.points.free", { weight })
    : `${number(weight)} × ${number(lowest)} ÷ ${number(found.price)} = ${decimals(points.price)}`;
  return [element("b", {}, decimals(points.sum)), below(say("see.points.price"), " ", price), below(say("see.points.quality"), " ", number(points.quality))];
}

/** The tenders from the best to the last: by points if they are shown, then by price, then by time. */
export function ranked(tenders, byPoints, shown) {
  const price = ({ reading, corrected }) => (reading === "priced" ? corrected : Infinity);
  const points = ({ receipt }) => (byPoints ? shown?.tenders.get(receipt)?.points ?? -1 : 0);
  return tenders.toSorted((one, other) => points(other) - points(one)
    || (price(one) === price(other) ? one.receipt - other.receipt : price(one) - price(other)));
}

/** The result of a tender: its badge, and why. */
function found(tender, shown, byPoints, contract) {
  const [kind, name] = outcomeOf(tender, shown, byPoints);
  return [badge(name === "signed" ? kindOfSigned(contract) : kind, say(`see.outcome.${name}`)), element("span", { class: "below" }, say(`see.why.${name}`))];
}

/** The state of a tender's security: from `securities`, if the reader may see them, else as far as it follows
 * from published data. */
function securityShown({ terms, securities }, lot, tender, shown) {
  const own = securities?.findLast((one) => one.lot === lot.id && one.tenderer === tender.tenderer);
  const told = own ? [say(`security.${own.state}`), below(given(own.reference), ", ", money(own.amount, lot.value.currency))]
    : securities ? "–" : say(`security.${securityOf(tender, shown, lot.status, terms.late_withdrawal === "forfeits")}`);
  return element("span", { class: "word" }, told);
}

/** The table. `notice` has the compiled record, the terms, and the securities if the reader may see them; on
 * the public page firms are links. `ofTender` gives what is shown in place of a tender's result, or null. `shown` is the lot's evaluation, or undefined. */
export function tenderTable(notice, lot, tenders, shown) {
  const { compiled, terms, linked = false } = notice;
  const byPoints = terms.criteria === "points";
  const lowest = lowestOf(shown);
  const contract = awardsOf(compiled, lot).map((award) => contractOf(compiled, award)).find(Boolean);
  const isSecured = terms.lots.find(({ id }) => id === lot.id)?.security > 0;
  const weight = terms.price_weight;
  const isByPoints = byPoints && hasPoints(shown);
  const heads = [say("see.tenderer"), say("see.price"), ...(isByPoints ? [say("see.points")] : []), say("see.found"),
    ...(isSecured ? [say("see.security")] : [])];
  const rows = ranked(tenders, byPoints, shown).map((tender) => [who(tender, linked, Boolean(notice.ofTender)), priceOf(tender, lot.value.currency),
    ...(isByPoints ? [pointsShown(shown.tenders.get(tender.receipt), weight, lowest)] : []), notice.ofTender?.(tender) ?? found(tender, shown, byPoints, contract),
    ...(isSecured ? [securityShown(notice, lot, tender, shown)] : [])]);
  const caption = say(isByPoints ? "see.table.points" : "see.table", { count: rows.length, lot: lot.id });
  const rule = isByPoints && lowest !== null ? say("see.points.rule", { weight, lowest: number(lowest), rest: 100 - weight }) : null;
  return [rule ? element("p", { class: "quiet" }, rule) : null, table(caption, heads, rows, { figures: isByPoints ? [1, 2] : [1] })];
}
