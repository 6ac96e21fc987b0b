// A procurement, drawn from its record, releases, terms, minutes and evaluation.
import { against, contractPart } from "./contract.js";
import { documentPart } from "./documents.js";
import { badge, below, element, facts, given, link, listed, placeOf, section, title } from "./draw.js";
import { addedTo, awardsOf, contractOf, kindOfSigned, paidOf, passedOver, stateOf, stateOfLot } from "./findings.js";
import { note, table } from "./forms.js";
import { clock, day, money, moment, number } from "./money.js";
import { officeNow } from "./office.js";
import { seenOf } from "./seen.js";
import { language, say } from "./texts.js";
import { tenderTable } from "./tenders.js";
import { asked, termList } from "./terms.js";
import { timeline } from "./timeline.js";
import { lineWithTitle } from "./titles.js";

// If there are more lots than this, they are folded, except for those that somebody unfolded or that need
// something now.
const FEW = 3;
const unfolded = new Set();

function stateBadge(/** @type {any[]} */ [kind, name]) {
  return badge(kind, say(`see.is.${name}`));
}

function items({ compiled }, lot) {
  const own = (compiled.tender.items ?? []).filter(({ relatedLot }) => relatedLot === lot.id);
  return listed(4, say("see.items"), own.map((item) => [`${number(item.quantity)} × `, given(item.description)]));
}

function awardPart({ compiled, passed }, lot, award) {
  const contract = contractOf(compiled, award);
  const active = contract ? [kindOfSigned(contract), "signed"] : ["running", "unsigned"];
  const [kind, name] = award.status === "active" ? active : ["stopped", passed.has(award.id) ? "passed" : "awardended"];
  return [element("b", {}, given(award.suppliers[0].name)), ": ", money(award.value.amount, award.value.currency), " ", badge(kind, say(`see.award.${name}`)),
    element("span", { class: "below" }, against(award.value, lot.value)), below(say("see.awarded"), " ", day(award.date))];
}

function tenderPart(notice, lot) {
  const tenders = notice.tenders?.filter((tender) => tender.lot === lot.id) ?? null;
  if (tenders === null) {
    const isDue = stateOf(notice.compiled, officeNow())[1] === "waiting";
    return say(lot.status === "cancelled" ? "see.unopened.cancelled" : isDue ? "see.unopened.due" : "see.unopened");
  }
  const shown = notice.evaluation?.get(lot.id);
  return tenders.length === 0 ? element("p", {}, say("see.notenders"))
    : [shown ? null : element("p", { class: "note" }, say("see.hidden")), notice.pictures?.pricesOf(notice, lot, tenders, shown),
      tenderTable(notice, lot, tenders, shown)];
}

function lotPart(notice, lot, folds) {
  const { compiled } = notice;
  const { currency } = lot.value;
  const made = awardsOf(compiled, lot);
  const own = notice.terms.lots.find(({ id }) => id === lot.id);
  const named = lineWithTitle(own.line, notice.titles);
  const line = notice.linked ? link(named, placeOf("line", own.line)) : named;
  const head = [say("see.lot", { lot: lot.id }), " ", given(lot.title), " ", stateBadge(stateOfLot(compiled, lot))];
  const contracts = made.map((award) => [contractOf(compiled, award), award]).filter(([one]) => one);
  const content = [
    facts([[say("see.estimate"), money(lot.value.amount, currency)], [say("see.line"), line], [say("see.security.asked"), asked(own.security, currency)]]),
    items(notice, lot), listed(4, say("see.awards", { count: made.length }), made.map((award) => awardPart(notice, lot, award)), { class: "awards" }),
    notice.linked ? element("p", { class: "quiet" }, link(say("see.lot.address"), placeOf("notice", notice.name, lot.id))) : null,
    notice.firstOfLot?.(lot) ?? element("h4", {}, say("see.tenders")), tenderPart(notice, lot), notice.ofLot?.(lot),
    contracts.map(([one, award]) => contractPart(one, award, lot, notice, notice.ofContract?.(one)))];
  return element("article", { id: `lot-${lot.id}`, tabindex: "-1", class: "card", "aria-label": say("see.lot", { lot: lot.id }) },
    folds ? folded(`${notice.name}/${lot.id}`, notice.isPressing?.(lot), head, content) : [element("h3", {}, head), content]);
}

/** A folded lot. It keeps its state when the view is drawn again. */
function folded(name, isPressing, head, content) {
  const made = element("details", isPressing || unfolded.has(name) ? { open: "" } : {}, element("summary", {}, element("h3", {}, head)), content);
  made.addEventListener("toggle", () => (made.open ? unfolded.add(name) : unfolded.delete(name)));
  return made;
}

/** For each lot: the estimate, the price, the changes and the payments, once there is an award. */
function moneyTable({ compiled }) {
  const { lots, value: { currency } } = compiled.tender;
  const rows = lots.map((lot) => {
    const award = awardsOf(compiled, lot).find(({ status }) => status === "active");
    const contract = award && contractOf(compiled, award);
    return [lot, award?.value.amount ?? null, contract ? addedTo(contract, award) : null, contract ? paidOf(contract) : null];
  });
  if (rows.every(([, price]) => price === null)) {
    return null;
  }
  const total = (at) => rows.reduce((sum, row) => sum + (row[at] ?? 0), 0);
  const shown = (amount) => (amount === null ? "–" : number(amount));
  const cells = rows.map(([lot, ...amounts]) => [[`${lot.id} `, given(lot.title)], number(lot.value.amount), ...amounts.map(shown)]);
  const foot = rows.length > 1 ? [say("see.together"), number(compiled.tender.value.amount), ...[1, 2, 3].map((at) => number(total(at)))] : null;
  return section(say("see.money"), table(say("see.money.what", { currency }),
    [say("see.lot.short"), say("see.estimate"), say("see.price"), say("see.added"), say("see.paid")], cells, { figures: [1, 2, 3, 4], foot }));
}

function factsOf({ name, compiled: { tender, buyer }, isPreview }, state) {
  const count = tender.numberOfTenderers;
  const deadline = [moment(tender.tenderPeriod.endDate), state === "open" && !isPreview ? [" ", clock(tender.tenderPeriod.endDate)] : null];
  const tenderers = count !== undefined ? number(count) : say(tender.status === "cancelled" ? "see.tenderers.none" : "see.tenderers.sealed");
  return facts([[say("see.notice"), name], [say("see.buyer"), given(buyer.name)], [say("see.estimate"), money(tender.value.amount, tender.value.currency)],
    [say("see.published"), day(tender.tenderPeriod.startDate)], [say("see.deadline"), deadline], [say("see.tenderers"), tenderers]]);
}

/** Links to the page of a notice that needs no script, and to the office's own answers. */
function sources({ name, tenders, linked, documents }) {
  const paths = ["record", "releases", "terms", ...(tenders ? ["minutes", "evaluation"] : [])].map((path) => `/notices/${name}/${path}`);
  const page = linked && documents !== null ? element("p", {}, link(say("see.share"), `/data/${language()}/${name}.html`)) : null;
  return [page, section(say("see.raw"), element("ul", {}, paths.map((path) => element("li", {}, link(path, path)))))];
}

/** The whole of a notice, which has the members that `seenOf` returns. More members: `isPreview`; `linked`,
 * if budget lines and firms are views of this page; and `above`, the content above the lots. `firstOfLot` and
 * `ofLot` add to each lot before and after its tenders, `ofTender` replaces a tender's result, `ofContract` to each contract. `isPressing` has the
 * lots that need something now. */
export function drawProcess(notice) {
  const { compiled, releases: all } = notice;
  const { tender } = compiled;
  const state = stateOf(compiled, officeNow());
  const told = { ...notice, passed: passedOver(all) };
  const drawn = [title(given(tender.title)), element("p", {}, stateBadge(state)), factsOf(notice, state[1]), notice.above,
    notice.pictures?.daysOf(notice),
    element("div", { class: "process" },
      element("div", {}, moneyTable(notice), section(say("see.lots.title"), tender.lots.map((lot) => lotPart(told, lot, tender.lots.length > FEW)))),
      element("div", {}, section(say("see.terms"), termList(notice.terms, tender.value.currency)), documentPart(notice.documents), section(say("see.happened"), timeline(all, compiled)))),
    notice.isPreview ? null : sources(notice)].flat(Infinity).filter(Boolean);
  for (const text of drawn.flatMap((part) => [...part.querySelectorAll("bdi")])) {
    text.lang = compiled.language;
  }
  return drawn;
}

/** The lot that an address means, in whatever case; undefined if there is none. */
function lotOf({ tender: { lots } }, asked) {
  const same = lots.filter(({ id }) => id.toLowerCase() === asked.toLowerCase());
  return lots.find(({ id }) => id === asked) ?? (same.length === 1 ? same[0] : undefined);
}

/** The public view of a notice, and of one of its lots if the address names it. */
export async function drawNotice(name, ...rest) {
  const notice = await seenOf(name);
  const { compiled } = notice;
  const asked = rest.join("/");
  const lot = lotOf(compiled, asked);
  const [, state] = stateOf(compiled, officeNow());
  const offer = state === "open" ? element("p", {}, link(say("see.offer"), `/tender/#offer/${name}`, "button")) : null;
  const above = [asked && !lot ? note("bad", say("refusal.NoSuch.lot")) : null, offer];
  if (lot) {
    unfolded.add(`${name}/${lot.id}`);
  }
  return { title: compiled.tender.title, told: say(`see.is.${state}`), content: drawProcess({ ...notice, linked: true, above }),
    part: lot && `lot-${lot.id}` };
}
