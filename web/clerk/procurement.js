// The screen of one notice: the public page, the steps, the next tasks, and the forms for each lot and
// contract.
import { element, link, placeOf, section } from "../common/draw.js";
import { note } from "../common/forms.js";
import { drawProcess } from "../common/process.js";
import { say } from "../common/texts.js";
import { awardPart, letters } from "./award.js";
import { contractPart } from "./contracts.js";
import { cancelPart, movePart, openingPart, registerPart } from "./deadline.js";
import { examinations } from "./examine.js";
import { tasks } from "./load.js";
import { may } from "./session.js";
import { STEPS, stepOf } from "./stage.js";
import { loadNotice } from "./whole.js";

// The section of the help for each step, and for the end.
const HELP = { tenders: "while-tenders-come-and-the-opening", opening: "while-tenders-come-and-the-opening", examination: "examine-and-award-a-lot",
  award: "examine-and-award-a-lot", signing: "sign-or-pass-over-the-winner", contract: "pay-change-and-end-a-contract", over: "pay-change-and-end-a-contract" };

/** `asked` is a lot, and `place` another part of the screen. */
export async function drawProcurement(again, name, asked = "", place = "") {
  const notice = await loadNotice(name);
  const { compiled, stage } = notice;
  const lotOf = ({ id }) => stage.lots.find((lot) => lot.id === id);
  // (after a command for a lot, the focus returns to the lot)
  const behind = ({ id }) => () => again("", false, `lot-${id}`);
  const isOpened = stage.kind === "opened";
  const examined = new Map(isOpened ? stage.lots.map((lot) => [lot.id, examinations(notice, lot, behind(lot))]) : []);
  const firstOfLot = ({ id }) => examined.get(id)?.before ?? null;
  const ofTender = ({ lot, receipt }) => examined.get(lot)?.of(receipt) ?? null;
  const ofLot = (lot) => (isOpened ? [examined.get(lot.id)?.after ?? null, awardPart(notice, lotOf(lot), behind(lot))] : null);
  const ofContract = (one) => ({ ...notice.contracts.get(one.id), more: contractPart(notice, one, behind) });
  const isPressing = (lot) => lot.id === asked || (isOpened && ["undecided", "awarded"].includes(lotOf(lot).state));
  const content = drawProcess({ ...notice, above: [path(stage), doing(name, stage), parts(notice, again)], firstOfLot, ofTender, ofLot, ofContract, isPressing });
  return { title: `${name}: ${compiled.tender.title}`, content: [content, stage.canCancel && may("notices") ? cancelPart(notice, again) : null],
    part: lotOf({ id: asked }) ? `lot-${asked}` : place, help: HELP[stepOf(stage)] };
}

/** The steps, with the current one marked. */
function path(stage) {
  const at = stepOf(stage);
  const steps = STEPS.map((step) => element("li", step === at ? { "aria-current": "step" } : {}, say(`step.${step}`)));
  return at === null ? null : element("ol", { class: "path", "aria-label": say("step.title") }, steps);
}

/** The next tasks, and those of others; then the dates to wait for. */
function doing(name, stage) {
  const { todo, dates } = tasks(name, stage);
  return [todo.length === 0 ? element("p", { class: "note" }, say("task.none")) : note("look", say("today.next"), element("ul", {}, todo)),
    dates.length > 0 ? element("ul", { class: "quiet", "aria-label": say("task.dates") }, dates) : null];
}

function parts(notice, again) {
  const of = { receiving: [...(may("notices") ? [movePart] : []), openingPart, registerPart], due: [openingPart, registerPart], opened: [minutesPart, registerPart],
    cancelled: [lettersPart, registerPart] };
  return of[notice.stage.kind].map((part) => part(notice, again));
}

/** A notice that was cancelled before its opening: one letter for each lot, to everybody who tendered. */
function lettersPart(notice) {
  const { lots } = notice.stage;
  return section(say("letters.link"), element("p", {}, lots.map((lot, at) => [at > 0 ? " · " : "", say("see.lot", { lot: lot.id }), ": ", letters(notice, lot)])));
}

function minutesPart({ name }) {
  return section(say("minutes.title"), element("p", {}, link(say("minutes.link"), placeOf("minutes", name)), " · ",
    link(say("public.page"), `/#notice/${name}`)));
}
