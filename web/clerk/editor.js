// The editor of a notice: its terms and lots, what the office would refuse, warnings, and its size.
import { element, link, placeOf, section, title } from "../common/draw.js";
import { DIGITS, ID, asks, button, growing, steps } from "../common/forms.js";
import { moment, secondsTo, span } from "../common/money.js";
import { ledger, notices, officeNow } from "../common/office.js";
import { hasText, say } from "../common/texts.js";
import { titlesOf } from "../common/titles.js";
import { answers, warningList } from "./answers.js";
import { momentField } from "./deadline.js";
import { beginnings, saving } from "./drafts.js";
import { ofNotice } from "./fate.js";
import { bound, boundTitle, drawLots, drawMoney, pasting } from "./lots.js";
import { bodyBytes, faultsOf, newDraft, warningsOf } from "./notice.js";
import { sendThen } from "./send.js";
import { caller, draft as kept, draftSaved, keepDraft, touchDraft } from "./session.js";
import { MOST, momentText } from "./values.js";

export async function drawEditor(again) {
  const [ledgerLines, list, titles] = await Promise.all([ledger(caller()), notices(), titlesOf([])]);
  const draft = kept() ?? newDraft();
  if (!kept()) {
    keepDraft(draft);
  }
  const editor = { draft, lines: new Map(ledgerLines.map((one) => [one.line, one])), list, titles, isChecked: false, again, inputs: new Map(),
    summary: element("div", {}), lots: element("div", {}) };
  editor.changed = () => {
    touchDraft();
    drawSummary(editor);
  };
  editor.redrawLots = () => {
    drawLots(editor);
    editor.changed();
  };
  const content = [title(say("page.new")), element("p", { class: "intro" }, say("editor.intro")), beginnings(editor),
    section(say("see.terms"), terms(editor)), section(say("editor.lots"), pasting(editor), editor.lots), section(say("editor.check"), editor.summary)];
  drawLots(editor);
  drawSummary(editor);
  return { title: say("page.new"), content };
}

function terms(editor) {
  const { draft } = editor;
  const own = (name, options = {}) => bound(editor, name, draft, name, say(`editor.${name}`), { why: hasText(`why.${name}`) ? say(`why.${name}`) : "", ...options });
  const hinted = (name, more = {}) => own(name, { hint: say(`editor.${name}.hint`), ...more });
  const pairs = (...names) => names.map((name) => [name.split(".").at(-1), say(`editor.${name}`)]);
  const weight = hinted("weight", DIGITS);
  const criteria = own("criteria", { kind: "choice", options: pairs("price", "points") });
  const showWeight = () => { weight.made.hidden = draft.criteria !== "points"; };
  criteria.input.addEventListener("input", showWeight);
  showWeight();
  const deadline = momentField(say("see.deadline"), draft.deadline, (found, typed) => {
    Object.assign(draft, { deadline: found, typed });
    editor.changed();
  });
  editor.inputs.set("deadline", deadline);
  return element("div", { class: "fields" }, [hinted("name", ID), boundTitle(editor, "title", draft, say("editor.title")), deadline,
    hinted("validity", DIGITS), hinted("standstill", DIGITS), criteria,
    weight, own("late", { kind: "choice", options: pairs("late.refused", "late.forfeits") }), hinted("performance", DIGITS)].map(({ made }) => made));
}

/** A fault as a sentence. */
function faultText({ code, value = "", least = 0, most = 0, amount = 0, free = 0 }) {
  return say(code.startsWith("text.") ? code : `fault.${code}`, { value, least, most, amount, free });
}

/** The place of a fault, in words. */
function placeText(editor, path) {
  const [, lot, , item] = path.split(".");
  const label = editor.inputs.get(path)?.made.querySelector("label")?.textContent ?? say("editor.lots");
  if (lot === undefined) {
    return label;
  }
  const name = editor.draft.lots[lot]?.id || `#${Number(lot) + 1}`;
  const parts = [say("editor.at.lot", { lot: name }), item === undefined ? "" : say("editor.at.item", { item: String(Number(item) + 1) }), label];
  return parts.filter(Boolean).join(", ");
}

/** Beside the fields: the notice's size, its money, its faults and warnings. */
function drawSummary(editor) {
  const { draft, lines, summary } = editor;
  drawMoney(editor);
  const now = officeNow();
  const faults = faultsOf(draft, lines, now);
  if (editor.list.some(({ notice }) => notice === draft.name)) {
    faults.push({ field: "name", code: "used", value: draft.name });
  }
  for (const [path, one] of editor.inputs) {
    const fault = faults.find((it) => it.field === path);
    one.tell(editor.isChecked && fault ? faultText(fault) : "");
  }
  const empty = button(say("editor.empty"), async () => {
    if (await asks(say("editor.empty.ask"), say("editor.empty.what"), say("editor.empty.do"), say("editor.empty.keep"))) {
      // (also one that was saved comes back)
      touchDraft();
      keepDraft(null);
      editor.again();
    }
  }, "second harm");
  const preview = faults.length === 0 ? link(say("editor.preview"), "#preview", "button second") : noPreview();
  summary.replaceChildren(sizePart(bodyBytes(draft).length), faultList(editor, faults), warningList(warningTexts(draft, now)) ?? "",
    steps(button(say("editor.publish"), () => publish(editor, faults)), preview, saving(draft)), steps(empty));
}

/** The preview button while there is no preview yet, and why. */
function noPreview() {
  const off = button(say("editor.preview"), () => {}, "second");
  off.disabled = true;
  return [off, element("span", { class: "quiet" }, say("editor.nopreview"))];
}

/** The size of the notice, as words and as a bar. */
function sizePart(bytes) {
  const meter = element("meter", { min: "0", max: String(MOST.body), high: String(MOST.body * 0.9), value: String(Math.min(bytes, MOST.body)),
    "aria-label": say("editor.sizename") });
  return element("p", {}, say("editor.size", { bytes, most: MOST.body }), " ", meter);
}

const MOST_FAULTS = 12;

function faultList(editor, faults) {
  if (faults.length === 0) {
    return element("div", { class: "good" }, element("p", {}, say("editor.right")));
  }
  if (!editor.isChecked && JSON.stringify(editor.draft) === JSON.stringify(newDraft())) {
    return element("p", { class: "quiet" }, say("editor.begin"));
  }
  const go = (fault) => button(placeText(editor, fault.field), () => focusOn(editor, fault), "second small");
  const lineOf = (fault) => element("li", {}, go(fault), " ", faultText(fault));
  const list = element("ul", { class: "plain" });
  return element("div", { class: editor.isChecked ? "bad" : "look" }, element("p", {}, say("editor.faults", { count: faults.length })),
    growing(list, faults, lineOf, MOST_FAULTS));
}

/** Goes to the field of a fault, if it has one. */
function focusOn(editor, fault) {
  const at = editor.inputs.get(fault.field);
  at?.input.closest("details")?.setAttribute("open", "");
  at?.input.focus();
}

/** The warnings as sentences. */
function warningTexts(draft, now) {
  return warningsOf(draft, now).map(({ code, value = "", amount = 0, least = 0 }) =>
    say(`warning.${code}`, { value: code === "near" ? span(secondsTo(draft.deadline)) : value, amount, least, count: amount }));
}

async function publish(editor, faults) {
  const { draft } = editor;
  editor.isChecked = true;
  drawSummary(editor);
  if (faults.length > 0) {
    focusOn(editor, faults[0]);
    return null;
  }
  editor.titles = await titlesOf(linesOf(draft));
  return sendThen(publication(editor), () => {
    draftSaved();
    keepDraft(null);
    location.hash = placeOf("notice", draft.name);
  });
}

/** The budget lines of a draft. */
function linesOf({ lots }) {
  return [...new Set(lots.map(({ line }) => line))];
}

/** The order that publishes a draft. Its window shows all answers, and all warnings again. */
function publication(editor) {
  const { draft } = editor;
  const sum = draft.lots.reduce((all, { estimate }) => all + Number(estimate), 0);
  const items = draft.lots.reduce((all, lot) => all + lot.items.length, 0);
  const lines = linesOf(draft).map((line) => `${line} ${editor.titles.get(line) ?? ""}`.trim()).join("; ");
  return { kind: "notice", values: { notice: draft.name }, path: `/notices/${draft.name}`, body: bodyBytes(draft), isFinal: true,
    says: [[say("editor.does.deadline"), " ", moment(momentText(draft.deadline)), "."], say("editor.does.money", { sum, lines }),
      say("editor.does.lots", { lots: draft.lots.length, items, count: draft.lots.length }), say("editor.does.stays")],
    shows: (leave) => [warningList(warningTexts(draft, officeNow())), answers(draft, editor.titles, (path) => {
      leave();
      setTimeout(() => focusOn(editor, { field: path }));
    })],
    again: "Exists", find: () => ofNotice(draft.name) };
}
