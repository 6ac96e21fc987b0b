// "Check your answers": everything that a notice will say, before it is published, each with a way back to its
// field.
import { element, given } from "../common/draw.js";
import { button, table } from "../common/forms.js";
import { moment, number } from "../common/money.js";
import { say } from "../common/texts.js";
import { lineWithTitle } from "../common/titles.js";
import { momentText } from "./values.js";

// If there are more lots than this, they are folded.
const FEW = 3;

/** A list of warnings, if there are any. */
export function warningList(texts) {
  return texts.length === 0 ? null : element("div", { class: "look" }, element("p", {}, say("editor.warnings")),
    element("ul", {}, texts.map((text) => element("li", {}, text))));
}

/** All answers of a draft, with the titles of budget lines. `back` goes to the field with a name. */
export function answers(draft, titles, back) {
  const pick = (name, value) => say(`editor.${name}.${value}`);
  const rows = [["name", say("editor.name"), draft.name], ["title", say("editor.title"), given(draft.title)],
    ["deadline", say("see.deadline"), moment(momentText(draft.deadline))], ["validity", say("editor.validity"), number(Number(draft.validity))],
    ["standstill", say("editor.standstill"), number(Number(draft.standstill))], ["criteria", say("editor.criteria"), say(`editor.${draft.criteria}`)],
    ...(draft.criteria === "points" ? [["weight", say("editor.weight"), number(Number(draft.weight))]] : []),
    ["late", say("editor.late"), pick("late", draft.late)], ["performance", say("editor.performance"), amount(draft.performance)]];
  const isFolded = draft.lots.length > FEW;
  return element("div", { class: "answers" }, element("h3", {}, say("answers.title")), answerTable(say("see.terms"), rows, back),
    draft.lots.map((lot, at) => lotPart(lot, titles, `lots.${at}`, back, isFolded)));
}

/** An amount, or that none is required. */
function amount(text) {
  return Number(text) === 0 ? say("answers.none") : number(Number(text));
}

function answerTable(caption, rows, back) {
  const heads = [say("answers.field"), say("answers.answer"), say("answers.way")];
  return table(caption, heads, rows.map(([path, label, value]) => [label, value, change(path, label, back)]));
}

/** The button that leads back to a field. */
function change(path, label, back) {
  const made = button(say("answers.change"), () => back(path), "second small");
  made.setAttribute("aria-label", say("answers.change.of", { name: label }));
  return made;
}

function lotPart(lot, titles, path, back, isFolded) {
  const head = say("lots.lot", { lot: lot.id, title: lot.title, items: lot.items.length, count: lot.items.length });
  const rows = [["lotTitle", "title", given(lot.title)], ["line", "line", lineWithTitle(lot.line, titles)], ["estimate", "estimate", number(Number(lot.estimate))],
    ["security", "security", amount(lot.security)]].map(([label, name, value]) => [`${path}.${name}`, say(`column.${label}`), value]);
  const heads = ["item", "title", "quantity"].map((name) => say(`column.${name}`));
  const items = lot.items.map((item, at) => [item.id, given(item.title), number(Number(item.quantity)),
    change(`${path}.items.${at}.title`, `${lot.id}/${item.id}`, back)]);
  const content = [answerTable(say("see.lot", { lot: lot.id }), rows, back),
    table(say("answers.items", { lot: lot.id }), [...heads, say("answers.way")], items, { figures: [2] })];
  return isFolded ? element("details", { class: "card" }, element("summary", {}, head), content) : [element("h3", {}, head), content];
}
