// The lots in the editor: typed, or pasted from a spreadsheet; with the free money of each budget line.
import { element } from "../common/draw.js";
import { DIGITS, ID, button, field, note, steps } from "../common/forms.js";
import { number } from "../common/money.js";
import { say } from "../common/texts.js";
import { newLot, wantedOf } from "./notice.js";
import { COLUMNS, lotsOf } from "./sheet.js";
import { MOST, amountOf, digitsOf } from "./values.js";

// At most this many lots are unfolded, and at most this many budget lines are offered in a menu. Beyond that,
// the field completes what is typed.
const UNFOLDED = 3;
const MOST_CHOSEN = 100;
// The fields of a draft that are amounts.
const AMOUNTS = ["estimate", "security", "performance"];

/** A field of the draft. The draft changes with each key; a number loses its separators when the field loses
 * the focus. `path` is the field's name in the faults. */
export function bound(editor, path, object, name, label, options) {
  const made = field(label, { ...options, value: object[name] });
  made.input.addEventListener("input", () => {
    object[name] = (options.inputmode && (AMOUNTS.includes(name) ? amountOf : digitsOf)(made.input.value)) || made.input.value;
    editor.changed();
  });
  made.input.addEventListener("change", () => { made.input.value = object[name]; });
  editor.inputs.set(path, made);
  return made;
}

/** The same for a title: wide enough for its 200 letters. Line ends become spaces. */
export function boundTitle(editor, path, object, label) {
  const made = bound(editor, path, object, "title", label, { kind: "lines", rows: "2" });
  made.made.classList.add("wide");
  made.input.addEventListener("keydown", (event) => event.key === "Enter" && event.preventDefault());
  made.input.addEventListener("input", () => { made.input.value = made.input.value.replace(/\s*[\r\n]+\s*/g, " "); }, { capture: true });
  return made;
}

/** A pasted table, which replaces the lots. */
export function pasting(editor) {
  const columns = Object.keys(COLUMNS).map((name) => say(`column.${name}`)).join(", ");
  const text = field(say("lots.paste"), { hint: say("lots.paste.hint", { columns }), kind: "lines" });
  const told = element("div", { "aria-live": "polite" });
  const take = () => {
    const { lots, faults, changes } = lotsOf(text.input.value);
    told.replaceChildren(...outcome(lots, faults, changes));
    if (lots.length > 0) {
      editor.draft.lots = lots.map((lot) => ({ ...lot, security: lot.security || "0" }));
      editor.redrawLots();
    }
  };
  return element("details", {}, element("summary", {}, say("lots.pasting")), text.made, steps(button(say("lots.take"), take)), told);
}

const MOST_TOLD = 20;

/** The result of a pasted table. */
function outcome(lots, faults, changes) {
  const items = lots.reduce((sum, lot) => sum + lot.items.length, 0);
  const wrong = faults.slice(0, MOST_TOLD).map(({ line, code, value = "", name = "", told = "" }) =>
    element("li", {}, say(`paste.${code}`, { line: String(line), value, told, name: name ? say(`column.${name}`) : "" })));
  const changed = changes.slice(0, MOST_TOLD).map(({ line, name, value, told }) =>
    element("li", {}, say("paste.changed", { line: String(line), name: say(`column.${name}`), value, told })));
  return [lots.length > 0 ? note("good", say("paste.taken", { lots: lots.length, items, count: lots.length })) : null,
    wrong.length > 0 ? note("bad", say("paste.wrong", { count: faults.length }), element("ul", {}, wrong)) : null,
    changed.length > 0 ? note("look", say("paste.read", { count: changes.length }), element("ul", {}, changed)) : null].filter(Boolean);
}

/** Draws all lots again. */
export function drawLots(editor) {
  for (const path of [...editor.inputs.keys()].filter((it) => it.startsWith("lots"))) {
    editor.inputs.delete(path);
  }
  editor.money = new Map();
  const { lots } = editor.draft;
  const add = button(say("lots.add"), () => {
    lots.push(newLot(nextId("L", lots)));
    editor.redrawLots();
    unfold(editor, `lots.${lots.length - 1}.id`);
  }, "second");
  const choices = element("datalist", { id: "lines" }, [...editor.lines.values()].map(({ line, free }) =>
    element("option", { value: line }, say("lots.free", { free }))));
  editor.lots.replaceChildren(choices, ...lots.map((lot, at) => lotPart(editor, lot, at)),
    steps(lots.length < MOST.lots ? add : ""));
}

/** Moves the focus to a field, and unfolds the lot around it. */
function unfold(editor, path) {
  const { input } = editor.inputs.get(path);
  input.closest("details").open = true;
  input.focus();
}

/** The next free identifier, such as `L3`. */
function nextId(letter, list) {
  let count = list.length + 1;
  while (list.some(({ id }) => id === `${letter}${count}`)) {
    count += 1;
  }
  return `${letter}${count}`;
}

function lotPart(editor, lot, at) {
  const path = `lots.${at}`;
  const summary = element("summary", {});
  const entitle = () => summary.replaceChildren(say("lots.lot", { lot: lot.id, title: lot.title, items: lot.items.length, count: lot.items.length }));
  const titled = ({ input, made }) => {
    input.addEventListener("input", entitle);
    return made;
  };
  const own = (name, column, options = {}) => titled(bound(editor, `${path}.${name}`, lot, name, say(`column.${column}`), options));
  entitle();
  const money = element("p", { class: "quiet" });
  editor.money.set(at, money);
  const away = button(say("lots.remove"), () => {
    editor.draft.lots.splice(at, 1);
    editor.redrawLots();
  }, "second");
  const fields = [own("id", "lot", ID), titled(boundTitle(editor, `${path}.title`, lot, say("column.lotTitle"))),
    element("div", {}, own("line", "line", lineOptions(editor, lot.line)), money),
    own("estimate", "estimate", { why: say("why.estimate"), ...DIGITS }),
    own("security", "security", { hint: say("lots.security.hint"), why: say("why.security"), ...DIGITS })];
  const isOpen = editor.draft.lots.length <= UNFOLDED ? { open: "" } : {};
  return element("details", { class: "card", ...isOpen }, summary, element("div", { class: "fields" }, fields), itemTable(editor, lot, path),
    steps(addItem(editor, lot, path), editor.draft.lots.length > 1 ? away : ""));
}

/** The budget lines as a menu, each with its free money. A line that doesn't exist stays in it, so that the
 * fault can be shown. */
function lineOptions({ lines, titles }, held) {
  if (lines.size > MOST_CHOSEN) {
    return { ...ID, list: "lines", hint: say("lots.noline") };
  }
  const known = [...lines.values()].map(({ line, free }) => [line, `${line} ${titles.get(line) ?? ""} (${say("lots.free", { free })})`.replace("  ", " ")]);
  return { kind: "choice", options: [["", say("lots.noline")], ...known, ...(held === "" || lines.has(held) ? [] : [[held, held]])] };
}

function addItem(editor, lot, path) {
  return button(say("lots.additem"), () => {
    lot.items.push({ id: nextId("I", lot.items), title: "", quantity: "" });
    editor.redrawLots();
    unfold(editor, `${path}.items.${lot.items.length - 1}.title`);
  }, "second");
}

/** The items of a lot, one row of fields each. */
function itemTable(editor, lot, path) {
  const rows = lot.items.map((item, at) => {
    const own = (name, column, options) => bound(editor, `${path}.items.${at}.${name}`, item, name, say(`column.${column}`), options).made;
    const away = button("×", () => {
      lot.items.splice(at, 1);
      editor.redrawLots();
    }, "second small");
    away.setAttribute("aria-label", say("lots.removeitem", { item: item.id || String(at + 1) }));
    return element("div", { class: "item", role: "group", "aria-label": say("lots.item", { number: String(at + 1) }) },
      own("id", "item", ID), own("title", "title", {}), own("quantity", "quantity", DIGITS), lot.items.length > 1 ? away : "");
  });
  return element("div", { class: "items" }, element("p", { class: "quiet" }, say("lots.items.hint")), rows);
}

/** Below each budget line: its free money, and the rest after this notice. */
export function drawMoney(editor) {
  const wanted = wantedOf(editor.draft);
  for (const [at, place] of editor.money) {
    const { line } = editor.draft.lots[at];
    const held = editor.lines.get(line);
    const left = held ? held.free - wanted.get(line) : 0;
    place.className = held && left < 0 ? "wrong" : "quiet";
    place.textContent = !held ? (line === "" ? "" : say("lots.unknown", { line }))
      : say(left < 0 ? "lots.short" : "lots.left", { line, free: held.free, wanted: wanted.get(line), left: number(Math.abs(left)) });
  }
}
