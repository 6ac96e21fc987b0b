// The parts of forms: fields, files that are dropped or chosen, buttons, tables, growing lists; saving, printing.
import { element, fresh } from "./draw.js";
import { lineFault } from "./csv.js";
import { say } from "./texts.js";

/** A field below its label: the elements (`made`), its `input`, its `value()`, and `tell(sentence)`, which
 * shows a fault, or none if it is empty. `kind` is a type of input, `lines` (several lines of text), or
 * `choice` with `options`, which are pairs of value and text. `why` explains a hard field, after a press of `?`. */
export function field(label, /** @type {any} */ { id = fresh("field"), kind = "text", hint = "", why = "", value = "", options = [], ...attributes } = {}) {
  const about = [hint ? `${id}-hint` : "", `${id}-wrong`].filter(Boolean).join(" ");
  const own = { id, name: id, "aria-describedby": about, spellcheck: "false", ...attributes };
  const input = kind === "choice" ? element("select", own, options.map(([name, text]) => element("option", { value: name }, text)))
    : kind === "lines" ? element("textarea", { rows: "6", ...own }) : element("input", { type: kind, autocomplete: "off", autocapitalize: "none", ...own });
  input.value = value;
  // (A choice that its field cuts is whole in its title.)
  kind === "choice" && input.addEventListener("pointerenter", () => { input.title = input.selectedOptions[0]?.text ?? ""; });
  const wrong = element("p", { id: `${id}-wrong`, class: "wrong", hidden: "" });
  const tell = (sentence) => {
    wrong.textContent = sentence;
    wrong.hidden = !sentence;
    input.toggleAttribute("aria-invalid", false);
    if (sentence) {
      input.setAttribute("aria-invalid", "true");
    }
  };
  return { made: element("div", { class: "entry" }, why ? explained(element("label", { for: id }, label), why) : element("label", { for: id }, label), input,
    hint ? element("p", { id: `${id}-hint`, class: "quiet" }, hint) : null, wrong), input, value: () => input.value.trim(), tell };
}

/** A label with a button that shows and hides a sentence about its field. */
function explained(label, why) {
  const text = element("p", { id: fresh("why"), class: "quiet why", hidden: "" }, why);
  const asks = element("button", { type: "button", class: "asks", "aria-expanded": "false", "aria-controls": text.id,
    "aria-label": say("frame.why", { name: label.textContent }) }, "?");
  asks.addEventListener("click", () => {
    text.hidden = !text.hidden;
    asks.setAttribute("aria-expanded", String(!text.hidden));
  });
  return [element("div", { class: "asked" }, label, asks), text];
}

/** The attributes of a field for an identifier, and of one for a whole number. */
export const ID = { maxlength: "32" };
export const DIGITS = { inputmode: "numeric" };

/** Shows each field's fault, moves the focus to the first faulty field, and returns whether there is none.
 * `pairs` are fields with a sentence each, which is empty if the field is right. */
export function areRight(pairs) {
  for (const [one, sentence] of pairs) {
    one.tell(sentence);
  }
  const wrong = pairs.find(([, sentence]) => sentence);
  wrong?.[0].input.focus();
  return wrong === undefined;
}

/** The faults of a form in one note, which gets the focus. Each leads to its field: a name, a sentence, and the field's input. */
export function faultNote(head, faults) {
  const go = ([name, , input]) => button(name, () => {
    input.closest("details")?.setAttribute("open", "");
    input.focus();
  }, "second small");
  const made = note("bad", head, element("ul", { class: "plain" }, faults.map((fault) => element("li", {}, go(fault), " ", fault[1]))));
  made.tabIndex = -1;
  setTimeout(() => made.focus());
  return made;
}

/** Why a text isn't a line of text, as a sentence, or ''. */
export function lineText(text) {
  const fault = lineFault(text);
  return fault ? say(`text.${fault}`) : "";
}

/** A box to tick. */
export function tick(text, changed, id = fresh("tick")) {
  const input = element("input", { id, type: "checkbox" });
  input.addEventListener("change", () => changed(input.checked));
  return { made: element("label", { class: "tick", for: id }, input, element("span", {}, text)), input };
}

/** A button. It is off while its action runs, and `going` is its text meanwhile. */
export function button(text, act, kind = "", going = text) {
  const made = element("button", { type: "button", class: kind }, text);
  made.addEventListener("click", async () => {
    Object.assign(made, { disabled: true, textContent: going });
    await Promise.resolve(act()).finally(() => Object.assign(made, { disabled: false, textContent: text }));
  });
  return made;
}

/** Asks in a window before something is lost. Returns whether the answer is `yes`. */
export function asks(question, what, yes, no) {
  return new Promise((answer) => {
    const dialog = element("dialog", { class: "order", "aria-labelledby": "asks-title" });
    let isYes = false;
    const end = (is) => () => {
      isYes = is;
      dialog.close();
    };
    dialog.append(element("h2", { id: "asks-title" }, question), element("p", {}, what), steps(button(no, end(false), "second"), button(yes, end(true), "harm")));
    dialog.addEventListener("close", () => {
      dialog.remove();
      answer(isYes);
    });
    document.body.append(dialog);
    dialog.showModal();
  });
}

/** A button that leads to a heading of the same view. */
export function jumpTo(head, text) {
  return button(text, () => {
    head.scrollIntoView();
    head.focus({ preventScroll: true });
  }, "second small");
}

export function steps(...content) {
  return element("div", { class: "steps" }, content);
}

/** A form with fields and a button. `act` runs when the button or Enter is pressed. */
export function form(name, fields, text, act, kind = "") {
  const press = element("button", { type: "submit", class: kind }, text);
  const made = element("form", { novalidate: "", "aria-label": name }, fields, steps(press));
  made.addEventListener("submit", async (event) => {
    event.preventDefault();
    if (!press.disabled) {
      press.disabled = true;
      await Promise.resolve(act()).finally(() => { press.disabled = false; });
    }
  });
  return made;
}

/** A place for a file, which can be dropped there or chosen by its field. */
export function drop(label, hint, take, /** @type {any} */ { id = fresh("file"), ...attributes } = {}) {
  const input = element("input", { id, type: "file", "aria-describedby": `${id}-hint`, ...attributes });
  const made = element("div", { class: "drop" }, element("label", { for: id }, label), element("p", { id: `${id}-hint`, class: "quiet" }, hint), input);
  // (The name of a file that was read stays in sight. The same file can be chosen again.)
  input.addEventListener("click", () => { input.value = ""; });
  input.addEventListener("change", async () => {
    if (input.files.length > 0) {
      await take(input.files[0]);
    }
  });
  for (const [kind, isOver] of [["dragover", true], ["dragleave", false], ["drop", false]]) {
    made.addEventListener(kind, (event) => {
      event.preventDefault();
      made.classList.toggle("over", isOver);
    });
  }
  made.addEventListener("drop", async (event) => {
    const [file] = event.dataTransfer?.files ?? [];
    if (file) {
      input.files = event.dataTransfer.files;
      await take(file);
    }
  });
  return made;
}

/** A note: good, to be checked, or wrong (`good`, `look`, `bad`), below a heading. */
export function note(kind, head, ...content) {
  const parts = content.flat(Infinity).filter(Boolean).map((part) => (part instanceof Node ? part : element("p", {}, part)));
  return element("div", kind === "bad" ? { class: kind, role: "alert" } : { class: kind }, element("p", {}, head), parts);
}

/** A table. On a phone each row is a block, and browsers then drop the roles of a table, so they are written
 * out. `figures` are the columns with numbers. */
export function table(caption, heads, rows, /** @type {any} */ { figures = [], foot = null, kind = "figures" } = {}) {
  const kindOf = (at) => (figures.includes(at) ? { class: "figure" } : {});
  const rowOf = (cells) => element("tr", { role: "row" }, cells.map((cell, at) => (at === 0
    ? element("th", { scope: "row", role: "rowheader", "data-name": heads[at], ...kindOf(at) }, cell)
    : element("td", { role: "cell", "data-name": heads[at], ...kindOf(at) }, cell))));
  return element("table", { role: "table", class: kind }, caption ? element("caption", {}, caption) : null,
    element("thead", { role: "rowgroup" }, element("tr", { role: "row" },
      heads.map((text, at) => element("th", { scope: "col", role: "columnheader", ...kindOf(at) }, text)))),
    element("tbody", { role: "rowgroup" }, rows.map(rowOf)), foot ? element("tfoot", { role: "rowgroup" }, rowOf(foot)) : null);
}

/** A list of entries, of which so many are shown first, and a button for more. */
export function growing(list, all, make, many, first = many) {
  const more = element("button", { type: "button", class: "more second" });
  let shown = 0;
  const grow = () => {
    const next = all.slice(shown, shown + (shown === 0 ? first : many)).map(make);
    list.append(...next);
    shown += next.length;
    more.hidden = shown >= all.length;
    more.textContent = say("list.more", { count: all.length - shown });
    return next;
  };
  grow();
  more.addEventListener("click", () => grow()[0].querySelector("a, button, summary")?.focus());
  return [list, more];
}

/** Saves bytes or a text as a file. */
export function save(name, content, type = "text/plain") {
  const address = URL.createObjectURL(new Blob([content], { type }));
  const at = element("a", { href: address, download: name });
  document.body.append(at);
  at.click();
  at.remove();
  setTimeout(() => URL.revokeObjectURL(address), 60_000);
}

export function printButton() {
  return button(say("sheet.print"), () => print(), "second");
}

/** The part of a view that is printed alone. */
export function sheet(...content) {
  return element("div", { class: "sheet" }, content);
}

/** The end of a sheet: a line for each signature. */
export function signs(...names) {
  return element("div", { class: "signs" }, names.map((text) => element("div", {}, text)));
}
