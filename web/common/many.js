// Long tables: the first rows, a button that shows more of them, and a field that searches them all.
import { element } from "./draw.js";
import { finder, searchable } from "./filters.js";
import { field, table } from "./forms.js";
import { say } from "./texts.js";

// So many rows are shown at first, and with each press of the button.
export const FIRST = 25;
const MORE = 100;

/** A table of the first entries, and a button that shows more. `rowOf` makes the cells of an entry. */
export function growingTable(caption, heads, all, rowOf, /** @type {any} */ { first = FIRST, ...options } = {}) {
  const made = table(caption, heads, all.slice(0, first).map(rowOf), options);
  const more = element("button", { type: "button", class: "more second" });
  let shown = Math.min(first, all.length);
  const tell = () => {
    more.hidden = shown >= all.length;
    more.textContent = say("list.more", { count: all.length - shown });
  };
  more.addEventListener("click", () => {
    const rows = [...table("", heads, all.slice(shown, shown + MORE).map(rowOf), options).querySelectorAll("tbody > tr")];
    made.querySelector("tbody").append(...rows);
    shown += rows.length;
    tell();
    rows[0].tabIndex = -1;
    rows[0].focus();
  });
  tell();
  return [made, more];
}

/** All entries as `draw` shows them. If there are many, a field above searches them; `wordsOf` gives the text of
 * an entry. */
export function searched(label, all, wordsOf, draw) {
  const found = element("div", {}, draw(all));
  if (all.length <= FIRST) {
    return found;
  }
  const asked = field(label, { kind: "search" });
  const told = element("p", { class: "quiet", role: "status" });
  asked.input.addEventListener("input", () => {
    const isFound = finder(asked.value());
    const some = all.filter((one) => isFound(searchable(wordsOf(one))));
    told.textContent = asked.value() === "" ? "" : some.length === 0 ? say("search.none") : say("search.found", { count: some.length });
    found.replaceChildren(...[some.length > 0 ? draw(some) : []].flat(Infinity));
  });
  return [asked.made, told, found];
}
