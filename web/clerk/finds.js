// The search of Today: notices by number, title, lot, firm, contract or invoice. The mirror's tables of contracts and payments
// are fetched when somebody begins to type.
import { grouped, tables } from "../common/data.js";
import { element, given, link, placeOf } from "../common/draw.js";
import { finder, noticeOf, plain, searchable } from "../common/filters.js";
import { areRight, field, form } from "../common/forms.js";
import { growingTable } from "../common/many.js";
import { money } from "../common/money.js";
import { stateBadge } from "../common/states.js";
import { say } from "../common/texts.js";

// So many rows are shown at first, and so many reasons why a notice was found.
const ROWS = 10, REASONS = 3;

/** What is said of a notice beside its title: by notice, searchable texts with the text that is shown. */
async function moreOf() {
  const found = await tables("contracts", "payments").catch(() => null);
  const made = (rows, tell) => rows.map((row) => ({ notice: row.notice, told: tell(row) }));
  return grouped([...made(found?.contracts ?? [], ({ contract, name }) => `${say("see.contract", { contract })}, ${name}`),
    ...made(found?.payments ?? [], ({ payment, amount, currency, contract }) =>
      `${payment}: ${money(amount, currency)}, ${say("see.contract", { contract })}`)], ({ notice }) => notice);
}

/** Why a notice is found, beside its number and title. */
function reasonsOf(entry, more, isFound) {
  const own = [...entry.firms.values(), ...(more.get(entry.notice) ?? []).map(({ told }) => told)];
  return isFound(searchable(`${entry.notice} ${entry.title}`)) ? [] : own.filter((text) => isFound(searchable(text)));
}

/** The notices that match: those first whose number or title is what was typed, then those that have the words together. */
function matching(entries, more, typed) {
  const isFound = finder(typed);
  const phrase = plain(typed.trim());
  const wordsOf = ({ notice, words }) => [words, ...(more.get(notice) ?? []).map(({ told }) => searchable(told))].join("\n");
  const rank = (one) => [one.notice, one.title].findIndex((text) => plain(text) === phrase) + 1 || (wordsOf(one).includes(phrase) ? 3 : 4);
  return entries.filter((one) => isFound(wordsOf(one))).toSorted((one, other) => rank(one) - rank(other))
    .map((one) => ({ ...one, isMeant: rank(one) < 3, reasons: reasonsOf(one, more, isFound) }));
}

function foundTable(found) {
  const heads = ["see.notice", "column.title", "see.state", "today.foundby"].map((name) => say(name));
  const rowOf = ({ notice, title, state, reasons }) => [link(notice, placeOf("notice", notice)), given(title), stateBadge(state),
    reasons.slice(0, REASONS).map((text, at) => [at > 0 ? " · " : "", given(text)])];
  return growingTable(say("search.found", { count: found.length }), heads, found, rowOf, { kind: "figures tasks found", first: ROWS });
}

/** The field, and below it what matches, in place of the groups. The button opens the notice that is meant: the one with this
 * number or title, or the only one. */
export function seeking(entries, place) {
  const whole = [...place.childNodes];
  let found = [], more = new Map(), asking = null;
  const asked = field(say("today.name"), { hint: say("today.name.hint"), kind: "search", maxlength: "200" });
  const told = element("p", { class: "quiet", role: "status" });
  const draw = () => {
    asked.tell("");
    found = asked.value() === "" ? [] : matching(entries, more, asked.value());
    told.className = found.length > 0 ? "unseen" : "quiet";
    told.textContent = asked.value() === "" ? "" : found.length > 0 ? say("search.found", { count: found.length }) : say("search.none");
    place.replaceChildren(...(asked.value() === "" ? whole : found.length > 0 ? foundTable(found) : []));
  };
  asked.input.addEventListener("input", () => {
    asking ??= moreOf().then((all) => { more = all; }).then(draw);
    draw();
  });
  const made = form(say("today.open"), [asked.made], say("today.show"), async () => {
    await asking;
    const meant = found.filter(({ isMeant }) => isMeant);
    const one = noticeOf(entries, asked.value()) ?? (meant.length === 1 ? meant[0] : found.length === 1 ? found[0] : null)?.notice;
    if (one) {
      location.hash = placeOf("notice", one);
    } else if (areRight([[asked, found.length === 0 ? say("today.nothing") : ""]])) {
      told.className = "quiet";
      told.textContent = say("today.choose", { count: found.length });
      place.querySelector("a")?.focus();
    }
  });
  made.classList.add("seek");
  return [made, told];
}
