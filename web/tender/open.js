// The notices that are open for tenders: searched by number or by words about what is bought, in the order of
// deadlines, publication or amounts.
import { isId } from "../common/csv.js";
import { tables } from "../common/data.js";
import { element, given, link, placeOf, title } from "../common/draw.js";
import { ORDERS, entriesOf, finder, noticeOf, ordered } from "../common/filters.js";
import { areRight, field, form, growing } from "../common/forms.js";
import { clock, money, moment } from "../common/money.js";
import { notices, officeNow } from "../common/office.js";
import { say } from "../common/texts.js";

// So many notices are shown at first, and with each press of the button.
const FIRST = 20, AT_ONCE = 100;
// What was typed, as long as the tab is open.
const asked = { words: "", order: "" };

function entry(one) {
  const estimate = one.known ? [" · ", say("see.estimate"), " ", money(one.known.estimate, one.known.currency)] : [];
  return element("li", { class: "card" }, element("h2", {}, link(given(one.title), placeOf("offer", one.notice))),
    element("p", {}, one.notice, " · ", clock(one.deadline)), element("p", { class: "quiet" }, say("see.deadline"), " ", moment(one.deadline), estimate));
}

/** The field for words or a number, and the order. The button leads to the notice with the number, whether or
 * not it is open, or to the only one that was found. */
function seeking(list, data, draw) {
  let some = draw();
  const words = field(say("offer.words"), { id: "offer-notice", kind: "search", hint: say("offer.words.hint"), value: asked.words, maxlength: "200" });
  const orders = ORDERS.filter((name) => data || name !== "amount").map((name, at) => [at === 0 ? "" : name, say(`see.order.${name}`)]);
  const order = field(say("see.by.order"), { id: "offer-order", kind: "choice", options: orders, value: asked.order });
  const made = form(say("offer.words"), [words.made, order.made], say("offer.show"), () => {
    const number = noticeOf(list, words.value()) ?? (some.length === 1 ? some[0].notice : some.length === 0 && isId(words.value()) ? words.value() : null);
    if (areRight([[words, number ? "" : say(some.length === 0 ? "search.none" : "offer.choose")]])) {
      location.hash = placeOf("offer", number);
    }
  });
  made.addEventListener("input", () => {
    Object.assign(asked, { words: words.value(), order: order.value() });
    words.tell("");
    some = draw();
  });
  made.classList.add("seek");
  return made;
}

/** The view of the open notices. */
export async function drawOpen() {
  const [list, data] = await Promise.all([notices(), tables("notices", "lots", "items", "budget").catch(() => null)]);
  const open = entriesOf(list, data, officeNow()).filter(({ state }) => state === "open");
  const place = element("div", {});
  const told = element("p", { class: "quiet", role: "status" });
  const draw = () => {
    const isFound = finder(asked.words);
    const some = ordered(open.filter((one) => isFound(one.words)), asked.order);
    told.textContent = asked.words === "" ? "" : some.length === 0 ? say("search.none") : say("search.found", { count: some.length });
    place.replaceChildren(...growing(element("ul", { class: "lines" }), some, entry, AT_ONCE, FIRST));
    return some;
  };
  return { title: say("offer.title"), content: [title(say("offer.title")), element("p", {}, say("offer.why", { count: open.length })),
    seeking(list, data, draw), told, place] };
}
