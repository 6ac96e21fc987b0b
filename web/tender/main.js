// Chooses the desk's view by the address, draws the start, and shows whose key this tab holds.
import { badge, element, link, title } from "../common/draw.js";
import { drawAround, showViews, words } from "../common/frame.js";
import { addTexts, say } from "../common/texts.js";
import { drawKey } from "./key.js";
import { drawOffer } from "./offer.js";
import { drawCheck } from "./receipt.js";
import { drawSend } from "./send.js";
import { readyOf, session } from "./session.js";

await addTexts({ en: () => import("./en.js"), de: () => import("./de.js") });
// (the views of own tenders are loaded on demand)
const own = (name) => async (...asked) => (await import("./tenders.js"))[name](...asked);
const VIEWS = { "": drawHome, key: drawKey, offer: drawOffer, send: drawSend, tenders: own("drawTenders"), tender: own("drawTender"), check: drawCheck };
const MENU = { "": "home.short", key: "key.title", offer: "offer.short", tenders: "tenders.title", check: "receipt.number" };

// The section of the help for each view.
const HELP = { "": "get-a-key", key: "get-a-key", offer: "find-a-notice-and-read-its-terms", send: "check-and-submit", tenders: "change-or-withdraw-a-tender",
  tender: "change-or-withdraw-a-tender", check: "keep-the-receipt" };

function step(number, name, isDone) {
  return element("li", { class: "card" }, element("h2", {}, `${number}. ${say(`home.${name}`)} `, isDone ? badge("done", say("home.done")) : null),
    element("p", {}, say(`home.${name}.why`)), element("p", {}, link(say(`home.${name}.go`), `#${name}`, isDone ? "button second" : "button")));
}

/** The start: the steps of a tender, each with how far it is. */
function drawHome() {
  return { title: say("home.title"), content: [title(say("home.title")), element("p", {}, say("home.why")),
    element("ol", { class: "lines stepwise" }, step(1, "key", session.caller !== null), step(2, "offer", readyOf(session.offer) !== null),
      step(3, "tenders", false), step(4, "check", false)), element("p", { class: "quiet" }, say("home.keeps"))] };
}

/** The page and the names after it in the address. */
function place() {
  const [page, ...names] = words();
  return Object.hasOwn(VIEWS, page) ? [page, ...names] : [""];
}

function around([page, , lot]) {
  const own = { send: "offer", tender: "tenders" }[page] ?? page;
  drawAround({ site: say("frame.site"), foot: say("frame.foot"), current: `#${own}`,
    help: ["tenderer", page === "offer" && lot ? "enter-your-prices" : HELP[page]],
    pages: [...Object.entries(MENU).map(([name, text]) => [`#${name}`, say(text)]), ["/", say("frame.public")]] });
  document.getElementById("who").textContent = session.caller ? say("who.key", { name: session.caller.caller }) : say("who.none");
}

// Asks before the tab is closed if there are typed prices, an unanswered request or an unsaved receipt.
addEventListener("beforeunload", (event) => {
  const isUnkept = session.sent?.isOpen || (session.sent?.receipt?.digest && !session.sent.isKept);
  if (isUnkept || Object.values(session.offer?.units ?? {}).some((text) => text !== "")) {
    event.preventDefault();
  }
});
showViews({ place, around, view: ([page, ...names], redraw) => VIEWS[page]({ redraw }, ...names), site: () => say("frame.site"),
  back: () => link(say("home.title"), "#") });
