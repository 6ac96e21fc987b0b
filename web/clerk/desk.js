// Chooses the screen by the address, and shows whether this tab holds the key.
import { element, link, title } from "../common/draw.js";
import { button, note } from "../common/forms.js";
import { drawAround, showViews, words } from "../common/frame.js";
import { addTexts, say } from "../common/texts.js";
import { span } from "../common/money.js";
import { touch, watch } from "./idle.js";
import { drawKey } from "./key.js";
import { forRole, ownRoles } from "./roles.js";
import { caller, forgetKey, keepPlace, may, signIn, way, who } from "./session.js";
import { drawToday } from "./today.js";

await Promise.all([addTexts({ en: () => import("./en.js"), de: () => import("./de.js") }), signIn()]);
const MENU = ["today", "budget", "tenderers", "new", "journal"];
// Screens that are loaded on demand, each with its function.
/** @type {any} */
const LATER = { budget: [() => import("./budgets.js"), "drawBudget"], tenderers: [() => import("./tenderers.js"), "drawTenderers"],
  new: [() => import("./editor.js"), "drawEditor"], preview: [() => import("./preview.js"), "drawPreview"],
  journal: [() => import("./journals.js"), "drawJournal"], notice: [() => import("./procurement.js"), "drawProcurement"],
  minutes: [() => import("./printed.js"), "drawMinutes"], letter: [() => import("./letters.js"), "drawLetter"] };
// The screens by the first word of the address. The other words are their arguments.
const SCREENS = { today: drawToday, key: () => (way() === "key" ? drawKey() : drawSigned()),
  ...Object.fromEntries(Object.entries(LATER).map(([page, [load, name]]) => [page, async (...asked) => (await load())[name](...asked)])) };
// The section of the help for each screen. (A notice's is that of its step.)
const HELP = { today: "see-what-is-due", key: "sign-in-and-leave-safely", budget: "import-a-budget-file", tenderers: "register-a-firm",
  new: "publish-a-notice", preview: "publish-a-notice", journal: "sign-in-and-leave-safely", notice: "how-every-step-is-sent",
  minutes: "while-tenders-come-and-the-opening", letter: "examine-and-award-a-lot" };
// Screens for one role alone.
const FOR_ROLE = { new: "notices", preview: "notices" };
// Seconds until all other screens are loaded too. The first screen is drawn by then, and a lost connection
// later takes no screen away.
const BEHIND = 1;
let redraw = () => {};

function place() {
  const [page, ...rest] = words();
  return Object.hasOwn(SCREENS, page) ? [page, ...rest] : ["today"];
}

function around([page]) {
  drawAround({ site: say("site"), foot: say(way() === "key" ? "foot" : "foot.name"), current: `#${page}`, help: ["clerk", HELP[page]],
    pages: [...MENU.filter((name) => !FOR_ROLE[name] || may(FOR_ROLE[name])).map((name) => [`#${name}`, say(`page.${name}`)]), ["/", say("frame.public")]] });
  if (page !== "key") {
    keepPlace(location.hash);
  }
  drawBar();
}

/** The screen of a clerk who needs no key. */
function drawSigned() {
  const head = say(way() === "name" ? "signed.in" : "signed.nobody", { who: who(), roles: ownRoles() });
  return { title: say("signed.title"), content: [title(say("signed.title")), note(way() === "name" ? "good" : "bad", head, say("signed.leave"))] };
}

/** The bar below the menu: who has signed in, or whether this tab holds the key. `state` and `left` are those of idle.js. */
function drawBar(state = "held", left = 0) {
  const bar = document.getElementById("who");
  if (way() !== "key") {
    const isIn = way() === "name";
    bar.setAttribute("aria-label", say("signed.title"));
    bar.replaceChildren(element("span", { class: isIn ? "right" : "wrong" }, say(isIn ? "signed.in" : "signed.nobody", { who: who(), roles: ownRoles() })),
      isIn ? link(say("signed.out"), "#key") : "");
    return;
  }
  const isHeld = caller() !== null;
  const forget = button(say("key.forget"), () => {
    forgetKey();
    redraw();
  }, "second");
  const keep = button(say("key.keep"), () => {
    touch();
    drawBar();
  });
  const give = link(say("key.give"), "#key");
  const parts = { warned: [say("key.warned", { span: span(left) }), "wrong", keep], forgotten: [say("key.forgotten"), "wrong", give] }[state]
    ?? (isHeld ? [say("key.held", { who: who() }), "right", forget] : [say("key.none"), "", give]);
  const [text, kind, action] = parts;
  bar.setAttribute("aria-label", say("key.key"));
  bar.replaceChildren(element("span", state === "held" ? { class: kind } : { class: kind, role: "alert" }, text), action);
}

function view([page, ...rest], again) {
  redraw = again;
  const role = FOR_ROLE[page];
  return role && !may(role) ? { title: say("page.new"), content: [title(say("page.new")), forRole(role)] } : SCREENS[page](again, ...rest);
}

watch(drawBar);
showViews({ place, around, view, site: () => say("site") });
setTimeout(() => Promise.allSettled(Object.values(LATER).map(([load]) => load())), BEHIND * 1000);
