// The frame of every page: the view that the address asks for, the parts around it, and printing.
import { element, link, title } from "./draw.js";
import { cityFile } from "./city.js";
import { button, note, steps } from "./forms.js";
import { minuteText } from "./money.js";
import { officeNow, sentenceOf } from "./office.js";
import { chooseLanguage, language, languages, say } from "./texts.js";

const byId = (id) => document.getElementById(id);
const main = byId("content");
// (it comes while the texts are on their way)
cityFile();

/** Adds a button for each language to the page's head. When one is pressed, it waits for `redraw`, and the
 * button keeps the focus. */
function drawLanguages(redraw) {
  const at = byId("languages");
  document.documentElement.lang = language();
  at.setAttribute("aria-label", say("language.choose"));
  at.replaceChildren(...languages().map(([tag, name]) => {
    const made = element("button", { type: "button", lang: tag, "aria-pressed": String(tag === language()) }, name);
    made.addEventListener("click", async () => {
      // (if the texts can't be fetched, the language stays)
      await chooseLanguage(tag).catch((fault) => console.warn(fault));
      await redraw();
      at.querySelector("[aria-pressed='true']").focus();
    });
    return made;
  }));
}

/** The menu (pairs of address and name, with the current one), and everything else around a view, including
 * the link to the imprint. If there is help, `help` is its page and the section. */
export function drawAround({ site, foot, pages, current, help = null }) {
  byId("skip").textContent = say("frame.skip");
  byId("site").textContent = site;
  byId("foot").replaceChildren(foot, " ", link(say("frame.imprint"), "/#about"));
  byId("menu-name").textContent = say("frame.menu");
  byId("pages").closest("nav").setAttribute("aria-label", say("frame.pages"));
  byId("pages").replaceChildren(...pages.map(([href, name]) => {
    const made = link(name, href);
    href === current && made.setAttribute("aria-current", "page");
    return made;
  }));
  help && byId("pages").append(helpLink(...help));
}

/** Help comes in a tab of its own, because this one may hold a key. A view can lead to another section (`help`). */
function helpLink(page, section) {
  return element("a", { id: "help", href: `/help/${language()}/${page}.html#${section}`, target: "_blank", rel: "noopener" }, say("frame.help"),
    element("span", { class: "unseen" }, ` ${say("frame.help.tab")}`));
}

/** A decoded part of an address. A malformed one stays as it is. */
export function decoded(text) {
  try {
    return decodeURIComponent(text);
  } catch {
    return text;
  }
}

/** The words of an address such as `#notice/N1`. */
export function words() {
  return location.hash.slice(1).split("/").map(decoded);
}

// On a phone the menu is folded, and folded again when somebody chose a page.
const narrow = matchMedia("(max-width: 40rem)");
const fold = () => { byId("menu").open = !narrow.matches; };
narrow.addEventListener("change", fold);
addEventListener("hashchange", fold);
fold();

/** The view for something that couldn't be fetched. If the office is away, a button tries again. */
export function refused(fault, back = null, again = null) {
  const told = sentenceOf(fault);
  return { title: say("frame.refused"), told, content: [title(say("frame.refused")), note("bad", told),
    fault.isOpen && again ? steps(button(say("frame.again"), () => again())) : null, back && element("p", {}, back)] };
}

/** Shows the view of the address, and again when the address changes. `around(place)` draws what surrounds
 * it, and `view(place, redraw)` returns `{ title, content, told, isSheet, part }`: `told` is read out, and a
 * sheet is printed alone. `part` is the identifier of an element, if the address means a part of the view. `redraw(sentence, isWrong, focus)` draws the view again, if the address still asks for
 * it, and announces the sentence. The focus goes to the element with the identifier `focus`, else to the
 * heading. `back` makes the link for a view that couldn't be fetched. */
export function showViews({ place, around, view, site, back = () => null }) {
  let turns = 0;
  const show = async (isMoved, sentence = "", isWrong = false, focus = "") => {
    turns += 1;
    const turn = turns;
    const where = place();
    const { hash } = location;
    // The previous view stays in sight, and nothing of it can be pressed or typed into.
    main.inert ||= isMoved;
    drawLanguages(() => show(false));
    await Promise.all([around(where), cityFile()]);
    byId("status").textContent = say("frame.asking");
    byId("status").className = "";
    main.setAttribute("aria-busy", "true");
    const redraw = (told = "", isBad = false, at = "h1") => (location.hash === hash ? show(false, told, isBad, at) : null);
    const found = await Promise.resolve().then(() => view(where, redraw)).catch((fault) => refused(fault, back(), redraw));
    if (turn !== turns) {
      return;
    }
    put(found, sentence, isWrong);
    document.title = [found.title, site()].filter(Boolean).join(" – ");
    const meant = isMoved || turn === 1 ? byId(found.part ?? "") : null;
    meant?.scrollIntoView();
    if (meant || focus || isMoved) {
      (meant ?? byId(focus) ?? main.querySelector("h1")).focus({ preventScroll: meant !== null || !isMoved });
    }
  };
  byId("skip").addEventListener("click", (event) => {
    event.preventDefault();
    main.focus();
  });
  addEventListener("hashchange", () => show(true));
  show(false);
}

/** Replaces the previous view. */
function put({ content, told, title: name, isSheet = false, help = "" }, sentence, isWrong) {
  if (help) {
    byId("help").hash = help;
  }
  document.body.classList.toggle("one-sheet", isSheet);
  main.replaceChildren(...content.flat(Infinity).filter(Boolean));
  main.setAttribute("aria-busy", "false");
  main.inert = false;
  performance.mark("shown");
  // A result is visible in the view below, so it is only read out here; a completed action is shown too.
  byId("status").textContent = sentence || (told ?? name);
  byId("status").className = sentence === "" ? "unseen" : isWrong ? "wrong" : "right";
  tellSource();
}

/** On paper: where the sheet comes from, and when it was printed. */
export function sourceOf() {
  return say("sheet.from", { address: location.href, when: minuteText(officeNow()) });
}

function tellSource() {
  byId("source").textContent = sourceOf();
}

// Folded parts are unfolded on paper.
const unfolded = new Set();
addEventListener("beforeprint", () => {
  tellSource();
  for (const at of main.querySelectorAll("details:not([open], .noprint)")) {
    at.open = true;
    unfolded.add(at);
  }
});
addEventListener("afterprint", () => {
  for (const at of unfolded) {
    at.open = false;
  }
  unfolded.clear();
});
// A file that is dropped beside its place would otherwise replace the page, and the tab would lose
// everything.
for (const kind of ["dragover", "drop"]) {
  addEventListener(kind, (event) => event.preventDefault());
}
// A fault of a script is shown in the page.
for (const kind of ["error", "unhandledrejection"]) {
  addEventListener(kind, () => {
    main.querySelector(".fault")?.remove();
    main.prepend(element("div", { class: "fault", role: "alert" }, note("bad", say("kind.fault"))));
  });
}
