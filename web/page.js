// Chooses the portal's view by the address, in the spoken language.
import { decoded, drawAround, refused, showViews } from "./common/frame.js";
import { link, placeOf } from "./common/draw.js";
import { substitute } from "./common/office.js";
import { drawNotice } from "./common/process.js";
import { addTexts, say } from "./common/texts.js";
import { drawAbout, siteName } from "./about.js";
import { drawBudget, drawLine } from "./ledger.js";
import { drawList, meant } from "./list.js";
import { fromMirror, ofItsMoment } from "./mirror.js";

await addTexts({ en: () => import("./en.js"), de: () => import("./de.js") });
// The views by the first word of the address, each with its page in the menu. The other words are their
// arguments.
// (The views with charts are loaded on demand.)
/** @type {any} */
const VIEWS = { list: [drawList, "list"], notice: [drawNotice, "list"], ledger: [drawBudget, "ledger"], line: [drawLine, "ledger"],
  firms: [async (asked) => (await import("./firms.js")).drawFirms(asked), "firms"], firm: [async (asked) => (await import("./firms.js")).drawFirm(asked), "firms"],
  figures: [async (asked) => (await import("./figures.js")).drawFigures(asked), "figures"], about: [drawAbout, "about"] };
const PAGES = ["list", "ledger", "firms", "figures", "about"];
// After so many milliseconds without an answer of the office, the mirror's data is shown.
const PATIENCE = 15_000;
let site = "";

/** The address as a view and its arguments: `#notice/N1`, `#notice/N1/L1`, `#list?words=road`. */
function place() {
  const [, word, names, query] = /^#?([a-z]*)(?:\/([^?]*))?(?:\?(.*))?$/s.exec(location.hash) ?? [];
  return Object.hasOwn(VIEWS, word ?? "") ? [word, ...(names === undefined ? [query ?? ""] : names.split("/").map(decoded))] : ["list", ""];
}

async function around([word]) {
  site = await siteName();
  drawAround({ site, foot: say("see.foot"), pages: [...PAGES.map((name) => [`#${name}`, say(`see.page.${name}`)]), ["/tender/", say("see.page.tender")]],
    current: `#${VIEWS[word][1]}` });
}

/** The requested view. A notice number works in whatever case. */
async function viewOf([word, ...names], again) {
  try {
    return await VIEWS[word][0](...names);
  } catch (fault) {
    const [text, ...rest] = names;
    const notice = word === "notice" && fault.name === "NoSuch" ? await meant(text).catch(() => null) : null;
    if (notice === null || notice === text) {
      return refused(fault, back(), again);
    }
    history.replaceState(history.state, "", placeOf("notice", notice, ...rest));
    return drawNotice(notice, ...rest);
  }
}

function back() {
  return link(say("see.page.list"), "#list");
}

Object.assign(substitute, { find: fromMirror, longest: PATIENCE });
showViews({ place, around, view: (asked, again) => ofItsMoment(() => viewOf(asked, again), again), site: () => site, back });
