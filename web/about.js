// The city's own words (name, imprint, contact, privacy, accessibility) from `city.json`, and the sources
// of this page.
import { cityFile, wordsOf } from "./common/city.js";
import { element, given, link, section, title } from "./common/draw.js";
import { language, say } from "./common/texts.js";

const PARTS = ["imprint", "contact", "privacy", "accessibility"];

/** The name of the page: the city's, or else a plain one. */
export async function siteName() {
  const [, name] = wordsOf((await cityFile()).name);
  return typeof name === "string" ? name : say("see.site");
}

// Addresses in the city's words that become links: of the web, and of mail.
const ADDRESS = /(https?:\/\/[^\s<>"]+[^\s<>".,;)]|[^\s<>"@]+@[^\s<>"@]+\.[a-z]{2,})/i;

function paragraph(text) {
  return element("p", {}, text.split(ADDRESS).map((part, at) => (at % 2 === 0 ? given(part)
    : link(part, part.includes("://") ? part : `mailto:${part}`))));
}

/** The view. */
export async function drawAbout() {
  const words = await cityFile();
  const parts = PARTS.map((name) => {
    const [tag, told] = wordsOf(words[name]);
    return section(say(`see.about.${name}`),
      element("div", { lang: tag }, told.length > 0 ? told.map(paragraph) : element("p", { lang: language(), class: "quiet" }, say("see.about.nothing"))));
  });
  return { title: say("see.about"), told: say("see.about"), content: [title(say("see.about")), parts,
    section(say("see.about.made"), element("p", {}, say("see.about.drawn")), element("p", {}, say("see.about.kept")),
      element("p", {}, link(say("see.about.data"), "/data/"), " · ", link("openapi.yaml", "/openapi.yaml")))] };
}
