// The city's own words from `city.json`: its name, letterhead, imprint and so on.
import { element, given } from "./draw.js";
import { file } from "./office.js";
import { language } from "./texts.js";
import { useZone } from "./zone.js";

let city = null;

/** The city's file, fetched once; its time zone is used from then on. A file that is missing or can't be read counts as empty. (A request
 * fails as `away` also if the page is left meanwhile, which is nothing to warn of.) */
export async function cityFile() {
  try {
    city ??= JSON.parse((await file("/city.json")) ?? "{}");
  } catch (fault) {
    if (fault.kind !== "away") {
      console.warn(`city.json: ${fault.message}`);
    }
    city = {};
  }
  useZone(city.zone);
  return city;
}

/** A part of the city's words in the spoken language, or else in another one: the language, and the
 * paragraphs. */
export function wordsOf(part) {
  const told = Object.entries(part ?? {}).filter(([, words]) => words.length > 0);
  return told.find(([tag]) => tag === language()) ?? told[0] ?? [language(), []];
}

/** The lines of the city's letterhead, if its file has one. */
export function letterhead(city) {
  const [tag, lines] = wordsOf(city.letterhead);
  return lines.length === 0 ? "" : element("p", { class: "letterhead", lang: tag },
    lines.map((text, at) => element(at === 0 ? "b" : "span", { class: "line" }, given(text))));
}

/** How one objects, if the city's file says so. */
export function remedyOf(city) {
  const [tag, lines] = wordsOf(city.remedy);
  return lines.length === 0 ? "" : element("div", { lang: tag }, lines.map((text) => element("p", {}, given(text))));
}
