// The documents beside a notice, which the front has and the office doesn't know.
import { rows } from "./data.js";
import { below, element, link, section } from "./draw.js";
import { number } from "./money.js";
import { say } from "./texts.js";

/** The documents that a notice has now, as rows of the mirror's list; null if there is no mirror. */
export async function documentsOf(name) {
  const all = await rows("documents").catch(() => null);
  return all?.filter(({ notice, until }) => notice === name && until === "") ?? null;
}

/** The documents as a part of a view; nothing without any. */
export function documentPart(documents) {
  const one = ({ notice, file, length, sha256 }) => element("li", {}, link(file, `/documents/${notice}/${file}`), " ", say("see.document", { bytes: number(length) }),
    below("SHA-256 ", element("span", { class: "code" }, sha256)));
  return documents?.length > 0 ? section(say("see.documents"), element("ul", {}, documents.map(one))) : null;
}
