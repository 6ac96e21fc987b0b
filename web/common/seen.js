// All that there is to see of a procurement, asked of the office.
import { documentsOf } from "./documents.js";
import { evaluationOf, tendersOf } from "./findings.js";
import { evaluationText, minutesText, record, releases, terms } from "./office.js";
import { titlesOf } from "./titles.js";

/** The parts of a notice to show. If nothing was opened, its tenders and its evaluation are null. The clerk
 * sees all of them. The module of its pictures comes with them; without it the notice is shown all the same.
 * `documents` are rows of the mirror; null without one. */
export async function seenOf(name, clerk = null) {
  const asked = terms(name);
  const titled = titlesOf(asked.then(({ lots }) => lots.map(({ line }) => line), () => []));
  const [compiled, all, own, minutes, evaluation, titles, pictures, documents] = await Promise.all([record(name), releases(name), asked, minutesText(name),
    evaluationText(name, clerk), titled, import("./pictures.js").catch(() => null), documentsOf(name)]);
  return { name, compiled, pictures, releases: all, terms: own, titles, tenders: minutes === null ? null : tendersOf(minutes),
    documents, evaluation: evaluation === null ? null : evaluationOf(evaluation, clerk !== null) };
}
