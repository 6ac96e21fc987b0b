// The preview of a notice: the public page of the release that the publication will make.
import { isId } from "../common/csv.js";
import { element, link, title } from "../common/draw.js";
import { note } from "../common/forms.js";
import { ledger, notices, officeNow, record } from "../common/office.js";
import { drawProcess } from "../common/process.js";
import { say } from "../common/texts.js";
import { titlesOf } from "../common/titles.js";
import { bodyOf, faultsOf } from "./notice.js";
import { caller, draft } from "./session.js";
import { momentText } from "./values.js";

/** The record that the publication's release will compile to. Buyer and currency come from the office's
 * settings; an earlier notice shows them. */
function compiledOf(body, name, earlier) {
  const unit = earlier?.tender.value.currency ?? say("preview.currency");
  const value = (amount) => ({ amount, currency: unit });
  const itemsOf = (lot) => lot.items.map(({ id, title: text, quantity }) => ({ description: text, id: `${lot.id}/${id}`, quantity, relatedLot: lot.id }));
  const tender = { awardCriteria: body.criteria === "price" ? "priceOnly" : "ratedCriteria", id: name, items: body.lots.flatMap(itemsOf),
    lots: body.lots.map((lot) => ({ id: lot.id, status: "active", title: lot.title, value: value(lot.estimate) })), status: "active", title: body.title,
    tenderPeriod: { startDate: momentText(officeNow()), endDate: body.deadline }, value: value(body.lots.reduce((sum, { estimate }) => sum + estimate, 0)) };
  return { buyer: { name: earlier?.buyer.name ?? say("preview.buyer") }, language: earlier?.language ?? document.documentElement.lang, tender };
}

export async function drawPreview() {
  const written = draft();
  const [lines, list, titles] = await Promise.all([ledger(caller()), notices(), titlesOf((written?.lots ?? []).map(({ line }) => line).filter(isId))]);
  const back = element("p", {}, link(say("preview.back"), "#new"));
  if (!written || faultsOf(written, new Map(lines.map((one) => [one.line, one])), officeNow()).length > 0) {
    return { title: say("editor.preview"), content: [title(say("editor.preview")), note("look", say("preview.none")), back] };
  }
  const body = bodyOf(written);
  const compiled = compiledOf(body, written.name, list.length > 0 ? await record(list[0].notice) : null);
  const release = { tag: ["planning", "tender"], date: momentText(officeNow()), tender: compiled.tender };
  return { title: say("editor.preview"), content: [note("look", say("preview.note")), back,
    drawProcess({ name: written.name, compiled, titles, releases: [release], terms: { price_weight: null, ...body }, tenders: null, evaluation: null,
      isPreview: true })] };
}
