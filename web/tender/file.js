// Prices from a file: used unchanged, converted with each change shown, or refused with each line and reason.
import { element } from "../common/draw.js";
import { bytesOfFile } from "../common/digest.js";
import { drop, note, table } from "../common/forms.js";
import { money } from "../common/money.js";
import { hasText, say } from "../common/texts.js";
import { MOST_READ, converted } from "./convert.js";

const MOST_TOLD = 30;

/** A change or a fault as a sentence. The column of a figure is named by its word. */
export function sentenceOfLine(kind, { name, values }) {
  const named = { ...values };
  if (values.figure) {
    named.figure = say(`figure.${values.figure}`);
  }
  if (values.sign) {
    named.sign = hasText(`sign.${values.sign}`) ? say(`sign.${values.sign}`) : values.sign;
  }
  if (values.why) {
    named.why = say(`number.${values.why}`);
  }
  return say(`${kind}.${name}`, named);
}

/** Lines and sentences as a table. A sentence that applies to several lines appears once. */
function linesOf(caption, kind, entries) {
  const lines = new Map();
  for (const entry of entries) {
    const sentence = sentenceOfLine(kind, entry);
    lines.set(sentence, [...(lines.get(sentence) ?? []), entry.line]);
  }
  const rows = [...lines].slice(0, MOST_TOLD).map(([sentence, places]) => [places.slice(0, 8).join(", ") + (places.length > 8 ? " …" : ""), sentence]);
  const made = table(caption, [say("file.line"), say(`file.${kind}`)], rows, { kind: "lines-of-file" });
  return [made, lines.size > MOST_TOLD ? element("p", {}, say("file.more", { count: lines.size - MOST_TOLD })) : null];
}

/** The result for the dropped file. */
export function outcome({ file, terms }) {
  if (file.kind === "refused") {
    return note("bad", say("file.refused", { file: file.name }), linesOf(say("file.refused.caption"), "fault", file.faults), say("file.refused.what"));
  }
  const price = money(file.reading.price, terms.currency);
  if (file.kind === "converted") {
    return note("look", say("file.converted", { file: file.name, price }), say("file.converted.what"),
      linesOf(say("file.converted.caption"), "change", file.changes));
  }
  const { corrections } = file.reading;
  return corrections === 0 ? note("good", say("file.asItIs", { file: file.name, price }))
    : note("look", say("file.corrected", { file: file.name, price, count: corrections }), say("file.corrected.what"));
}

/** The place where a file is dropped. `changed` is called after one was read. */
export function drawFile(offer, changed) {
  const take = async (file) => {
    const tooLong = { kind: "refused", faults: [{ line: 1, name: "size", values: { count: file.size } }] };
    const found = file.size > MOST_READ ? tooLong : converted(await bytesOfFile(file), offer.lot.items, offer.terms.currency);
    offer.file = { name: file.name, ...found };
    changed(say(`file.is.${found.kind.replaceAll(" ", "").toLowerCase()}`, { file: file.name }), found.kind === "refused");
  };
  return [element("p", {}, say("file.why")), drop(say("file.drop"), say("file.drop.hint"), take, { id: "offer-file" }), offer.file ? outcome(offer) : null];
}
