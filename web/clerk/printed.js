// The minutes of an opening, to print and sign. Letters (letters.js) share its parts.
import { cityFile, letterhead } from "../common/city.js";
import { bytesOf, inGroups, sha256 } from "../common/digest.js";
import { below, element, given, link, placeOf, title } from "../common/draw.js";
import { tendersOf } from "../common/findings.js";
import { note, printButton, sheet, signs, steps, table } from "../common/forms.js";
import { minute, money, moment, number } from "../common/money.js";
import { minutesText, record } from "../common/office.js";
import { say } from "../common/texts.js";

export function backTo(name) {
  return element("p", { class: "noprint" }, link(say("back", { notice: name }), placeOf("notice", name)));
}

export async function drawMinutes(_again, name) {
  const [compiled, text, city] = await Promise.all([record(name), minutesText(name), cityFile()]);
  const back = backTo(name);
  if (text === null) {
    return { title: say("minutes.title"), content: [title(say("minutes.title")), note("look", say("minutes.none")), back] };
  }
  const lines = text.split("\n").map((line) => line.split("\t"));
  const told = (word) => lines.find(([first]) => first === word)?.[1] ?? "";
  const tenders = tendersOf(text);
  const lots = lines.filter(([first]) => first === "lot")
    .map(([, id, head]) => lotPart(id, head, tenders.filter(({ lot }) => lot === id), compiled.tender.value.currency));
  const head = say("minutes.of", { notice: name });
  const from = say("minutes.from", { address: `${location.origin}/notices/${name}/minutes` });
  const digest = element("span", { class: "code" }, inGroups(await sha256(bytesOf(text))));
  return { title: head, isSheet: true, content: [back, steps(printButton()), sheet(letterhead(city), title(head),
    element("p", {}, given(compiled.buyer.name)), element("p", {}, given(lines[0][2] ?? "")),
    element("p", {}, say("minutes.deadline"), " ", moment(told("deadline"))), element("p", {}, say("minutes.opened"), " ", minute(told("opened"))),
    element("p", {}, say("minutes.count", { count: tenders.length })), lots, element("p", { class: "quiet" }, say("minutes.prices")),
    element("p", { class: "quiet" }, from, " ", say("order.digest"), " ", digest), element("p", { class: "below" }, say("minutes.place")),
    signs(say("minutes.opener"), say("minutes.witness"), say("minutes.witness")))] };
}

function lotPart(id, text, tenders, currency) {
  const head = element("h2", {}, say("see.lot", { lot: id }), " ", given(text));
  if (tenders.length === 0) {
    return [head, element("p", {}, say("see.notenders"))];
  }
  const heads = [say("receipt"), say("see.tenderer"), say("minutes.stated"), say("see.price"), say("minutes.corrections")];
  const rows = tenders.map((one) => [String(one.receipt), [given(one.name), below(`${one.tenderer} · `, given(one.address))],
    ...(one.reading === "priced" ? [number(one.stated), money(one.corrected, currency), number(one.corrections)] : ["–", say(`reading.${one.reading}`), "–"])]);
  return [head, table(say("minutes.table", { lot: id, count: rows.length }), heads, rows, { figures: [0, 2, 3, 4] })];
}
