// Tenderers: registration from the sheet or from the file of the tenderer's desk, and the list.
import { bytesOfFile, inGroups } from "../common/digest.js";
import { element, given, section, title } from "../common/draw.js";
import { ID, areRight, drop, field, form, lineText, note } from "../common/forms.js";
import { growingTable, searched } from "../common/many.js";
import { tenderers } from "../common/office.js";
import { say } from "../common/texts.js";
import { ofRegistration } from "./fate.js";
import { forRole } from "./roles.js";
import { jsonBody, sendThen } from "./send.js";
import { caller } from "./session.js";
import { isAskable, textOf } from "./values.js";

/** The registration in a text: JSON, or lines `name: value` with a grouped digest somewhere. Null if there is
 * none. */
function registrationIn(text) {
  try {
    const told = JSON.parse(text);
    return typeof told?.key === "string" ? { tenderer: String(told.tenderer ?? ""), name: String(told.name ?? ""), address: String(told.address ?? ""),
      key: told.key } : null;
  } catch {
    const key = /(?:[0-9a-f][ \t]*){64}/i.exec(text)?.[0].replace(/\s/g, "");
    return key ? { tenderer: "", name: "", address: "", key } : null;
  }
}

export async function drawTenderers(again) {
  const list = caller() === null ? null : await tenderers(caller());
  const fields = { tenderer: field(say("tenderer.id"), { hint: say("tenderer.id.hint"), ...ID }),
    name: field(say("tenderer.name"), { hint: say("tenderer.name.hint") }), address: field(say("tenderer.address")),
    key: field(say("tenderer.key"), { hint: say("tenderer.key.hint"), why: say("why.key") }) };
  const place = element("div", { "aria-live": "polite" });
  const take = async (file) => {
    const told = registrationIn(textOf(await bytesOfFile(file)) ?? "");
    place.replaceChildren(told ? note("good", say("tenderer.read"), say("tenderer.read.compare")) : note("bad", say("tenderer.unread")));
    for (const [name, one] of Object.entries(fields)) {
      one.input.value = told?.[name] ?? one.value();
    }
    if (told?.key) {
      fields.key.input.value = inGroups(told.key);
    }
    fields.tenderer.input.focus();
  };
  return { title: say("page.tenderers"), content: [title(say("page.tenderers")), element("p", { class: "intro" }, say("tenderer.intro")),
    forRole("notices", () => [drop(say("tenderer.drop"), say("tenderer.drop.hint"), take, { accept: ".json,application/json" }), place,
      form(say("tenderer.register"), Object.values(fields).map((one) => one.made), say("tenderer.register"), () => register(fields, list ?? [], again))]),
    section(say("tenderer.list"), list === null ? element("p", {}, say("register.key")) : listed(list))] };
}

function register(fields, list, again) {
  const [tenderer, name, address] = [fields.tenderer, fields.name, fields.address].map((one) => one.value());
  const key = fields.key.value().replace(/\s/g, "").toLowerCase();
  const isKey = /^[0-9a-f]{64}$/.test(key);
  if (areRight([[fields.tenderer, idFault(tenderer, list)], [fields.name, lineText(name)], [fields.address, lineText(address)],
    [fields.key, isKey ? "" : say("tenderer.key.wrong")]])) {
    return sendThen(registration(tenderer, { name, address, key }), again);
  }
}

function idFault(tenderer, list) {
  return !isAskable(tenderer) ? say("id.wrong") : tenderer === "clerk" ? say("tenderer.clerk")
    : list.some((one) => one.tenderer === tenderer) ? say("tenderer.used") : "";
}

function registration(tenderer, body) {
  const digest = [say("tenderer.shown"), " ", element("span", { class: "code" }, inGroups(body.key))];
  return { kind: "tenderer", values: { tenderer, name: body.name }, path: `/tenderers/${tenderer}`, body: jsonBody(body), isFinal: true, again: "Exists",
    find: () => ofRegistration(tenderer, body), says: [say("tenderer.does", { tenderer, ...body }), digest, say("tenderer.stays")] };
}

/** The list, with a search field if it is long. */
function listed(list) {
  if (list.length === 0) {
    return element("p", {}, say("tenderer.none"));
  }
  const heads = [say("tenderer.id"), say("tenderer.name"), say("tenderer.address")];
  const rowOf = (one) => [one.tenderer, given(one.name), given(one.address)];
  return searched(say("tenderer.search"), list, ({ tenderer, name, address }) => `${tenderer} ${name} ${address}`,
    (some) => growingTable(say("tenderer.table", { count: some.length }), heads, some, rowOf));
}
