// The result of an opened tender: its price, why it won or didn't, and the tenderer's contracts for the lot
// with the outstanding amounts.
import { contractPart } from "../common/contract.js";
import { badge, element, given, link } from "../common/draw.js";
import { awardsOf, contractOf, kindOfSigned, outcomeOf } from "../common/findings.js";
import { note } from "../common/forms.js";
import { money } from "../common/money.js";
import { contract, performance } from "../common/office.js";
import { seenOf } from "../common/seen.js";
import { tenderTable } from "../common/tenders.js";
import { say } from "../common/texts.js";
import { session } from "./session.js";

/** The reading of the tender in the minutes, and its result. A contract that ended isn't green, because it
 * may have ended by default. */
function readPart({ reading, corrected, stated, corrections }, [kind, name], contract, currency) {
  if (reading !== "priced") {
    return note("bad", say(`see.why.${reading}`), say("results.lost"));
  }
  const values = { price: money(corrected, currency), stated: money(stated, currency), count: corrections };
  return note(corrections > 0 ? "look" : "good", say("results.priced", values), corrections > 0 ? say("results.corrected", values) : null,
    element("p", {}, badge(name === "signed" ? kindOfSigned(contract) : kind, say(`see.outcome.${name}`)), " ", say(`see.why.${name}`)));
}

/** One of the caller's contracts, with the parts that the office shows only to its tenderer. */
async function ownContract(one, award, lot, notice) {
  const [seen, held] = await Promise.all([contract(one.id, session.caller), performance(one.id, session.caller).catch((fault) => {
    if (fault.name !== "NoSuch") {
      throw fault;
    }
    return null;
  })]);
  return contractPart(one, award, lot, notice, { seen, held });
}

/** The parts of a tender's view that exist after the opening. */
export async function drawResults(found) {
  const notice = await seenOf(found.notice);
  const { compiled, terms } = notice;
  const lot = compiled.tender.lots.find(({ id }) => id === found.lot);
  const tenders = (notice.tenders ?? []).filter((one) => one.lot === lot.id);
  const shown = notice.evaluation?.get(lot.id);
  const read = tenders.find(({ receipt }) => receipt === found.receipt);
  const awards = awardsOf(compiled, lot).filter(({ suppliers }) => suppliers[0].id === `T-${session.caller.caller}`);
  const contracts = awards.map((award) => [contractOf(compiled, award), award]).filter(([one]) => one);
  const outcome = read ? outcomeOf(read, shown, terms.criteria === "points") : null;
  return [element("h2", {}, say("results.title")), read ? readPart(read, outcome, contracts.at(-1)?.[0], lot.value.currency) : null,
    element("h3", {}, say("see.lot", { lot: lot.id }), " ", given(lot.title)), tenders.length > 0 ? tenderTable(notice, lot, tenders, shown) : null,
    await Promise.all(contracts.map(([one, award]) => ownContract(one, award, lot, notice))),
    element("p", {}, link(say("offer.public"), `/#notice/${found.notice}`))];
}
