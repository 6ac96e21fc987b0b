// A notice as the desk sees it: what the queries return (with the clerk's key, everything), and its stage.
import { contract, officeNow, performance, securities } from "../common/office.js";
import { seenOf } from "../common/seen.js";
import { caller } from "./session.js";
import { stageOf } from "./stage.js";

/** Everything about a notice, and its stage. */
export async function stagedOf(name) {
  const seen = await seenOf(name, caller());
  return { ...seen, currency: seen.compiled.tender.value.currency, stage: stageOf(seen, officeNow()) };
}

/** The performance security of a contract, or null. */
async function heldOf(number) {
  try {
    return await performance(number, caller());
  } catch (fault) {
    if (fault.name === "NoSuch") {
      return null;
    }
    throw fault;
  }
}

/** The same with the parts that only the clerk may see: the securities, and the contracts with theirs. */
export async function loadNotice(name) {
  const notice = await stagedOf(name);
  if (caller() === null) {
    return { ...notice, securities: null, contracts: new Map() };
  }
  const contracts = (notice.compiled.contracts ?? []).map(async ({ id }) => [id, { seen: await contract(id, caller()), held: await heldOf(id) }]);
  const [held, ...seen] = await Promise.all([securities(name, caller()), ...contracts]);
  return { ...notice, securities: held, contracts: new Map(seen) };
}
