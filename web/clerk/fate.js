// The result of a command that got no answer, found by queries: true if it is done, false if it isn't, null
// if the data doesn't show it.
import { evaluationOf } from "../common/findings.js";
import { Refused, evaluationText, line, minutesText, releases, tenderers } from "../common/office.js";
import { caller } from "./session.js";

/** The result of a query, or null if the thing doesn't exist. */
async function unlessMissing(look) {
  try {
    return await look;
  } catch (fault) {
    if (fault instanceof Refused && fault.name === "NoSuch") {
      return null;
    }
    throw fault;
  }
}

/** A budget file is done if each of its lines has the new amount, and not done if each has the old one.
 * Otherwise others changed the lines meanwhile, and nothing is known. */
export async function ofBudget(changes) {
  const told = changes.filter(({ before, appropriation }) => before.appropriation !== appropriation);
  const now = await Promise.all(told.map(({ id }) => unlessMissing(line(id, caller()))));
  const is = (name) => told.length > 0 && told.every((change, at) => BigInt(now[at]?.appropriation ?? 0) === (name === "after" ? change.appropriation
    : change.before.appropriation));
  return is("after") ? true : is("before") ? false : null;
}

/** A publication is done if the notice has releases. */
export async function ofNotice(notice) {
  return (await unlessMissing(releases(notice))) !== null;
}

export async function ofOpening(notice) {
  return (await minutesText(notice)) !== null;
}

/** An examination: the evaluation shows the answer. Another answer came from somebody else. */
export async function ofExamination(notice, receipt, responsive) {
  const lots = [...evaluationOf(await evaluationText(notice, caller()), true).values()];
  const answer = lots.map(({ tenders }) => tenders.get(receipt)?.answer).find(Boolean);
  return answer === "-" ? false : answer === (responsive ? "responsive" : "unresponsive") ? true : null;
}

/** A registration is done if the tenderer has this name and this address. With others it is somebody else's. */
export async function ofRegistration(tenderer, { name, address }) {
  return (await tenderers(caller())).some((one) => one.tenderer === tenderer && one.name === name && one.address === address);
}

/** Whether one of the releases after the first `before` is the command's own. */
export async function ofRelease(notice, before, isOwn) {
  return (await releases(notice)).slice(before).some(isOwn);
}

const has = (tag) => (release) => release.tag.includes(tag);

/** How to recognise the release of each command. */
export const own = {
  amend: (deadline) => (release) => has("tenderAmendment")(release) && release.tender.tenderPeriod.endDate === deadline,
  cancel: () => has("tenderCancellation"),
  award: (lot) => (release) => (has("award")(release) && release.awards[0].relatedLots.includes(lot))
    || (has("tenderUpdate")(release) && (release.tender.lots ?? []).some(({ id }) => id === lot)),
  fail: (award) => (release) => has("awardCancellation")(release) && release.awards.some(({ id }) => id === award),
  sign: (award) => (release) => has("contract")(release) && release.contracts[0].awardID === award,
  change: (contract, id) => (release) => has("contractAmendment")(release) && release.contracts[0].id === contract
    && release.contracts[0].amendments.some((one) => one.id === id),
  pay: (contract, id) => (release) => has("implementation")(release) && release.contracts[0].id === contract
    && release.contracts[0].implementation.transactions.some((one) => one.id === id),
  end: (contract) => (release) => has("contractTermination")(release) && release.contracts[0].id === contract,
};
