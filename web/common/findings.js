// The results of a procurement, its lots and its tenders, as badge kinds and names of texts. Also runs in node.

/** The awards of a lot, in the order in which they were made. */
export function awardsOf(compiled, lot) {
  return (compiled.awards ?? []).filter((award) => award.relatedLots?.includes(lot.id));
}

/** The awards whose winner didn't sign: those that a release cancels without cancelling the tender. */
export function passedOver(releases) {
  const alone = releases.filter(({ tag }) => tag.includes("awardCancellation") && !tag.includes("tenderCancellation"));
  return new Set(alone.flatMap((release) => (release.awards ?? []).map(({ id }) => id)));
}

/** The contract of an award, if it was signed. */
export function contractOf(compiled, award) {
  return (compiled.contracts ?? []).find(({ awardID }) => awardID === award.id);
}

/** When a contract ended, by its release; undefined while it runs. */
export function endOf(releases, contract) {
  return releases.find(({ tag, contracts }) => tag.includes("contractTermination") && contracts.some(({ id }) => id === contract.id))?.date;
}

/** The amount paid for a contract. */
export function paidOf(contract) {
  return (contract.implementation?.transactions ?? []).reduce((sum, { value }) => sum + value.amount, 0);
}

/** The amount by which a contract changed since its award; this can be negative. */
export function addedTo(contract, award) {
  return contract.value.amount - award.value.amount;
}

/** The state of the whole process, as a badge kind and the name of a text; `now` in milliseconds. No end is
 * shown in green: how a contract ended isn't published. */
export function stateOf(compiled, now) {
  const { status, numberOfTenderers, tenderPeriod, lots } = compiled.tender;
  if (status === "cancelled" || status === "unsuccessful") {
    return ["stopped", status];
  }
  if (status === "complete") {
    return stateOfContracts(compiled.contracts ?? []);
  }
  if (numberOfTenderers === undefined) {
    return now <= Date.parse(tenderPeriod.endDate) ? ["open", "open"] : ["running", "waiting"];
  }
  const waiting = lots.filter((lot) => lot.status === "active" && !awardsOf(compiled, lot).some((award) => award.status === "active"));
  return ["running", waiting.length === 0 ? "awarded" : waiting.length === lots.length ? "opened" : "decided"];
}

function stateOfContracts(contracts) {
  const running = contracts.filter(({ status }) => status !== "terminated");
  if (running.length === 0) {
    return ["ended", "complete"];
  }
  const isPaid = running.every((contract) => paidOf(contract) >= contract.value.amount);
  const allRun = running.length === contracts.length;
  return isPaid ? [allRun ? "done" : "ended", "paid"] : ["running", contracts.some((contract) => paidOf(contract) > 0) ? "part" : "unpaid"];
}

/** The state of one lot, in the same form. */
export function stateOfLot(compiled, lot) {
  if (lot.status === "complete") {
    const contract = awardsOf(compiled, lot).map((award) => contractOf(compiled, award)).find(Boolean);
    return contract?.status === "terminated" ? ["ended", "contractended"] : ["running", "contracted"];
  }
  if (lot.status === "cancelled" || lot.status === "unsuccessful") {
    return ["stopped", lot.status];
  }
  if (awardsOf(compiled, lot).some(({ status }) => status === "active")) {
    return ["running", "awarded"];
  }
  return compiled.tender.numberOfTenderers === undefined ? ["open", "sealed"] : ["running", "undecided"];
}

/** The lots of an evaluation, each with its state, its shown tenders and its awards. The text has lines of
 * words separated by tabs. Lots of which nothing is shown yet are left out; the clerk gets all of them
 * (`isWhole`). */
export function evaluationOf(text, isWhole = false) {
  const lots = new Map();
  let lot = null;
  for (const words of (text ?? "").split("\n").map((line) => line.split("\t"))) {
    if (words[0] === "lot") {
      lot = { state: words[2], tenders: new Map(), awards: [] };
      lots.set(words[1], lot);
    } else if (words[0] === "tender") {
      const [, receipt, , reading, price, answer, quality, points, standing] = words;
      lot.tenders.set(Number(receipt), { reading, price: figureOf(price), answer, quality: figureOf(quality), points: figureOf(points), standing });
    } else if (words[0] === "award") {
      const [, award, receipt, price, state] = words;
      lot.awards.push({ award: Number(award), receipt: Number(receipt), price: Number(price), state });
    }
  }
  return new Map([...lots].filter(([, { state, awards }]) => isWhole || state !== "undecided" || awards.length > 0));
}

function figureOf(word) {
  return word === undefined || word === "-" ? null : Number(word);
}

/** The result of a tender: a badge kind and the name of a text. `shown` is the lot's evaluation, or undefined
 * if it isn't shown yet. */
export function outcomeOf(tender, shown, byPoints) {
  if (tender.reading !== "priced") {
    return ["stopped", tender.reading];
  }
  const found = shown?.tenders.get(tender.receipt);
  if (!found) {
    return ["running", "waits"];
  }
  const award = shown.awards.filter(({ receipt }) => receipt === tender.receipt).at(-1);
  if (award) {
    return { active: ["running", "won"], signed: ["done", "signed"], failed: ["stopped", "passed"], cancelled: ["stopped", "awardended"] }[award.state];
  }
  if (found.standing === "failed" || found.answer === "unresponsive") {
    return ["stopped", found.standing === "failed" ? "late" : "unresponsive"];
  }
  if (shown.state === "undecided") {
    return ["running", found.answer === "-" ? "examined" : shown.awards.length > 0 ? "again" : "admissible"];
  }
  return found.answer === "-" ? ["stopped", "unexamined"] : ["open", notChosen(tender, shown, byPoints)];
}

/** The badge kind of a signed contract: green only while it runs, because it may have ended by default. */
export function kindOfSigned(contract) {
  return contract?.status === "terminated" ? "ended" : "done";
}

/** Why a tender that could win didn't win. */
function notChosen(tender, shown, byPoints) {
  if (shown.awards.length === 0) {
    return "undecided";
  }
  const isEqual = shown.awards.some(({ price }) => price === tender.corrected);
  const { points } = shown.tenders.get(tender.receipt);
  const isTied = shown.awards.some(({ receipt }) => shown.tenders.get(receipt)?.points === points);
  return byPoints && !isTied ? "points" : isEqual ? "later" : byPoints ? "dearer" : "price";
}

/** The state of the security of a tender of an opened lot: held, returned or forfeited; `unknown` if it isn't
 * shown yet whether the tender was withdrawn late. */
export function securityOf(tender, shown, lotState, isForfeited) {
  const found = shown?.tenders.get(tender.receipt);
  if (found?.standing === "failed") {
    return "forfeited";
  }
  // (For a tender without a price, it is never published whether it was withdrawn late.)
  if (isForfeited && tender.reading !== "priced") {
    return "unknown";
  }
  return lotState !== "active" ? "returned" : shown || !isForfeited ? "held" : "unknown";
}

/** The points of a tender: for the price, for quality, and their sum; null if it has none. */
export function pointsOf({ points, quality }) {
  return points === null ? null : { price: (points - 1000 * quality) / 1000, quality, sum: points / 1000 };
}

/** Whether the evaluation of a lot has points: none has before the examination. */
export function hasPoints(shown) {
  return [...(shown?.tenders.values() ?? [])].some(({ points }) => points !== null);
}

/** The lowest price of the tenders that can win, which all prices are compared with; null if there is none. */
export function lowestOf(shown) {
  const prices = [...(shown?.tenders.values() ?? [])].filter(({ standing }) => standing === "admissible").map(({ price }) => price);
  return prices.length === 0 ? null : Math.min(...prices);
}

/** The opened tenders in the minutes: lines of words separated by tabs, a `lot` followed by its tenders. */
export function tendersOf(text) {
  const tenders = [];
  let lot = "";
  for (const words of (text ?? "").split("\n").map((line) => line.split("\t"))) {
    lot = words[0] === "lot" ? words[1] : lot;
    if (words[0] === "tender") {
      const [, receipt, tenderer, name, address, reading, stated, corrected, corrections] = words;
      tenders.push({ lot, receipt: Number(receipt), tenderer, name, address, reading, stated: Number(stated), corrected: Number(corrected),
        corrections: Number(corrections) });
    }
  }
  return tenders;
}
