// The four balances of a budget line's appropriation.
import { say } from "./texts.js";

/** In the order in which a bar shows them. */
export const POTS = ["paid", "contracted", "reserved", "free"];

/** The parts of a bar, each with the amount that the function gives for its kind. */
export function pots(amountOf) {
  return POTS.map((kind) => ({ kind, name: say(`see.pot.${kind}`), amount: amountOf(kind) }));
}
