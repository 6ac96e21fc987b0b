// The search for the caller's tenders. The office lists them notice by notice, and nginx allows two such
// queries a second after the first forty. So notices are searched in the order in which their deadlines
// matter, while the results so far are already shown. Opened tenders are in the mirror's tables.
import { notices, officeNow, ownTenders } from "../common/office.js";
import { session } from "./session.js";

// So many notices are searched before the view is shown, so many at a time, because nginx has eight places for
// such queries. Then so many in each pause, in milliseconds: some of the forty queries are always left, for
// example for a withdrawal.
const FIRST = 12, AT_ONCE = 6, TOGETHER = 4, PAUSE = 2000;
// A result is this many milliseconds old before the notice is searched again.
const FRESH = 300_000;
// While a tender waits for its opening, this many milliseconds are between two questions.
export const AGAIN = 20_000;

/** The notices to search, the most urgent first (`order`): those that are open for tenders, by the nearest
 * deadline; then those that aren't opened yet and those that the tables don't know as opened, by the last
 * deadline. `rest` has the others. `opened` are the caller's opened tenders by the tables. */
export function planOf(list, data, caller, now) {
  const known = new Map((data?.notices ?? []).map((row) => [row.notice, row]));
  const rows = new Map(list.map((row) => [row.notice, row]));
  const isListed = ({ notice, state }) => state === "opened" && known.get(notice)?.state === "opened";
  const of = (test, sign) => list.filter(test).sort((one, other) => sign * (Date.parse(one.deadline) - Date.parse(other.deadline)));
  const isOpen = ({ state, deadline }) => state === "receiving" && Date.parse(deadline) >= now;
  const isUnopened = (row) => !isOpen(row) && (row.state === "receiving" || (row.state === "opened" && !isListed(row)));
  const opened = (data?.tenders ?? []).filter(({ tenderer, notice }) => tenderer === caller && rows.has(notice) && isListed(rows.get(notice)))
    .map(({ notice, lot, receipt }) => ({ receipt: Number(receipt), notice, lot, state: "opened", moment: null, security: null }));
  const order = [...of(isOpen, 1), ...of(isUnopened, -1)];
  return { order, opened, rest: of((row) => !order.includes(row), -1) };
}

/** The tenders that are known, each with its notice's title and deadline: sealed ones first, the nearest
 * deadline first; then the newest. */
export function found({ opened }, list) {
  const rows = new Map(list.map((row) => [row.notice, row]));
  const own = new Map([...opened, ...session.tenders].map((one) => [one.receipt, one]));
  const time = ({ state, deadline }) => (state !== "sealed" ? Infinity : Date.parse(deadline) >= officeNow() ? Date.parse(deadline) : Number.MAX_VALUE);
  return [...own.values()].map((one) => ({ ...one, title: rows.get(one.notice).title, deadline: rows.get(one.notice).deadline }))
    .sort((one, other) => (time(one) === time(other) ? other.receipt - one.receipt : time(one) - time(other)));
}

/** Searches these notices, and keeps the caller's tenders. */
async function lookInto(rows) {
  const names = rows.map(({ notice }) => notice);
  const all = await Promise.all(names.map(async (notice) => (await ownTenders(notice, session.caller)).map((one) => ({ ...one, notice }))));
  session.tenders = [...session.tenders.filter(({ notice }) => !names.includes(notice)), ...all.flat()];
  names.forEach((name) => session.seen.set(name, Date.now()));
}

/** The notices that weren't searched for a while. */
export function left(rows) {
  return rows.filter(({ notice }) => !(session.seen.get(notice) > Date.now() - FRESH));
}

/** Searches the first notices, and again those that have tenders of the caller which may change: also a notice that was
 * opened since this tab found a sealed tender there. */
export async function lookFirst({ order, rest }) {
  const own = new Set(session.tenders.map(({ notice }) => notice));
  const sealed = sealedIn();
  const again = [...order.filter((row) => own.has(row.notice)), ...rest.filter((row) => sealed.has(row.notice))];
  const rows = [...new Set([...again, ...left(order)])].slice(0, FIRST);
  for (let at = 0; at < rows.length; at += AT_ONCE) {
    await lookInto(rows.slice(at, at + AT_ONCE));
  }
}

/** Searches the other notices once, as long as `goes` says so: those first that were never searched. `tell` is
 * called after each step with the number of notices that are left. */
export async function lookOn(rows, goes, tell) {
  const rest = left(rows).sort((one, other) => Number(session.seen.has(one.notice)) - Number(session.seen.has(other.notice)));
  for (let at = 0; at < rest.length && goes(); at += TOGETHER) {
    const begun = Date.now();
    await lookInto(rest.slice(at, at + TOGETHER));
    const more = Math.max(0, rest.length - at - TOGETHER);
    tell(more);
    await new Promise((done) => { setTimeout(done, more > 0 ? Math.max(0, begun + PAUSE - Date.now()) : 0); });
  }
}

function sealedIn() {
  return new Set(session.tenders.filter(({ state }) => state === "sealed").map(({ notice }) => notice));
}

/** The notices whose deadline has passed or that are over, of those in which this tab has a sealed tender. */
export function waiting(list) {
  const own = sealedIn();
  return list.filter(({ notice, state, deadline }) => own.has(notice) && (state !== "receiving" || Date.parse(deadline) <= officeNow()));
}

/** Runs `ask` from time to time while `isDue` says so and the tab is visible, as long as `goes` says so. `each` runs every
 * second. */
export async function repeat(goes, isDue, ask, each = () => {}) {
  for (let asked = Date.now(); goes();) {
    await new Promise((done) => { setTimeout(done, 1000); });
    if (goes() && isDue() && document.visibilityState === "visible" && Date.now() >= asked + AGAIN) {
      asked = Date.now();
      await ask();
    }
    goes() && each();
  }
}

/** Follows sealed tenders after their deadline: queries the list of notices, and then the caller's tenders for those that
 * were opened or cancelled. `tell` gets the list each second, and the fault if the last question had one. */
export function follow(list, goes, tell) {
  let [rows, fault] = [list, null];
  const ask = async () => {
    try {
      rows = await notices();
      await lookInto(waiting(rows).filter(({ state }) => state !== "receiving").slice(0, TOGETHER));
      fault = null;
    } catch (other) {
      fault = other;
    }
  };
  return repeat(goes, () => waiting(rows).length > 0, ask, () => tell(rows, fault));
}
