// Filters of the list: what the address asks for, and which procurements match. Runs in node too.

/** The names of the filters in the address. */
export const NAMES = ["words", "state", "year", "line", "firm", "from", "to", "order"];
export const STATES = ["open", "waiting", "opened", "awarded", "running", "complete", "unsuccessful", "cancelled"];
// The orders of a list. The first one is that of a list without a name of an order in its address.
export const ORDERS = ["deadline", "published", "amount"];

/** The filters in an address such as `words=road&state=open`. A missing one is ''. */
export function filtersOf(text) {
  const told = new URLSearchParams(text);
  const found = Object.fromEntries(NAMES.map((name) => [name, (told.get(name) ?? "").trim()]));
  return { ...found, order: ORDERS.includes(found.order) ? found.order : "" };
}

/** Filters as an address. */
export function addressOf(filters) {
  return new URLSearchParams(NAMES.filter((name) => filters[name]).map((name) => [name, filters[name]])).toString();
}

/** A text for comparison: small letters without accents. */
export function plain(text) {
  return text.normalize("NFD").replace(/\p{M}/gu, "").toLowerCase().replaceAll("ß", "ss");
}

/** The same with two letters for an umlaut, as in `mueller`. */
function spelled(text) {
  return plain(text.normalize("NFC").replace(/[äöü]/gi, "$&e"));
}

/** A text in which words are searched: in both spellings, if it has umlauts. */
export function searchable(text) {
  const [one, other] = [plain(text), spelled(text)];
  return one === other ? one : `${one}\n${other}`;
}

/** A function that returns whether a searchable text has all words of a question. */
export function finder(asked) {
  const words = asked.split(/\s+/).filter(Boolean).map((word) => [plain(word), spelled(word)]);
  return (text) => words.every((ways) => ways.some((way) => text.includes(way)));
}

/** The state of a notice, from its row in the office's list, its row in the mirror's table (if there is one),
 * and the time. `isAwarded`: all its lots are decided by that table. (An award can end, so an older table
 * proves none; a procurement that is over stays over.) */
export function stateOf(row, known, now, isAwarded) {
  if (row.state === "receiving") {
    return now <= Date.parse(row.deadline) ? "open" : "waiting";
  }
  const status = row.state === "cancelled" ? "cancelled" : known?.status ?? "active";
  if (status === "active") {
    return isAwarded && known?.releases === row.releases ? "awarded" : "opened";
  }
  return status === "complete" && known.running > 0 ? "running" : status;
}

/** All that is known of each notice, open ones first and newest first: its row, state, budget lines, firms,
 * winners, and the words by which it is found. Items are among these. */
export function entriesOf(list, data, now) {
  const known = new Map((data?.notices ?? []).map((row) => [row.notice, row]));
  const titles = new Map((data?.budget ?? []).map((row) => [row.line, row.title]));
  const more = new Map(list.map(({ notice }) => [notice, { lines: new Set(), firms: new Map(), winners: new Set(), words: [], isAwarded: true }]));
  for (const { notice, line, title, status, winner_name: winner } of data?.lots ?? []) {
    const one = more.get(notice);
    if (one) {
      one.lines.add(line);
      one.words.push(title, line, titles.get(line) ?? "");
      winner && one.winners.add(winner);
      one.isAwarded &&= status !== "active" || Boolean(winner);
    }
  }
  for (const { notice, title } of data?.items ?? []) {
    more.get(notice)?.words.push(title);
  }
  for (const { notice, tenderer, name } of data?.tenders ?? []) {
    more.get(notice)?.firms.set(tenderer, name);
  }
  const entries = list.map((row) => {
    const { lines, firms, winners, words, isAwarded } = more.get(row.notice);
    const told = known.get(row.notice) ?? null;
    const state = stateOf(row, told, now, isAwarded);
    const isOlder = state === "opened" && told?.releases !== row.releases;
    return { ...row, known: told, state, year: row.published.slice(0, 4), lines, firms, winners: isOlder ? new Set() : winners,
      words: searchable([row.notice, row.title, told?.buyer ?? "", ...words, ...firms.values()].join("\n")) };
  });
  return ordered(entries, "published");
}

function newest(one, other) {
  return one.published < other.published ? 1 : one.published > other.published ? -1 : one.notice < other.notice ? -1 : 1;
}

/** The entries in an order; open ones come first. By deadline, the nearest one is the first of the open ones,
 * and the latest one the first of the others. */
export function ordered(entries, order) {
  const sign = (one, other) => (one < other ? -1 : one > other ? 1 : 0);
  const by = { published: newest, amount: (one, other) => sign(other.known?.estimate ?? -1, one.known?.estimate ?? -1) }[order]
    ?? ((one, other) => sign(one.deadline, other.deadline) * (one.state === "open" ? 1 : -1));
  return entries.toSorted((one, other) => Number(other.state === "open") - Number(one.state === "open") || by(one, other) || newest(one, other));
}

function isWithin(estimate, from, to) {
  return (from === "" && to === "") || (estimate !== undefined && estimate >= Number(from || 0) && estimate <= Number(to || Infinity));
}

function isOfFirm({ firms }, firm) {
  const isAsked = finder(firm);
  return [...firms].some(([id, name]) => id === firm || isAsked(searchable(name))) || firm === "";
}

/** The entries that match. */
export function chosen(entries, filters) {
  const isFound = finder(filters.words);
  return entries.filter((one) => isFound(one.words) && [one.state, ""].includes(filters.state)
    && [one.year, ""].includes(filters.year) && (filters.line === "" || one.lines.has(filters.line)) && isOfFirm(one, filters.firm)
    && isWithin(one.known?.estimate, filters.from, filters.to));
}

/** The number of the notice that a text writes, in whatever case; null if there is none, or if two could be
 * meant. */
export function noticeOf(list, text) {
  const same = list.filter(({ notice }) => notice.toLowerCase() === text.trim().toLowerCase());
  return same.find(({ notice }) => notice === text.trim())?.notice ?? (same.length === 1 ? same[0].notice : null);
}
