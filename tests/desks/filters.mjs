// What test_filters.py asks the portal's list (web/common/filters.js), whose functions are global here.

const shown = ({ notice, state, year, lines, firms, winners }) => [notice, state, year, [...lines].sort(), [...firms].sort(), [...winners].sort()];

/** The filters of an address, also when they are written and read again, what they find, and the notice of a number. */
export function answerTo({ list, data, now, address, number }) {
  const asked = filtersOf(address);
  const found = chosen(entriesOf(list, data, Date.parse(now)), asked);
  return { asked, again: filtersOf(addressOf(asked)), found: ordered(found, asked.order).map(shown), number: noticeOf(list, number) };
}

/** An address, read and written again. */
export function written(address) {
  return addressOf(filtersOf(address));
}
