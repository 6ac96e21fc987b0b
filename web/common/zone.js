// The time zone in which the screens show moments and read them from fields: the city's, by `city.json`, or
// else the browser's. Runs in node too.

/** @type {string | undefined} */
let own;

/** Uses a time zone from now on, such as `Europe/Berlin`. The browser's is used if the name is empty or unknown. */
export function useZone(name) {
  try {
    own = name ? new Intl.DateTimeFormat("en", { timeZone: name }).resolvedOptions().timeZone : undefined;
  } catch (fault) {
    console.warn(`city.json: ${fault.message}`);
    own = undefined;
  }
}

/** The city's time zone, or undefined: formats of dates then use the browser's. */
export function zone() {
  return own;
}

/** The name of the time zone in use. */
export function zoneName() {
  return new Intl.DateTimeFormat("en", { timeZone: own }).resolvedOptions().timeZone;
}

/** @type {Intl.DateTimeFormatOptions} */
const PARTS = { year: "numeric", month: "numeric", day: "numeric", hour: "numeric", minute: "numeric", second: "numeric", hourCycle: "h23" };

/** What clocks in the zone show at a moment (in milliseconds), as the moment at which they show it in UTC. */
export function wallOf(milliseconds) {
  const found = new Intl.DateTimeFormat("en", { ...PARTS, timeZone: own }).formatToParts(milliseconds);
  const of = (type) => Number(found.find((part) => part.type === type)?.value);
  return Date.UTC(of("year"), of("month") - 1, of("day"), of("hour"), of("minute"), of("second"));
}

const DAY = 86_400_000;

/** The moment at which clocks in the zone show this, the first of two. An hour that clocks skip is counted on
 * from the hour before it. */
export function atWall(wall) {
  const tries = [wall - DAY, wall + DAY].map((near) => wall - (wallOf(near) - near));
  return tries.find((one) => wallOf(one) === wall) ?? tries[0];
}
