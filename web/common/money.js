// Amounts and moments as they are shown, amounts as they are typed, and the time to a deadline.
import { element } from "./draw.js";
import { officeNow } from "./office.js";
import { language, say } from "./texts.js";
import { zone } from "./zone.js";

// Number and date formats are made once: making one takes longer than using it a hundred times.
const forms = new Map();

function form(kind, parts) {
  const tag = language() === "en" ? "en-GB" : language();
  const name = `${tag} ${kind.name} ${JSON.stringify(parts)}`;
  if (!forms.has(name)) {
    forms.set(name, new kind(tag, parts));
  }
  return forms.get(name);
}

/** A whole number with grouped digits, as the language writes it. */
export function number(amount) {
  return form(Intl.NumberFormat, {}).format(amount);
}

/** An amount with its currency, which can be unknown. */
export function money(amount, currency) {
  return currency ? `${number(amount)} ${currency}` : number(amount);
}

/** A typed amount: its value, or the name of its fault. Spaces are ignored; points and commas aren't, because
 * nobody knows what they mean. */
export function typed(text, most) {
  const digits = text.replace(/[\s\u00a0\u202f']/g, "");
  if (digits === "") {
    return { fault: "empty" };
  }
  if (!/^\d+$/.test(digits)) {
    return { fault: /^\d+[.,][\d.,]*$/.test(digits) ? "point" : "digits" };
  }
  const trimmed = digits.replace(/^0+(?=\d)/, "");
  return trimmed.length > 16 || Number(trimmed) > most ? { fault: "above" } : { value: Number(trimmed) };
}

const DAY = { day: "numeric", month: "long", year: "numeric" };
const MINUTE = { ...DAY, hour: "2-digit", minute: "2-digit", hourCycle: "h23", timeZoneName: "short" };
const SECOND = { ...MINUTE, second: "2-digit" };

function formatted(date, parts, timeZone = zone()) {
  return form(Intl.DateTimeFormat, { ...parts, timeZone }).format(date);
}

/** A moment of the office with these parts. Its title says all of it, also in UTC. */
function shown(text, parts) {
  const date = new Date(text);
  if (Number.isNaN(date.getTime())) {
    return element("span", {}, text);
  }
  const whole = [zone(), "UTC"].map((one) => formatted(date, SECOND, one));
  return element("time", { datetime: text, title: [...new Set(whole)].join(" = ") }, formatted(date, parts));
}

/** A moment as its day: for the past. */
export function day(text) {
  return shown(text, DAY);
}

/** A moment to the minute: for the future. */
export function minute(text) {
  return shown(text, MINUTE);
}

/** A moment to the second: for deadlines and receipts. */
export function moment(text) {
  return shown(text, SECOND);
}

/** A past moment as its day, a later one to the minute. */
export function when(text) {
  return Date.parse(text) <= officeNow() ? day(text) : minute(text);
}

/** A moment (in milliseconds) to the minute, as a text. */
export function minuteText(milliseconds) {
  return formatted(new Date(milliseconds), MINUTE);
}

/** The time between two moments, given in seconds, as `2 days, 3 hours` or `4 minutes`, with so many units at most. */
export function span(seconds, most = 2) {
  const units = [["days", 86400], ["hours", 3600], ["minutes", 60], ["seconds", 1]];
  const at = Math.max(0, units.findIndex(([, unit]) => seconds >= unit));
  const told = seconds < 1 ? units.slice(-1) : units.slice(at, at + most);
  return told.map(([name, unit], place) => [name, Math.floor((place === 0 ? seconds : seconds % Number(units[at][1])) / Number(unit))])
    .filter(([, count], place) => place === 0 || count > 0).map(([name, count]) => say(`span.${name}`, { count })).join(", ");
}

/** The seconds until a moment (in milliseconds) by the server's clock. A second that has begun counts. */
export function secondsTo(milliseconds) {
  return Math.ceil((milliseconds - officeNow()) / 1000);
}

/** An element with the time to a moment, updated each second. `tell(element, seconds)` writes it, and returns whether it
 * runs on; then `over` is called. */
export function countdown(milliseconds, tell, over = () => {}) {
  const shown = element("span", { role: "timer", "aria-live": "off" });
  const next = () => tell(shown, secondsTo(milliseconds));
  if (next()) {
    const timer = setInterval(() => {
      if (!shown.isConnected) {
        clearInterval(timer);
      } else if (!next()) {
        clearInterval(timer);
        over();
      }
    }, 1000);
  }
  return shown;
}

// From this many seconds on, a deadline is marked as urgent.
const CLOSE = 600;

/** The time to a deadline. The office still takes tenders in its last second. */
export function clock(deadline, over) {
  return countdown(Date.parse(deadline), (shown, left) => {
    shown.textContent = left > 0 ? say("clock.left", { span: span(left) }) : say("clock.over");
    shown.className = left < CLOSE ? "clock wrong" : "clock";
    return left > 0;
  }, over);
}
