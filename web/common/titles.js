// The titles of budget lines, which are shown beside their numbers.
import { rows } from "./data.js";
import { given } from "./draw.js";
import { line } from "./office.js";

/** The titles by line: those of the mirror's table, and of `needed` lines that it doesn't have yet, the office's. A title that
 * can't be fetched is missing. `needed` can be a promise. */
export async function titlesOf(needed) {
  const [known, lines] = await Promise.all([rows("budget").catch(() => null), needed]);
  const titles = new Map((known ?? []).map((row) => [row.line, row.title]));
  const missing = [...new Set(lines)].filter((name) => !titles.has(name));
  await Promise.all(missing.map((name) => line(name).then(({ title }) => titles.set(name, title), () => {})));
  return titles;
}

/** A budget line with its title, if that is known. */
export function lineWithTitle(name, titles) {
  const title = titles?.get(name);
  return title ? [`${name} `, given(title)] : name;
}
