// Languages: the spoken one, and its texts by name. Each language has a file of texts here, and each page
// adds its own.

const NAMES = { en: "English", de: "Deutsch" };
const books = { en: {}, de: {} };
// The functions that load the texts of each language when it is spoken.
const loaders = { en: [() => import("./en.js")], de: [() => import("./de.js")] };
let spoken = first();

/** The language in the address (`?language=de`), else the browser's first known language, else English. */
function first() {
  const asked = new URLSearchParams(globalThis.location?.search ?? "").get("language");
  const wanted = [asked, ...(globalThis.navigator?.languages ?? [])].map((tag) => String(tag).slice(0, 2).toLowerCase());
  return wanted.find((tag) => Object.hasOwn(NAMES, tag)) ?? "en";
}

/** Adds texts: for each language a function that loads a module of them when the language is spoken. A new
 * text replaces an older one of the same name. */
export async function addTexts(more) {
  for (const [tag, texts] of Object.entries(more)) {
    loaders[tag].push(texts);
  }
  await load(spoken);
}

async function load(tag) {
  const loaded = await Promise.all(loaders[tag].map((one) => one()));
  Object.assign(books[tag], ...loaded.map((one) => one.default));
  loaders[tag] = [];
}

/** The spoken language, such as `en`. */
export function language() {
  return spoken;
}

/** The languages, as pairs of tag and name. */
export function languages() {
  return Object.entries(NAMES);
}

/** Changes the language when its texts are loaded, and writes it into the address, because nothing is stored.
 * The page must then draw itself again. */
export async function chooseLanguage(tag) {
  const wanted = Object.hasOwn(NAMES, tag) ? tag : "en";
  await load(wanted);
  spoken = wanted;
  if (globalThis.history?.replaceState) {
    const address = new URL(location.href);
    address.searchParams.set("language", spoken);
    history.replaceState(history.state, "", address);
  }
}

/** Whether a text of this name exists. */
export function hasText(name) {
  return Object.hasOwn(books[spoken], name);
}

/** The text of this name with its placeholders. Of a pair it is the first if `count` is 1, else the second. */
function found(name, values) {
  const text = books[spoken][name];
  if (text === undefined) {
    throw new Error(`there is no text ${name} in ${spoken}`);
  }
  return Array.isArray(text) ? text[Number(values.count) === 1 ? 0 : 1] : text;
}

/** A text with its values filled in. Numbers are shown as `12,500`; texts stay unchanged. */
export function say(name, values = {}) {
  return sayParts(name, values).join("");
}

/** The same as a list of texts and of other values, such as elements. */
export function sayParts(name, values = {}) {
  return found(name, values).split(/\{(\w+)\}/).map((part, at) => (at % 2 === 0 ? part : shown(values[part], part, name))).filter((part) => part !== "");
}

function shown(value, part, name) {
  if (value === undefined) {
    throw new Error(`the text ${name} needs a value ${part}`);
  }
  return typeof value === "number" || typeof value === "bigint" ? new Intl.NumberFormat(spoken).format(value) : value;
}
