// Shapes in SVG. Their places along a picture are parts of its width, so that the words beside them keep their size on a phone.
import { element } from "./draw.js";

const SPACE = "http://www.w3.org/2000/svg";

export function drawn(name, attributes, ...children) {
  const made = document.createElementNS(SPACE, name);
  for (const [key, value] of Object.entries(attributes)) {
    made.setAttribute(key, String(value));
  }
  made.append(...children);
  return made;
}

/** A drawing as wide as its place, and so many pixels high. Screen readers skip it. */
export function drawing(height, ...shapes) {
  return drawn("svg", { width: "100%", height, class: "chart", "aria-hidden": "true" }, ...shapes);
}

// The signs of points, which differ in shape: a disc, a ring, a cross.
const SIGNS = { disc: ["circle", { r: 6 }], ring: ["circle", { r: 5.5 }], cross: ["path", { d: "M-5 -5 5 5 M-5 5 5 -5" }] };

/** A sign at a part of the width (0 to 1), so many pixels from above. */
export function sign(kind, part, y) {
  const [name, attributes] = SIGNS[kind];
  return drawn("svg", { x: `${100 * part}%`, y, class: "sign-at" }, drawn(name, { ...attributes, class: `sign ${kind}` }));
}

/** A line from above to below. */
export function upright(part, height, kind) {
  return drawn("line", { x1: `${100 * part}%`, x2: `${100 * part}%`, y1: 0, y2: height, class: kind });
}

/** A row of marks at parts of the width, each with a text to its right. Those that would leave the picture are left out. */
export function scale(marks) {
  return element("div", { class: "scale" }, marks.filter(({ part }) => part < 0.88).map(({ part, text }) => {
    const made = element("span", { "data-text": text });
    made.style.left = `${100 * part}%`;
    return made;
  }));
}

/** At most `count` round numbers between two, evenly apart, for the marks of an axis. */
export function rounds(least, most, count) {
  const rough = Math.max((most - least) / count, 1);
  const power = 10 ** Math.floor(Math.log10(rough));
  const step = [1, 2, 5, 10].map((one) => one * power).find((one) => one >= rough);
  const first = Math.ceil(least / step);
  return Array.from({ length: Math.max(0, Math.floor(most / step) - first + 1) }, (_, at) => (first + at) * step);
}

/** The signs of a picture, each before its meaning: pairs of a shape's drawing and a text. */
export function legend(pairs) {
  return element("ul", { class: "key" }, pairs.map(([shape, ...text]) => element("li", {}, element("span", { class: "glyph", "aria-hidden": "true" }, shape), text)));
}

/** A picture: one image for screen readers, with a label that says what it shows; and a table with its data, if there is
 * none beside it. */
export function picture(label, content, table = null) {
  return element("figure", { class: "picture" }, element("div", { role: "img", "aria-label": label }, content), table);
}
