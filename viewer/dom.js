// Elements, made without a text ever being read as HTML: what a document names goes into text nodes and attributes alone.
import { markClass, markPath } from "./marks.js";
import { shown } from "./words.js";

const SVG = "http://www.w3.org/2000/svg";

/** @typedef {Node|string|null} Child */

/**
 * @param {string} name
 * @param {Record<string, string|number|boolean|null>} [attributes] one that is null or false is left out
 * @param {...Child} children
 * @returns {HTMLElement}
 */
export function element(name, attributes = {}, ...children) {
  return /** @type {HTMLElement} */ (filled(document.createElement(name), attributes, children));
}

/** @param {string} name @param {Record<string, string|number>} [attributes] @param {...Child} children */
export function svgElement(name, attributes = {}, ...children) {
  return filled(document.createElementNS(SVG, name), attributes, children);
}

/** @param {Element} made @param {Record<string, string|number|boolean|null>} attributes @param {Child[]} children */
function filled(made, attributes, children) {
  for (const [key, value] of Object.entries(attributes)) {
    if (value !== null && value !== false) made.setAttribute(key, value === true ? "" : shown(String(value)));
  }
  made.append(...children.filter((child) => child !== null).map((child) => (typeof child === "string" ? shown(child) : child)));
  return made;
}

/** A text of several lines, as it stands. @param {string} text */
export function preformatted(text) {
  const lines = text.split("\n").map((line) => line.split("\t").map(shown).join("\t"));
  const made = element("pre");
  made.append(lines.join("\n"));
  return made;
}

/** A mark as it stands in the map. @param {number} mark @param {number} [size] */
export function markIcon(mark, size = 13) {
  const path = svgElement("path", { d: markPath(mark, 0, 0, size), class: markClass(mark) });
  return svgElement("svg", { class: "icon", width: size, height: size, viewBox: `0 0 ${size} ${size}`, "aria-hidden": "true" }, path);
}

/** @param {string} title @param {string} id @param {...Child} children */
export function section(title, id, ...children) {
  return element("section", { id, "aria-labelledby": `${id}-title` }, element("h2", { id: `${id}-title` }, title), ...children);
}

/**
 * A list of which the first members are shown, and a button that shows as many more again.
 * @template T
 * @param {T[]} items
 * @param {number} step
 * @param {HTMLElement} into
 * @param {(item: T) => Node} draw
 * @returns {HTMLElement} the button, hidden where all is shown
 */
export function drawSome(items, step, into, draw) {
  let done = 0;
  const button = element("button", { type: "button", class: "more" });
  const more = () => {
    into.append(...items.slice(done, done + step).map(draw));
    done = Math.min(items.length, done + step);
    button.textContent = `Show ${Math.min(step, items.length - done)} more of ${items.length - done}`;
    button.hidden = done === items.length;
  };
  button.addEventListener("click", more);
  more();
  return button;
}
