// The elements that the picture is drawn into. The lanes scroll in both directions under their names; the lines of text scroll up and
// down alone, beside as much of the lanes as is in view.

import { make } from "../element.js";
import { phrase } from "../phrases.js";

const NAMESPACE = "http://www.w3.org/2000/svg";

/** @typedef {ReturnType<typeof makeSheet>} Sheet */

/**
 * @param {string} className
 * @param {Element} parent
 */
function svg(className, parent) {
  const made = document.createElementNS(NAMESPACE, "svg");
  made.setAttribute("class", className);
  made.setAttribute("role", "none");
  parent.append(made);
  return made;
}

/**
 * @param {HTMLElement} host
 * @param {string} definitions
 */
export function makeSheet(host, definitions) {
  const whole = make("div", { class: "sheet", role: "none" });
  host.append(whole);
  const graph = svg("picture lanes", whole);
  graph.setAttribute("aria-hidden", "true");
  graph.innerHTML = `${definitions}<g class="drawn" role="none"></g>`;
  const lines = svg("picture lines", whole);
  const names = svg("picture names", whole);
  names.setAttribute("aria-hidden", "true");
  const heads = make("div", { class: "heads", "aria-hidden": "true" }, ...[phrase("step"), phrase("statement"), phrase("what came of it")].map((it) => make("span", {}, it)));
  whole.append(heads);
  return { whole, graph, drawn: /** @type {Element} */ (graph.querySelector(".drawn")), lines, names, heads };
}

// An attribute that is set anew is laid out anew, with the value of before too.
/**
 * @param {Element} element
 * @param {{[name: string]: number}} values
 */
function set(element, values) {
  for (const [name, value] of Object.entries(values)) if (element.getAttribute(name) !== String(value)) element.setAttribute(name, String(value));
}

/**
 * @param {HTMLElement} element
 * @param {{[name: string]: string}} values
 */
function style(element, values) {
  for (const [name, value] of Object.entries(values)) if (element.style.getPropertyValue(name) !== value) element.style.setProperty(name, value);
}

// Gives the elements the places of a layout.
/**
 * @param {Sheet} sheet
 * @param {import("./layout.js").Place} layout
 * @param {number} height
 */
export function change({ whole, graph, lines, names, heads }, { lanes, lanesInView, lineWidth, head, columns }, height) {
  style(whole, { width: `${lanes + lineWidth}px`, height: `${height}px` });
  set(graph, { width: lanes, height });
  set(names, { width: lanes, height: head });
  set(lines, { width: lineWidth, height });
  for (const it of [lines, heads]) style(/** @type {HTMLElement} */ (/** @type {unknown} */ (it)), { left: `${lanesInView}px` });
  style(heads, { width: `${lineWidth}px`, height: `${head}px` });
  const places = [columns.number, columns.statement, columns.outcome];
  [...heads.children].forEach((it, at) => style(/** @type {HTMLElement} */ (it), { left: `${places[at]}px` }));
  heads.classList.toggle("stacked", columns.isStacked);
}
