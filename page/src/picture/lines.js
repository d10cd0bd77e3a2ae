// The text at the right of the picture, as SVG text: a line for each row, whose columns begin at places of their own.

import { SIDES, classesOf, isWashed, sideOf } from "./picture.js";
import { cycleLine, isCycleShown } from "./lanes.js";
import { escaped } from "./labels.js";
import { lineOf } from "./outcomes.js";
import { phrase } from "../phrases.js";
import { waitsForText } from "../waiting/sentences.js";

/** @typedef {import("./layout.js").Place} Place */

/**
 * @param {string} name
 * @param {number} x
 * @param {number} y
 * @param {string} content
 */
const text = (name, x, y, content) => (content ? `<text class="${name}" x="${x}" y="${y}">${content}</text>` : "");

// The heights of the first and the second line of text in a row.
/**
 * @param {Place} place
 * @param {number} at
 */
function baselines({ y, rowHeight, columns }, at) {
  return columns.isStacked ? [y(at) - rowHeight * 0.08, y(at) + rowHeight * 0.32] : [y(at) + 4, y(at) + 4];
}

/**
 * @param {Place} place
 * @param {number} at
 * @param {Step} step
 */
function partsOf(place, at, step) {
  const count = place.rows.count(at);
  if (count > 1) return { number: step.id, kind: phrase("… {count} own statements", { count }), outcome: [] };
  return lineOf(step, place.notes(step.id), place);
}

// What a screen reader gets of a row.
/**
 * @param {Place} place
 * @param {number} at
 * @param {Step} step
 * @param {PointedView} view
 * @param {(step: Step) => string} describe
 */
const spoken = (place, at, step, view, describe) =>
  ` role="option" id="row-${step.row}" aria-selected="${step.id === view.pointed}" aria-posinset="${at + 1}" aria-setsize="${place.rows.length}" aria-label="${escaped(describe(step))}"`;

/**
 * @param {Place} place
 * @param {number} at
 * @param {PointedView} view
 * @param {((step: Step) => string) | undefined} describe
 * @param {number} left
 */
function drawLine(place, at, view, describe, left) {
  const step = place.log.step(place.rows.at(at));
  const { columns, rowHeight } = place;
  const { number, kind, outcome } = partsOf(place, at, step);
  const [first, second] = baselines(place, at);
  // Where lanes and lines are one drawing, that of the lanes goes on behind the text.
  const wash = left ? "" : `<rect class="wash" x="-4" y="${place.y(at) - rowHeight / 2 + 1}" width="${place.lineWidth + 2}" height="${rowHeight - 2}"/>`;
  const came = outcome.map((part) => `<tspan class="${part.name}">${escaped(part.text)} </tspan>`).join("");
  const words = [
    text("side", left + columns.number / 2, first, SIDES[sideOf(step, view)] || ""), text("number", left + columns.number, columns.isStacked ? second : first, escaped(number)),
    text("kind", left + columns.statement, first, escaped(kind)), text("outcome", left + columns.outcome, second, came),
  ];
  const says = describe ? spoken(place, at, step, view, describe) : "";
  return `<g class="${classesOf(step, view, place.rows.count(at))}"${says} data-step="${step.id}">${isWashed(step, view, place.rows.count(at)) ? wash : ""}${words.join("")}</g>`;
}

// Who waits for whom in a cycle, below the last row.
/**
 * @param {Place} place
 * @param {string[]} cycle
 * @param {number} left
 */
function drawCycleWords(place, cycle, left) {
  const y = place.y(place.rows.length - 1) + place.rowHeight;
  const words = cycle.map((name, at) => text("cycle-word", left + place.columns.statement, y + 4 + cycleLine(place) * at, escaped(waitsForText(name, cycle[(at + 1) % cycle.length]))));
  return `<g aria-hidden="true">${words.join("")}</g>`;
}

// The lines between two rows of the picture, which begin at `left`.
/**
 * @param {Place} place
 * @param {PointedView} view
 * @param {number} from
 * @param {number} to
 * @param {{describe?: (step: Step) => string, left?: number}} how
 */
export function drawLines(place, view, from, to, { describe, left = 0 }) {
  const last = Math.min(to, place.rows.length - 1);
  const drawn = [];
  for (let at = from; at <= last; at++) drawn.push(drawLine(place, at, view, describe, left));
  if (isCycleShown(place, view.cycle) && last === place.rows.length - 1) drawn.push(drawCycleWords(place, view.cycle, left));
  return drawn.join("");
}
