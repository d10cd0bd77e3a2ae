// What stands in place of a picture without steps: a ghost of what will come, and what to press.

import { find } from "../element.js";

const [LANES, ROWS, ROW] = [3, 14, 34];
const MARKS = [0, 0, 0, 1, 0, 2, 1, 2, 0, 1, 2, 1, 2, 0]; // the lane of each step
const EDGES = [[2, 3], [4, 5], [6, 10], [7, 11]]; // between rows

const x = (/** @type {number} */ row) => 40 + 62 * MARKS[row];
const y = (/** @type {number} */ row) => 64 + ROW * row;

function drawing() {
  const lanes = Array.from({ length: LANES }, (_, lane) => `<path d="M${40 + 62 * lane} 44V${y(ROWS)}" stroke-width="2"/>`);
  const edges = EDGES.map(([from, to]) => `<path d="M${x(from)} ${y(from)}L${x(to)} ${y(to)}" stroke-width="3"/>`);
  const steps = MARKS.map((_, row) => `<circle cx="${x(row)}" cy="${y(row)}" r="8"/><rect x="240" y="${y(row) - 7}" width="${110 + ((row * 67) % 130)}" height="14" rx="7"/>`);
  return `<svg width="100%" height="100%" aria-hidden="true"><g class="drawn">${[...lanes, ...edges, ...steps].join("")}</g></svg>`;
}

/** @param {import("../control/page.js").Page} page */
export function showGhost({ session, views: { stories } }) {
  const ghost = find("ghost");
  if (!ghost.querySelector("svg")) ghost.insertAdjacentHTML("afterbegin", drawing());
  ghost.hidden = !session || session.log.length > 0 || Boolean(session.gone);
  find("tell-it").hidden = stories.next === undefined || !stories.isOf(session?.source || "");
}
