// What the marks and edges of the picture stand for.

import { escaped, lettersOf } from "./labels.js";
import { phrase, phraseKey } from "../phrases.js";

const MARK_NAMES = [
  ["", '<circle class="mark" cx="8" cy="8" r="3.5"/>', phraseKey("own statement")],
  ["", '<circle class="mark" cx="8" cy="8" r="5.5"/>', phraseKey("communication")],
  ["wait", '<rect class="mark" x="3" y="3" width="10" height="10"/>', phraseKey("begins to wait")],
  ["wait stuck", '<rect class="mark" x="3" y="3" width="10" height="10"/>', phraseKey("is stuck")],
  ["", '<path class="mark" d="M8 2l6 6l-6 6l-6 -6z"/>', phraseKey("starts, makes")],
  ["", '<path class="mark" d="M2 4h12v8h-12z"/>', phraseKey("closes")],
  ["fault", '<path class="mark" d="M3 3l10 10m0 -10l-10 10"/>', phraseKey("panic")],
  ["", '<line class="asleep" x1="8" y1="0" x2="8" y2="16"/>', phraseKey("waits")],
];
const EDGE_NAMES = [["message", phraseKey("message")], ["start", phraseKey("start")], ["close", phraseKey("close")], ["order", phraseKey("order of waiting")]];
const SIDE_NAMES = [["cause", "↑", phraseKey("because of it")], ["consequence", "↓", phraseKey("goes with it")]];
const ROWS = 3;
export const LEGEND_HEIGHT = 6 + 24 * ROWS;

/** @param {string} kind */
const arrow = (kind) => `<path class="edge ${kind}" marker-end="url(#tip-plain)" d="M1 8L22 8"/>`;
/** @param {string[]} side */
const washed = ([, sign]) => `<rect class="wash" width="16" height="16"/><text class="side" x="8" y="12">${sign}</text>`;

// Each as its class, its drawing, its words and the width of the drawing.
const ENTRIES = [
  ...MARK_NAMES.map(([name, mark, text]) => ({ name, drawing: mark, text, width: 16 })),
  ...EDGE_NAMES.map(([kind, text]) => ({ name: "", drawing: arrow(kind), text, width: 26 })),
  ...SIDE_NAMES.map((side) => ({ name: side[0], drawing: washed(side), text: side[2], width: 16 })),
];

export function legend() {
  return ENTRIES.map(
    ({ name, drawing, text, width }) => `<span><svg class="picture" width="${width}" height="16"><g class="${name}">${drawing}</g></svg>${phrase(text)}</span>`,
  ).join("");
}

// The same within an SVG, in rows.
export function legendDrawing() {
  const each = Math.ceil(ENTRIES.length / ROWS);
  const lefts = Array(ROWS).fill(0);
  return ENTRIES.map(({ name, drawing, text, width }, at) => {
    const row = Math.floor(at / each);
    const x = lefts[row];
    const said = phrase(text);
    lefts[row] += width + 20 + lettersOf(said) * 7.3;
    return `<g class="${name}" transform="translate(${x} ${24 * row})">${drawing}</g><text class="muted" x="${x + width + 5}" y="${24 * row + 12}">${escaped(said)}</text>`;
  }).join("");
}
