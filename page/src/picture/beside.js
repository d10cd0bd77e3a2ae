// What stands in a line of the picture while the pointer is there: the button that takes its step back, and where a dragged one goes.

import { lettersOf } from "./labels.js";
import { phrase } from "../phrases.js";

const BUTTON = 24; // its least height

/** @param {import("./view.js").PictureView} picture */
export const besideOf = (picture) => `<g aria-hidden="true">${takeBack(picture)}${drop(picture)}</g>`;

// The button of a step that is pointed at, at the end of its line. That of a chosen step stands above the picture.
/** @param {import("./view.js").PictureView} picture */
function takeBack(picture) {
  const { layout, view, hand, letter } = picture;
  const row = picture.row(view.pointed);
  if (row === null || hand.drag || !view.count || view.isKept || !layout) return "";
  const text = phrase("take back {count}", { count: view.count });
  const width = lettersOf(text) * (letter + 0.4) + 14;
  const [x, y] = [layout.lineWidth - width - 6, layout.y(row) - BUTTON / 2];
  return `<g class="take-back"><rect x="${x}" y="${y}" width="${width}" height="${BUTTON}"/><text x="${x + width / 2}" y="${y + 16}">${text}</text></g>`;
}

/** @param {import("./view.js").PictureView} picture */
function drop({ layout, hand: { drag } }) {
  if (!drag || drag.row === drag.from || !layout) return "";
  const y = layout.y(drag.row + (drag.row > drag.from ? 0.5 : -0.5));
  return `<line class="drop" x1="0" y1="${y}" x2="${layout.lineWidth}" y2="${y}"/>`;
}
