// The width of the source and the height of the panel, which change by dragging the line beside them or by the arrow keys.

import { keepSettings, settings } from "../control/keeping.js";
import { find } from "../element.js";

const STEP = 24; // pixels that an arrow key moves
const LEAST = 120;

/** @typedef {{name: string, pane: string, isTall: boolean, keys: {[key: string]: number}}} Split */

/** @type {Split[]} */
const SPLITS = [
  { name: "left", pane: "left", isTall: false, keys: { ArrowLeft: -STEP, ArrowRight: STEP } },
  { name: "panel", pane: "panel", isTall: true, keys: { ArrowUp: STEP, ArrowDown: -STEP } },
];

/**
 * @param {Split} split
 * @param {number} size
 * @param {import("../control/page.js").Page} page
 */
function setSize({ name, isTall }, size, page) {
  const most = Math.max(LEAST, (isTall ? window.innerHeight : window.innerWidth) * 0.6);
  const set = Math.round(Math.max(LEAST, Math.min(most, size)));
  document.documentElement.style.setProperty(`--${name}-size`, `${set}px`);
  find(`${name}-split`).setAttribute("aria-valuenow", String(set));
  keepSettings({ [name]: set });
  page.views.editor.refresh();
}

/**
 * @param {Split} split
 * @param {import("../control/page.js").Page} page
 */
function makeSplitter(split, page) {
  const { name, pane, isTall, keys } = split;
  const line = find(`${name}-split`);
  const size = () => find(pane).getBoundingClientRect()[isTall ? "height" : "width"];
  line.addEventListener("pointerdown", (event) => {
    line.setPointerCapture(event.pointerId);
    const [from, before] = [isTall ? -event.clientY : event.clientX, size()];
    line.onpointermove = (moved) => setSize(split, before + (isTall ? -moved.clientY : moved.clientX) - from, page);
    line.onpointerup = () => (line.onpointermove = null);
  });
  line.addEventListener("keydown", (event) => {
    const by = keys[event.key];
    if (!by) return;
    event.preventDefault();
    setSize(split, size() + by, page);
  });
}

/** @param {import("../control/page.js").Page} page */
export function makePanes(page) {
  const kept = settings();
  for (const split of SPLITS) {
    if (typeof kept[split.name] === "number") setSize(split, kept[split.name], page);
    makeSplitter(split, page);
  }
}
