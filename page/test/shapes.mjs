// The structure of a look: where the parts of the page stand, and how large they are.

// Runs in the page: of each part that is shown, its left, top, width and height.
export function shapesOf() {
  const PARTS = ["header", "#story", "#own", "#picture-tools", "#views", "#told", "#prediction", "#editor", "#start-bar", "#panel", "#tabs", "#matter", "#sentence", "#matter button:not([hidden])", "#picture-frame",
    "#picture .names", "#picture .heads", "#picture .lanes", "#picture .lines", "#overview", "#ghost-words", "#bar", "#time", "#next", "#moves", "#full", "#tour", "#help-dialog[open]", "#compare-dialog[open]", "#lesson-dialog[open]", ".menu:not([hidden])", ".refusal-note"];
  /** @type {{[part: string]: number[]}} */
  const found = {};
  for (const name of PARTS) {
    const it = document.querySelector(name);
    if (!it?.getClientRects().length) continue;
    const { x, y, width, height } = it.getBoundingClientRect();
    found[name] = [x, y, width, height].map((value) => Math.max(0, Math.round(value)));
    if (name.startsWith("#picture .l")) found[name] = [found[name][0], 0, found[name][2], 0]; // as tall as their log, and scrolled
  }
  return found;
}
