// A narrow strip beside the picture that shows the whole log: where there are steps of which goroutine, the causes and consequences of
// the chosen step, and the part that is in view. A click goes there.

import { sideOf } from "./picture.js";
import { endsAll } from "../session/edges.js";

const MOST = 1500; // steps that are drawn; of more, one in so many

/**
 * @param {Step} step
 * @param {PointedView} view
 */
const pointedSide = (step, view) => (step.id === view.pointed ? "pointed" : sideOf(step, view));

export class Overview {
  /**
   * @param {HTMLCanvasElement} canvas
   * @param {import("./view.js").PictureView} picture
   */
  constructor(canvas, picture) {
    this.canvas = canvas;
    this.picture = picture;
    this.frame = 0;
    const go = (/** @type {PointerEvent} */ event) => event.buttons && this.goTo(event.offsetY);
    canvas.addEventListener("pointerdown", go);
    canvas.addEventListener("pointermove", go);
  }

  /** @param {number} y */
  goTo(y) {
    const { host } = this.picture;
    host.scrollTop = (y / this.canvas.clientHeight) * host.scrollHeight - host.clientHeight / 2;
  }

  draw() {
    cancelAnimationFrame(this.frame);
    this.frame = requestAnimationFrame(() => this.drawNow());
  }

  drawNow() {
    const { canvas, picture } = this;
    const { rows, layout } = picture;
    const isWanted = Boolean(rows) && picture.host.scrollHeight > picture.host.clientHeight + 4;
    canvas.style.visibility = isWanted ? "" : "hidden";
    if (!isWanted || !rows || !layout) return;
    const { clientWidth: width, clientHeight: height } = canvas;
    const { scrollTop, clientHeight, scrollHeight } = picture.host;
    const style = getComputedStyle(canvas);
    const colour = (/** @type {string} */ name) => style.getPropertyValue(`--${name}`);
    const colours = { "": colour("edge"), cause: colour("cause"), consequence: colour("consequence"), end: colour("text"), pointed: colour("text") };
    const frame = colour("text");
    Object.assign(canvas, { width, height }); // which clears it
    const context = /** @type {CanvasRenderingContext2D} */ (canvas.getContext("2d"));
    const columns = new Map(layout.names.map((name, at) => [name, at]));
    const each = width / Math.max(1, columns.size);
    const by = Math.max(1, Math.floor(rows.length / MOST));
    const { log } = layout;
    let used = "";
    for (let at = 0; at < rows.length; at += by) {
      const row = rows.at(at);
      const side = endsAll(log.kinds[row]) ? "end" : picture.view.pointed ? pointedSide(log.step(row), picture.view) : "";
      const wanted = colours[/** @type {keyof colours} */ (side)];
      if (used !== wanted) context.fillStyle = used = wanted;
      const tall = Math.max(side ? 2 : 1, height / rows.length);
      context.fillRect((columns.get(log.columns[row].name) || 0) * each, (at / rows.length) * height, Math.max(2, each - 1), tall);
    }
    context.strokeStyle = frame;
    context.lineWidth = 2;
    context.strokeRect(1, (scrollTop / scrollHeight) * height, width - 2, Math.max(6, (clientHeight / scrollHeight) * height));
  }
}
