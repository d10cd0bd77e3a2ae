// The pointer in the picture: it points at steps, chooses them, takes one back by the button beside it, and drags one to another row.

const PINCH = 1.2; // times as far apart are two fingers at the next size
const TURN = 40; // pixels of the wheel

export class Hand {
  /** @param {import("./view.js").PictureView} picture */
  constructor(picture) {
    this.picture = picture;
    /** @type {{from: number, row: number} | null} */
    this.drag = null;
    /** @type {number | null} */
    this.pressedRow = null;
    /** @type {Map<number, [number, number]>} */
    this.touches = new Map(); // fingers that are down, and where
    this.turned = 0; // how far the wheel was turned
    this.spread = 0; // how far two fingers were apart when the size was last changed
    const { host } = picture;
    host.addEventListener("pointermove", (event) => this.moved(event));
    host.addEventListener("pointerdown", (event) => this.pressed(event));
    host.addEventListener("pointerup", (event) => this.released(event));
    host.addEventListener("pointercancel", (event) => {
      this.touches.delete(event.pointerId);
      this.endDrag();
    });
    host.addEventListener("wheel", (event) => this.wheeled(event), { passive: false });
  }

  /** @param {PointerEvent} event */
  moved(event) {
    const { picture } = this;
    if (this.pinches(event)) return;
    const row = picture.rowOf(event);
    if (this.drag) return this.dragTo(row);
    if (row !== null) picture.on.point(picture.idAt(row));
  }

  /** @param {PointerEvent} event */
  pressed(event) {
    const { picture } = this;
    if (event.pointerType === "touch") this.touches.set(event.pointerId, [event.clientX, event.clientY]);
    if (this.touches.size > 1) return void (this.spread = this.apart());
    const row = picture.rowOf(event);
    const target = /** @type {Element} */ (event.target);
    if (row === null || event.button || target.closest(".take-back")) return;
    this.pressedRow = row;
    if (event.pointerType === "touch" || !target.closest("[data-step], [data-mark]")) return;
    picture.host.setPointerCapture(event.pointerId);
    this.drag = { from: row, row };
  }

  /** @param {number | null} row */
  dragTo(row) {
    if (row === null || !this.drag) return;
    this.drag.row = row;
    this.picture.draw();
  }

  /** @param {PointerEvent} event */
  released(event) {
    const { drag, picture } = this;
    const wasPinch = this.touches.size > 1;
    this.touches.delete(event.pointerId);
    this.endDrag();
    if (wasPinch) return void (this.pressedRow = null);
    if (/** @type {Element} */ (event.target).closest(".take-back")) return picture.on.takeBack(picture.view.pointed);
    if (drag && drag.row !== drag.from) return this.dropped(drag);
    const row = picture.rowOf(event);
    if (row !== null && row === this.pressedRow) picture.on.choose(picture.idAt(row));
  }

  // How far two fingers are apart.
  apart() {
    const [[x, y], [right, bottom]] = [...this.touches.values()];
    return Math.hypot(right - x, bottom - y);
  }

  // Two fingers make the picture larger or smaller. Says whether they do.
  /** @param {PointerEvent} event */
  pinches(event) {
    if (!this.touches.has(event.pointerId)) return false;
    this.touches.set(event.pointerId, [event.clientX, event.clientY]);
    if (this.touches.size !== 2) return false;
    const ratio = this.apart() / (this.spread || 1);
    if (ratio > PINCH || ratio < 1 / PINCH) {
      this.picture.zoom(ratio > 1 ? 1 : -1);
      this.spread = this.apart();
    }
    return true;
  }

  // So does the wheel with Ctrl, which is how browsers tell of a pinch on a touchpad.
  /** @param {WheelEvent} event */
  wheeled(event) {
    if (!event.ctrlKey) return;
    event.preventDefault();
    this.turned += event.deltaY;
    if (Math.abs(this.turned) < TURN) return;
    this.picture.zoom(this.turned < 0 ? 1 : -1);
    this.turned = 0;
  }

  // The log may have become shorter while a step was dragged.
  /** @param {{from: number, row: number}} drag */
  dropped({ from, row }) {
    const { picture } = this;
    const [id, to] = [from, row].map((it) => picture.idAt(it));
    if (id && to) picture.on.move(id, Number(picture.shown?.log.row(to)));
  }

  endDrag() {
    this.drag = null;
    this.picture.draw();
  }
}
