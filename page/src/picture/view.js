// The space-time picture in the page: only the rows in view are drawn. It tells of pointing, choosing and dragging. Lanes scroll beside
// the text, which stays where it is.

import { Hand } from "./hand.js";
import { worksOn } from "../session/operations.js";
import { headOf, isStacked, layOut } from "./layout.js";
import { DEFINITIONS, NOTHING_POINTED } from "./picture.js";
import { cycleHeight, drawLanes, drawNames } from "./lanes.js";
import { drawLines } from "./lines.js";
import { makeSheet, change } from "./sheet.js";
import { Rows } from "./rows.js";
import { besideOf } from "./beside.js";

const SIZES = [[14, 10], [18, 12], [22, 13], [28, 15], [36, 20], [44, 24]]; // heights of rows, and of their letters
const STACKED = 1.7; // times as tall is a row whose columns stand below each other
const AROUND = 8; // rows drawn beyond those in view
const TALLEST = 15000000; // pixels: browsers show no taller element
const END = 6; // pixels below the last row
const LEAST = 120; // a narrower picture is not shown
const UNSEEN = 800; // the width for which a picture is laid out that was not shown yet

/**
 * @typedef {object} PictureEvents
 * @property {(id: string | null) => void} point
 * @property {(id: string) => void} choose
 * @property {(id: string) => void} takeBack
 * @property {(id: string, row: number) => void} move
 * @property {() => void} scrolled
 */

/** @typedef {Omit<import("./layout.js").Shown, "rows">} ShownLog */

export class PictureView {
  /**
   * @param {HTMLElement} host
   * @param {PictureEvents} on
   * @param {(step: Step) => string} describe
   */
  constructor(host, on, describe) {
    this.host = host;
    this.on = on;
    this.describe = describe;
    this.size = 2;
    this.view = NOTHING_POINTED;
    /** @type {Edge[]} */
    this.edges = [];
    this.isFolded = false;
    /** @type {Set<string>} */
    this.hidden = new Set();
    this.channel = ""; // the one whose operations alone are shown, or "" for all
    this.hasOrder = true; // whether arrows of the order of waiting are drawn
    /** @type {ShownLog | null} */
    this.shown = null;
    /** @type {import("./layout.js").Place | null} */
    this.layout = null;
    this.frame = 0;
    this.version = -1; // of the log that is laid out
    this.rowsVersion = -1; // and of the one whose rows these are
    /** @type {Rows | null} */
    this.rowsNow = null;
    this.length = 0;
    this.isStacked = false;
    this.room = 0; // its height when that was last seen
    this.wasAtEnd = true;
    this.sheet = makeSheet(host, DEFINITIONS);
    this.hand = new Hand(this);
    host.addEventListener("scroll", () => {
      this.wasAtEnd = this.isAtEnd;
      this.drawSoon();
      this.on.scrolled();
    });
    new ResizeObserver(() => this.resized()).observe(host);
  }

  // The step that stays in view: the one that is kept chosen, or the last one of a past state. The log may have become shorter since.
  get staying() {
    const { isKept, pointed, last } = this.view;
    const row = Math.max(0, last - 1);
    return isKept ? pointed : this.shown && row < this.shown.log.length ? this.shown.log.id(row) : "";
  }

  // Keeps in view what was there: the step that stays, or else the end.
  resized() {
    const { scrollTop, clientHeight } = this.host;
    const { staying } = this;
    const row = this.row(staying);
    const wasInView = row !== null && row >= this.rowAt(scrollTop) && row < this.rowAt(scrollTop + this.room);
    this.room = clientHeight;
    this.place();
    if (wasInView) this.reveal(staying);
    else if (this.wasAtEnd) this.host.scrollTop = this.host.scrollHeight;
  }

  // The rows of the log as it is now.
  get rows() {
    if (this.shown && this.rowsVersion !== this.shown.log.version) this.renewRows(this.shown);
    return this.rowsNow;
  }

  /** @param {ShownLog} shown */
  renewRows(shown) {
    this.rowsVersion = shown.log.version;
    this.rowsNow = this.rowsOf(shown);
  }

  get rowHeight() {
    return Math.round(SIZES[this.size][0] * (this.isStacked ? STACKED : 1));
  }

  get letter() {
    return Math.round(SIZES[this.size][1] * 0.605 * 100) / 100;
  }

  get headHeight() {
    return headOf(this.letter);
  }

  // Makes rows and letters smaller or larger, and keeps the row that is on top, or the end in view.
  /** @param {number} by */
  zoom(by) {
    const [row, wasAtEnd] = [this.rowAt(this.host.scrollTop), this.isAtEnd];
    this.size = Math.max(0, Math.min(SIZES.length - 1, this.size + by));
    this.place();
    this.host.scrollTop = wasAtEnd ? this.host.scrollHeight : (row - this.top) * this.rowHeight;
  }

  // The largest size at which all rows are in view, or else the smallest.
  fit() {
    const room = this.host.clientHeight - this.headHeight - END;
    const fitting = SIZES.map(([height]) => height * (this.rows?.length || 1) <= room).lastIndexOf(true);
    this.zoom(Math.max(0, fitting) - this.size);
  }

  // Shows a log, and the edges that are found of it.
  /**
   * @param {ShownLog} shown
   * @param {Edge[]} edges
   */
  show(shown, edges) {
    const atEnd = this.isAtEnd;
    const grown = shown.log.length > this.length;
    this.length = shown.log.length;
    this.shown = shown;
    this.edges = edges;
    this.place();
    if (atEnd && grown) this.host.scrollTop = this.host.scrollHeight;
  }

  get isAtEnd() {
    return this.host.scrollTop + this.host.clientHeight >= this.host.scrollHeight - 2 * this.rowHeight;
  }

  // The first row that can be scrolled to: of a log that is too tall for a browser, the last rows are shown.
  get top() {
    return Math.max(0, (this.rows?.length || 0) - Math.floor(TALLEST / this.rowHeight));
  }

  place() {
    if (!this.shown) return;
    this.measure();
    this.host.style.setProperty("--picture-size", `${SIZES[this.size][1]}px`);
    this.drawSoon();
  }

  // The rows of a log: what printed and what is pointed at is not folded.
  /** @param {ShownLog} shown */
  rowsOf({ log, notes }) {
    const isKept = (/** @type {number} */ row) => {
      const id = log.id(row);
      return id === this.view.pointed || Boolean(notes(id)?.printed.length);
    };
    const isShown = this.channel ? worksOn(log, notes, this.channel) : null;
    return new Rows(log, { isFolded: this.isFolded, hidden: this.hidden, isKept, isShown });
  }

  // Lays out lanes and lines in the room that there is.
  measure() {
    if (!this.shown) return;
    this.renewRows(this.shown);
    const rows = /** @type {Rows} */ (this.rowsNow);
    this.version = this.shown.log.version;
    const { clientWidth } = this.host;
    const room = clientWidth > LEAST ? clientWidth : this.layout?.room || UNSEEN;
    this.isStacked = isStacked({ log: this.shown.log, hidden: rows.hidden }, room, this.letter);
    this.layout = layOut({ ...this.shown, rows }, { rowHeight: this.rowHeight, letter: this.letter, room, top: this.top });
    const height = this.layout.y(rows.length) + END + cycleHeight(this.layout, this.view.cycle);
    change(this.sheet, this.layout, height);
  }

  // Shows the edges and notes that were found since.
  /**
   * @param {ShownLog} shown
   * @param {Edge[]} edges
   */
  update(shown, edges) {
    this.shown = shown;
    this.edges = edges;
    if (this.layout && this.rowsNow) this.layout = { ...this.layout, ...shown };
    this.drawSoon();
  }

  /** @param {PointedView} view */
  mark(view) {
    const isTaller = view.cycle.length > this.view.cycle.length;
    const atEnd = isTaller && this.isAtEnd;
    const isOther = view.cycle.length !== this.view.cycle.length;
    this.view = view;
    if (isOther) this.measure();
    if (atEnd && !view.isKept) this.host.scrollTop = this.host.scrollHeight;
    this.drawSoon();
  }

  // Draws before the next frame, once.
  drawSoon() {
    cancelAnimationFrame(this.frame);
    this.frame = requestAnimationFrame(() => this.draw());
  }

  // The rows of the picture that are in view, and some around them.
  inView() {
    const from = this.rowAt(this.host.scrollTop) - AROUND;
    return [Math.max(this.top, from), this.rowAt(this.host.scrollTop + this.host.clientHeight) + AROUND];
  }

  // The steps of the log that are in view.
  /** @returns {[number, number]} */
  stepsInView() {
    if (!this.rows || !this.rows.length) return [0, 0];
    const [from, to] = this.inView().map((place) => Math.min(place, Number(this.rows?.length) - 1));
    return [this.rows.at(from), this.rows.at(to) + 1];
  }

  // Whatever the browser measures is read before anything is changed, so that it lays out the page once.
  draw() {
    if (!this.layout || !this.shown) return;
    if (this.version !== this.shown.log.version) this.measure();
    const { layout, sheet } = this;
    const [from, to] = this.inView();
    const edges = this.hasOrder ? this.edges : this.edges.filter(({ kind }) => kind !== "order");
    sheet.names.innerHTML = drawNames(layout);
    sheet.drawn.innerHTML = drawLanes(layout, edges, this.view, from, to);
    sheet.lines.innerHTML = drawLines(layout, this.view, from, to, { describe: this.describe }) + besideOf(this);
    const row = this.row(this.view.pointed);
    const isDrawn = row !== null && row >= from && row <= to;
    if (isDrawn) this.host.setAttribute("aria-activedescendant", `row-${this.shown?.log.row(this.view.pointed)}`);
    else this.host.removeAttribute("aria-activedescendant");
  }

  // The row of the picture of a step, or null.
  /** @param {string | null} id */
  row(id) {
    const row = this.shown?.log.row(id) ?? -1;
    return row < 0 || !this.rows?.has(row) ? null : this.rows.place(row);
  }

  /** @param {number} y */
  rowAt(y) {
    return this.top + Math.floor(y / this.rowHeight);
  }

  // The row under the pointer, or null.
  /** @param {MouseEvent} event */
  rowOf(event) {
    const row = this.rowAt(event.clientY - this.host.getBoundingClientRect().top - this.headHeight - 1 + this.host.scrollTop);
    return this.rows && row >= 0 && row < this.rows.length ? row : null;
  }

  /** @param {number} row */
  idAt(row) {
    return this.shown && this.rows && row < this.rows.length ? this.shown.log.id(this.rows.at(row)) : "";
  }

  // Brings a step into view: its row, and its lane.
  /** @param {string} id */
  reveal(id) {
    const row = this.row(id);
    if (row === null || !this.layout) return;
    const top = (row - this.top) * this.rowHeight;
    const room = this.host.clientHeight - this.headHeight;
    if (top < this.host.scrollTop) this.host.scrollTop = top - this.rowHeight;
    else if (top + this.rowHeight > this.host.scrollTop + room) this.host.scrollTop = top - room + 2 * this.rowHeight;
    const { lefts, lanesInView } = this.layout;
    const left = Number(lefts.get(id.slice(0, id.lastIndexOf("#"))));
    const { scrollLeft } = this.host;
    if (left < scrollLeft + 12 || left > scrollLeft + lanesInView - 12) this.host.scrollLeft = left - lanesInView / 2;
    this.draw();
  }

  // The next step upward or downward (`by` -1 or 1), or the nearest of the goroutine that is that many lanes away.
  /**
   * @param {string | null} id
   * @param {number} by
   */
  neighbour(id, by, lanes = 0) {
    const { rows, shown } = this;
    if (!rows?.length || !shown) return "";
    const row = this.row(id);
    if (row === null) return this.idAt(by > 0 ? this.top : rows.length - 1);
    if (!lanes) return this.idAt(Math.max(0, Math.min(rows.length - 1, row + by)));
    const names = this.layout?.names || [];
    const name = names[names.indexOf(String(id).slice(0, String(id).lastIndexOf("#"))) + lanes];
    const own = shown.log.byName.get(name)?.rows || [];
    const here = rows.at(row);
    const nearest = own.reduce((best, it) => (Math.abs(it - here) < Math.abs(best - here) ? it : best), own[0]);
    return nearest === undefined ? String(id) : shown.log.id(nearest);
  }
}
