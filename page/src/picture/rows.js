// Which steps of the log have a row of the picture: all, or those of the goroutines and the channel that are shown, with runs of own
// statements folded to one row.

import { word } from "../session/edges.js";

const FOLDED = new Set(["pure", "call", "return", "make"]);
const LEAST = 3; // steps that are worth a fold

export class Rows {
  /**
   * @param {import("../session/log.js").Log} log
   * @param {{isFolded?: boolean, hidden?: Set<string>, isKept?: (row: number) => boolean, isShown?: ((row: number) => boolean) | null}} how
   */
  constructor(log, { isFolded = false, hidden = new Set(), isKept = () => false, isShown = null } = {}) {
    this.log = log;
    this.hidden = new Set(hidden); // as it is now: these rows stay as they are where it changes
    this.isShown = isShown;
    /** @type {number[] | null} */
    this.starts = null; // of each row of the picture, the first step of the log in it
    /** @type {Map<number, number>} */
    this.counts = new Map(); // of each fold, how many steps it has
    if (isFolded || hidden.size || isShown) this.starts = this.chosen(isFolded, isKept);
  }

  /**
   * @param {boolean} isFolded
   * @param {(row: number) => boolean} isKept
   */
  chosen(isFolded, isKept) {
    const { log, isShown } = this;
    const starts = [];
    const isLeft = (/** @type {number} */ row) => this.hidden.has(log.columns[row].name) || Boolean(isShown && !isShown(row));
    const isOwn = (/** @type {number} */ row) => FOLDED.has(word(log.kinds[row])) && !isKept(row) && !isLeft(row);
    for (let row = 0; row < log.length; row++) {
      if (isLeft(row)) continue;
      let end = row + 1;
      while (isFolded && isOwn(row) && end < log.length && log.columns[end] === log.columns[row] && isOwn(end)) end++;
      starts.push(row);
      if (end - row < LEAST) continue;
      this.counts.set(starts.length - 1, end - row);
      row = end - 1;
    }
    return starts;
  }

  get length() {
    return this.starts ? this.starts.length : this.log.length;
  }

  // The step of the log at the beginning of a row of the picture.
  /** @param {number} place */
  at(place) {
    return this.starts ? this.starts[place] : place;
  }

  // How many steps a row stands for.
  /** @param {number} place */
  count(place) {
    return this.counts.get(place) || 1;
  }

  // The row of the picture for a step of the log: its own, or the one it is folded into.
  /** @param {number} row */
  place(row) {
    const { starts } = this;
    if (!starts) return row;
    let [low, high] = [0, starts.length];
    while (high - low > 1) {
      const middle = (low + high) >> 1;
      if (starts[middle] <= row) low = middle;
      else high = middle;
    }
    return low;
  }

  // Whether a step of the log is in the picture: in a row of its own, or in a fold.
  /** @param {number} row */
  has(row) {
    if (!this.starts) return row < this.log.length;
    const place = this.place(row);
    const start = this.starts[place];
    return start <= row && row < start + this.count(place);
  }
}
