// A log as columns: the goroutine and the kind of each step. It is read from the bytes of a reply, since a text for each line of a long
// log would take several times the memory.

import { decoder } from "./protocol.js";

const [NEWLINE, BLANK, SIGN, BAR, OK] = [..."\n #|o"].map((letter) => letter.charCodeAt(0));
const HASHED = 31;

// The texts that stand in some bytes, each with a number.
class Texts {
  /** @param {Uint8Array} bytes */
  constructor(bytes) {
    this.bytes = bytes;
    /** @type {string[]} */
    this.texts = [];
    /** @type {Map<number, {start: number, end: number, number: number}[]>} */
    this.known = new Map(); // by the hash of a text, where such texts stood first
  }

  // The number of the text between two places.
  /**
   * @param {number} start
   * @param {number} end
   */
  number(start, end) {
    let hash = end - start;
    for (let at = start; at < end; at++) hash = (Math.imul(hash, HASHED) + this.bytes[at]) | 0;
    const alike = this.known.get(hash) || [];
    const same = alike.find((it) => this.isSame(it, start, end));
    return same ? same.number : this.add(hash, start, end);
  }

  /**
   * @param {{start: number, end: number}} first
   * @param {number} start
   * @param {number} end
   */
  isSame(first, start, end) {
    if (first.end - first.start !== end - start) return false;
    for (let at = 0; at < end - start; at++) if (this.bytes[first.start + at] !== this.bytes[start + at]) return false;
    return true;
  }

  /**
   * @param {number} hash
   * @param {number} start
   * @param {number} end
   */
  add(hash, start, end) {
    const number = this.texts.push(decoder.decode(this.bytes.subarray(start, end))) - 1;
    this.known.set(hash, [...(this.known.get(hash) || []), { start, end, number }]);
    return number;
  }
}

// The columns of the reply to `log`.
/**
 * @param {Uint8Array} bytes
 * @returns {LogColumns}
 */
export function columnsIn(bytes) {
  let lines = 0;
  for (let at = bytes.indexOf(NEWLINE); at >= 0; at = bytes.indexOf(NEWLINE, at + 1)) lines++;
  const count = Math.max(0, lines - 1); // the last line is no step
  const [of, kindOf] = [new Int32Array(count), new Int32Array(count)];
  const [names, kinds] = [new Texts(bytes), new Texts(bytes)];
  let at = 0;
  for (let row = 0; row < count && bytes[at] === BAR; row++) {
    const sign = bytes.indexOf(SIGN, at);
    const blank = bytes.indexOf(BLANK, sign);
    const end = bytes.indexOf(NEWLINE, blank);
    of[row] = names.number(at + "| ".length, sign);
    kindOf[row] = kinds.number(blank + 1, end);
    at = end + 1;
  }
  return { isOk: bytes[at] === OK, names: names.texts, kinds: kinds.texts, of, kindOf };
}
