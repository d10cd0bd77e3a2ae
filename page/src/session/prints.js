// How much was printed at most. An answer to a client takes several times the memory of its text, and a session that has no memory for an
// answer ends. So what is printed is asked for only where it is known to be short.

const MOST = 1 << 26; // bytes of printed lines in an answer
const VALUE = 64; // letters of a value at most
const PRINT = /\bprintln\b/;

// The letters of the longest line that a statement may print, or 0 where none prints.
/** @param {Statement[]} statements */
function longestLine(statements) {
  const prints = statements.filter(({ text }) => PRINT.test(text));
  return prints.reduce((most, { text }) => Math.max(most, text.length + VALUE * text.split(",").length), 0);
}

export class Prints {
  /**
   * @param {import("./statements.js").Statements} statements
   * @param {import("./log.js").Log} log
   */
  constructor(statements, log) {
    this.longest = longestLine(statements.all);
    this.known = { row: 0, count: 0 }; // how many lines the first steps have printed
    log.watch((row) => row < this.known.row && (this.known = { row: 0, count: 0 }));
  }

  // Whether the program prints anything.
  get isAny() {
    return this.longest > 0;
  }

  // So many lines are printed in the first rows.
  /**
   * @param {number} row
   * @param {number} count
   */
  told(row, count) {
    this.known = { row, count };
  }

  // Whether all that the first rows print can be told in an answer. A step prints a line at most.
  /** @param {number} row */
  areFew(row) {
    const { known } = this;
    return (row <= known.row ? known.count : known.count + row - known.row) * this.longest <= MOST;
  }
}
