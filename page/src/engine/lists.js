// Lists of steps, as `causes` and `deps` tell them: of each goroutine the first and the last step that is listed.
//
// A list may have a megabyte. It has every step of a goroutine between the first and the last, so it is read from both of its ends at
// once, until the steps between those that were met are as many as are listed.

const ZERO = "0".charCodeAt(0);
const HEAD = 40; // letters that hold the count of a list

class Spans {
  /**
   * @param {string} line
   * @param {number} count
   */
  constructor(line, count) {
    this.line = line;
    this.missing = count;
    /** @type {Map<string, number[]>} */
    this.found = new Map();
  }

  // Takes the step whose name begins at a place, and gives the place after it.
  /** @param {number} at */
  take(at) {
    const { line } = this;
    const sign = line.indexOf("#", at);
    let [number, end] = [0, sign + 1];
    for (let digit = line.charCodeAt(end) - ZERO; digit >= 0 && digit <= 9; digit = line.charCodeAt(++end) - ZERO) number = 10 * number + digit;
    this.widen(line.slice(at, sign), number);
    return end;
  }

  /**
   * @param {string} name
   * @param {number} number
   */
  widen(name, number) {
    const span = this.found.get(name);
    if (!span) this.found.set(name, [number, number]);
    this.missing -= !span ? 1 : Math.max(0, span[0] - number, number - span[1]);
    if (span) [span[0], span[1]] = [Math.min(span[0], number), Math.max(span[1], number)];
  }

  // Reads the names from this place on.
  /** @param {number} from */
  read(from) {
    const { line } = this;
    for (let end = line.length; this.missing > 0 && from < end; ) {
      const start = line.lastIndexOf(" ", end - 1) + 1;
      this.take(start);
      end = start - 1;
      if (this.missing > 0 && from < end) from = this.take(from) + 1;
    }
    return this.found;
  }
}

/**
 * @param {string} line
 * @returns {Listed}
 */
function listed(line) {
  const [status, number] = line.slice(0, HEAD).split(" ");
  if (status !== "ok") return { isOk: false, count: 0, spans: new Map(), last: line };
  return { isOk: true, count: Number(number), spans: new Spans(line, Number(number)).read(status.length + number.length + 2), last: "ok" };
}

// The lists in the lines of some replies.
/** @param {string} text */
export const listsIn = (text) => text.split("\n").filter((line) => line).map(listed);
