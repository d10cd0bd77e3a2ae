// The value of a message, where the text of its send tells it: a number, a variable, or a sum or product of these.

// The values of variables by their names. Of several of one name it is not told which one a statement means, unless all are alike.
/** @param {Variable[]} variables */
function valuesOf(variables) {
  const values = new Map(variables.map(({ name, value }) => [name, value]));
  for (const { name, value } of variables) if (values.has(name) && values.get(name) !== value) values.delete(name);
  return values;
}

const PARTS = /\d+|[A-Za-z_]\w*|[-+*()]|\S/g;

// Reads sums and products of numbers and variables as the language computes them, in 64 bits. Nothing where there is anything else.
class Sum {
  /**
   * @param {string} text
   * @param {Variable[]} variables
   */
  constructor(text, variables) {
    this.parts = text.match(PARTS) || [];
    this.values = valuesOf(variables);
    this.at = 0;
  }

  /** @returns {bigint | null} */
  read() {
    const value = this.terms();
    return this.at === this.parts.length ? value : null;
  }

  /** @returns {bigint | null} */
  terms() {
    let sum = this.factors();
    while (sum !== null && (this.parts[this.at] === "+" || this.parts[this.at] === "-")) {
      const sign = this.parts[this.at++];
      const next = this.factors();
      sum = next === null ? null : BigInt.asIntN(64, sign === "+" ? sum + next : sum - next);
    }
    return sum;
  }

  /** @returns {bigint | null} */
  factors() {
    let product = this.factor();
    while (product !== null && this.parts[this.at] === "*") {
      this.at++;
      const next = this.factor();
      product = next === null ? null : BigInt.asIntN(64, product * next);
    }
    return product;
  }

  /** @returns {bigint | null} */
  factor() {
    const part = this.parts[this.at++] || "";
    if (part === "(") {
      const inner = this.terms();
      return this.parts[this.at++] === ")" ? inner : null;
    }
    if (part === "-") {
      const value = this.factor();
      return value === null ? null : -value;
    }
    const text = /^[1-9]\d*$|^0$/.test(part) ? part : this.values.get(part) || "";
    return /^-?\d+$/.test(text) ? BigInt(text) : null;
  }
}

// The value that a send gives, or "".
/**
 * @param {string} text
 * @param {Variable[]} variables
 */
export function sentValue(text, variables) {
  const sent = /^[A-Za-z_]\w*\s*<-(.*)$/s.exec(text)?.[1].trim() || "";
  if (sent === "true" || sent === "false") return sent;
  const named = valuesOf(variables).get(sent);
  if (named !== undefined) return named;
  return sent ? String(new Sum(sent, variables).read() ?? "") : "";
}

const CHANNEL = /^g0(\.\d+)*\/c\d+$/;

// The channels that a text names by variables.
/**
 * @param {string} text
 * @param {Variable[]} variables
 */
export function channelsIn(text, variables) {
  const named = new Set(text.match(/[A-Za-z_]\w*/g));
  return [...valuesOf(variables)].filter(([name, value]) => named.has(name) && CHANNEL.test(value)).map(([, value]) => value);
}
