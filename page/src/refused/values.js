// Types and values in a source that was refused, as far as an explanation needs them. A type is its text in Go, such as `chan int`,
// or "" where it is not known.

export const TYPES = new Set(["int", "bool"]);
export const PREDECLARED = new Set("int bool true false nil len cap make close println".split(" "));
const [LEAST, GREATEST] = [-(2n ** 63n), 2n ** 63n - 1n];
const PREFIXES = Object.entries({ "chan ": "both", "<-chan ": "receive", "chan<- ": "send" });
const COMPARISONS = new Set(["==", "!="]);
const ORDERINGS = new Set(["<", "<=", ">", ">="]);
const LOGICAL = new Set(["&&", "||"]);
export const SHIFTS = new Set(["<<", ">>"]);
const LEVELS = [["||"], ["&&"], ["==", "!=", "<", "<=", ">", ">="], ["+", "-", "|", "^"], ["*", "/", "%", "<<", ">>", "&", "&^"]];
const FARTHEST = 200n; // bits of a shift: of more, the number is as far outside of `int`

// How strongly an operator binds, or 0 where it is none.
/** @param {string} operator */
export const levelOf = (operator) => LEVELS.findIndex((some) => some.includes(operator)) + 1;

/**
 * @param {string} kind value, constant, nil, text, nothing (a call without a result) or unknown
 * @param {string} own its type
 * @param {number} first the number of its first token
 * @param {number} last
 * @param {GoConstant} constant
 * @returns {GoValue}
 */
export const goValue = (kind, own, first, last, constant = null) => ({ kind, own, first, last, constant });

/** @param {string} own */
export const isChannel = (own) => PREFIXES.some(([prefix]) => own.startsWith(prefix));

// The direction of a type of channels: both, receive or send.
/** @param {string} own */
export const directionOf = (own) => PREFIXES.find(([prefix]) => own.startsWith(prefix))?.[1] || "";

// The type of what a channel carries.
/** @param {string} own */
export function elementOf(own) {
  const prefix = PREFIXES.find(([it]) => own.startsWith(it))?.[0];
  const inner = prefix ? own.slice(prefix.length) : "";
  return inner.startsWith("(") ? inner.slice(1, -1) : inner;
}

// The type of channels with this prefix and element.
/**
 * @param {string} prefix
 * @param {string} element
 */
export const channelOf = (prefix, element) => (element.startsWith("<-") ? `${prefix} (${element})` : element && `${prefix} ${element}`);

// Whether a value of one type may stand where another is wanted.
/**
 * @param {string} own
 * @param {string} wanted
 */
export const isAssignable = (own, wanted) =>
  own === wanted || (directionOf(own) === "both" && isChannel(wanted) && elementOf(own) === elementOf(wanted));

// Whether a value fits where a type is wanted; true where too little is known.
/**
 * @param {GoValue} value
 * @param {string} wanted
 */
export function mayBe({ kind, own }, wanted) {
  if (kind === "nil") return !wanted || isChannel(wanted);
  return kind === "unknown" || !own || !wanted || isAssignable(own, wanted);
}

// Whether a constant fits `int`.
/** @param {GoConstant} constant */
export const fits = (constant) => typeof constant !== "bigint" || (LEAST <= constant && constant <= GREATEST);

// The number that a literal means.
/** @param {string} text */
export function numberOfLiteral(text) {
  const digits = text.replaceAll("_", "").toLowerCase();
  if (/^0\d+$/.test(digits)) return /[89]/.test(digits) ? 0n : BigInt(`0o${digits.slice(1)}`);
  try {
    return BigInt(digits);
  } catch {
    return 0n;
  }
}

// The constant that an operator makes of two numbers, or nothing where it makes none.
/**
 * @param {string} operator
 * @param {bigint} left
 * @param {bigint} right
 * @returns {GoConstant}
 */
function ofNumbers(operator, left, right) {
  if (operator === "/" || operator === "%") return right === 0n ? null : operator === "/" ? left / right : left % right;
  const bits = right < FARTHEST ? right : FARTHEST;
  if (SHIFTS.has(operator)) return right < 0n ? null : operator === ">>" ? left >> bits : left << bits;
  /** @type {{[operator: string]: GoConstant}} */
  const made = {
    "+": left + right, "-": left - right, "*": left * right, "&": left & right, "|": left | right, "^": left ^ right, "&^": left & ~right,
    "==": left === right, "!=": left !== right, "<": left < right, "<=": left <= right, ">": left > right, ">=": left >= right,
  };
  return made[operator] ?? null;
}

// The constant that an operator makes of two, or nothing where it makes none.
/**
 * @param {string} operator
 * @param {GoConstant} left
 * @param {GoConstant} right
 * @returns {GoConstant}
 */
export function joinedConstants(operator, left, right) {
  if (typeof left === "bigint" && typeof right === "bigint") return ofNumbers(operator, left, right);
  if (typeof left !== "boolean" || typeof right !== "boolean") return null;
  /** @type {{[operator: string]: boolean}} */
  const made = { "&&": left && right, "||": left || right, "==": left === right, "!=": left !== right };
  return made[operator] ?? null;
}

// The constant that an operator before a constant gives.
/**
 * @param {string} operator
 * @param {GoConstant} constant
 * @returns {GoConstant}
 */
export function negated(operator, constant) {
  if (typeof constant === "boolean") return operator === "!" ? !constant : null;
  if (constant === null || operator === "!") return null;
  return operator === "-" ? -constant : operator === "^" ? ~constant : constant;
}

// The type of what an operator between two values gives.
/** @param {string} operator */
export const resultOf = (operator) => (COMPARISONS.has(operator) || ORDERINGS.has(operator) || LOGICAL.has(operator) ? "bool" : "int");

// The type that both sides of an operator must have; "" where any type will do.
/** @param {string} operator */
export const wantedBy = (operator) => (COMPARISONS.has(operator) ? "" : LOGICAL.has(operator) ? "bool" : "int");
