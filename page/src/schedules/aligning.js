// Two schedules beside each other: steps that both have, with the same causes, stand on one line, and between these each has its own.

/** @typedef {{id: string, kind: string, clock: string}} Known a step, and how many steps of each goroutine it depends on */
/**
 * @typedef {object} Aligned
 * @property {number[]} left the line of each step of the first schedule
 * @property {number[]} right the line of each step of the second
 * @property {number} shared how many steps stand on one line
 * @property {number} parting the first line with a step that only one of them has, or -1
 */

/** @param {Known} step */
const keyOf = ({ id, kind, clock }) => `${id} ${kind} ${clock}`;

// The pairs of places of steps that both have, as many as can stand in the order of both.
/**
 * @param {Known[]} one
 * @param {Known[]} other
 * @returns {[number, number][]}
 */
export function pairsOf(one, other) {
  const places = new Map(other.map((step, at) => [keyOf(step), at]));
  const met = /** @type {[number, number][]} */ (one.flatMap((step, at) => (places.has(keyOf(step)) ? [[at, Number(places.get(keyOf(step)))]] : [])));
  /** @type {{pair: [number, number], before: number}[]} */
  const chain = [];
  /** @type {number[]} */
  const ends = []; // of the rising lists of each length, the one whose last place is the least
  for (const pair of met) {
    const at = ends.findIndex((end) => chain[end].pair[1] >= pair[1]);
    const length = at < 0 ? ends.length : at;
    ends[length] = chain.push({ pair, before: length ? ends[length - 1] : -1 }) - 1;
  }
  const pairs = [];
  for (let at = ends.length ? ends[ends.length - 1] : -1; at >= 0; at = chain[at].before) pairs.unshift(chain[at].pair);
  return pairs;
}

/**
 * @param {Known[]} one
 * @param {Known[]} other
 * @returns {Aligned}
 */
export function aligned(one, other) {
  const pairs = pairsOf(one, other);
  /** @type {Aligned} */
  const made = { left: [], right: [], shared: pairs.length, parting: -1 };
  let line = 0;
  for (const [left, right] of [...pairs, [one.length, other.length]]) {
    const [ours, theirs] = [left - made.left.length, right - made.right.length];
    if (made.parting < 0 && (ours || theirs)) made.parting = line;
    for (let at = 0; at < ours; at++) made.left.push(line + at);
    for (let at = 0; at < theirs; at++) made.right.push(line + at);
    line += Math.max(ours, theirs);
    if (left < one.length) made.left.push(line), made.right.push(line++);
  }
  return made;
}
