// The paths of edges: straight where nothing is in the way, else bent so that none passes through the mark of a third goroutine.

const CLEAR = 8; // distance that an edge keeps from the marks of others
const BENDS = [0, 8, -8, 14, -14, 20, -20, 28, -28, 44, -44, 64, -64, 90, -90];
const BESIDE = 13; // from a lane to an edge that goes along it

/** @typedef {[number, number]} Point */

/**
 * @param {Point} from
 * @param {Point} to
 * @param {number} at
 * @returns {Point}
 */
const between = (from, to, at) => [from[0] + (to[0] - from[0]) * at, from[1] + (to[1] - from[1]) * at];

// A point of a quadratic curve.
/**
 * @param {Point[]} curve
 * @param {number} at
 */
const onCurve = ([from, middle, to], at) => between(between(from, middle, at), between(middle, to, at), at);

// The middle of a curve that leaves the straight line by this much.
/**
 * @param {Point} from
 * @param {Point} to
 * @param {number} bend
 * @returns {Point}
 */
function bent(from, to, bend) {
  const length = Math.hypot(to[0] - from[0], to[1] - from[1]) || 1;
  const [x, y] = between(from, to, 0.5);
  return [x - ((to[1] - from[1]) / length) * bend * 2, y + ((to[0] - from[0]) / length) * bend * 2];
}

// Whether a curve keeps clear of marks, and between two sides; `markNear(y)` gives the marks of the rows around a height.
/**
 * @param {Point[]} curve
 * @param {(y: number) => Point[]} markNear
 * @param {[number, number]} sides
 */
function isClear(curve, markNear, [left, right]) {
  const [from, , to] = curve;
  const count = Math.min(400, Math.max(24, Math.ceil(Math.abs(to[1] - from[1]) / 6)));
  for (let at = 1; at < count; at++) {
    const [x, y] = onCurve(curve, at / count);
    const isNear = (/** @type {Point} */ [beside, top]) =>
      Math.hypot(beside - x, top - y) < CLEAR && !(beside === from[0] && top === from[1]) && !(beside === to[0] && top === to[1]);
    if (x < left || x > right || markNear(y).some(isNear)) return false;
  }
  return true;
}

// The point at a distance from an end of a curve, so that an edge begins and ends beside its marks.
/**
 * @param {Point} end
 * @param {Point} towards
 * @param {number} distance
 * @returns {Point}
 */
function cut(end, towards, distance) {
  const length = Math.hypot(towards[0] - end[0], towards[1] - end[1]) || 1;
  return between(end, towards, Math.min(0.45, distance / length));
}

const shown = (/** @type {Point[]} */ ...points) => points.map((point) => point.map((it) => it.toFixed(1)).join(" "));

// The way across at the border of two rows, where no mark stands, and then along the column of the target.
/**
 * @param {Point} from
 * @param {Point} to
 * @param {number} rowHeight
 */
function around(from, to, rowHeight) {
  const side = to[0] > from[0] ? -1 : 1;
  const border = from[1] + (Math.sign(to[1] - from[1]) || 1) * (rowHeight / 2);
  const along = to[0] + side * BESIDE;
  const start = cut(from, [from[0], border], 6);
  const points = shown(start, [from[0], border], [along, border], [along, to[1] - 8], cut(to, [along, to[1] - 8], 7));
  return `M${points[0]}Q${points[1]} ${shown([from[0] - side * 12, border])}L${points[2]}L${points[3]}L${points[4]}`;
}

// The path of an edge between two marks, which stays between two sides.
/**
 * @param {Point} from
 * @param {Point} to
 * @param {(y: number) => Point[]} markNear
 * @param {number} rowHeight
 * @param {[number, number]} [sides]
 */
export function edgePath(from, to, markNear, rowHeight, sides = [-Infinity, Infinity]) {
  const bend = BENDS.find((it) => isClear([from, bent(from, to, it), to], markNear, sides));
  if (bend === undefined) return around(from, to, rowHeight);
  const middle = bent(from, to, bend);
  const [start, control, end] = shown(cut(from, middle, 6), middle, cut(to, middle, 7));
  return bend ? `M${start}Q${control} ${end}` : `M${start}L${end}`;
}
