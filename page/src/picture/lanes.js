// The graph at the left of the picture, as SVG text: a lane for each goroutine, a mark for each step, and an edge for each direct
// dependence between two goroutines.

import { classesOf, isWashed, sideOf } from "./picture.js";
import { edgePath } from "./curves.js";
import { escaped, shortened } from "./labels.js";
import { goroutineOf } from "../engine/protocol.js";
import { isWait, word } from "../session/edges.js";

/** @typedef {import("./layout.js").Place} Place */

// The names above the lanes, with the function that each goroutine runs. Of narrow lanes the names stand on two lines in turn.
/** @param {Place} place */
export function drawNames({ names, lefts, functions, head, headLetters, isStaggered }) {
  const [above, below] = [Math.round(head * 0.43), Math.round(head * 0.83)];
  const name = (/** @type {string} */ it, /** @type {number} */ at) => {
    const of = functions.get(it) || "";
    const first = `<text class="name${isStaggered ? " close" : ""}" x="${lefts.get(it)}" y="${isStaggered && at % 2 ? below : above}">${it}<title>${escaped(`${it} ${of}`.trim())}</title></text>`;
    return isStaggered ? first : `${first}<text class="of" x="${lefts.get(it)}" y="${below}">${escaped(shortened(of, headLetters))}</text>`;
  };
  return names.map(name).join("");
}

// The place of the last of these rows that is at most this one, or 0.
/**
 * @param {number[]} rows
 * @param {number} row
 */
function lastAtMost(rows, row) {
  let [low, high] = [0, rows.length];
  while (high - low > 1) {
    const middle = (low + high) >> 1;
    if (rows[middle] <= row) low = middle;
    else high = middle;
  }
  return low;
}

// The line of a goroutine's life between two rows of the picture: dotted while it waits.
/**
 * @param {Place} place
 * @param {string} name
 * @param {number} from
 * @param {number} to
 * @param {number} last the first step of the log that came later than the state that is looked at
 */
function drawLife(place, name, from, to, last) {
  const { log, rows } = place;
  const own = log.byName.get(name)?.rows || [];
  const x = place.lefts.get(name);
  const drawn = [];
  for (let at = lastAtMost(own, rows.at(from)); at < own.length && rows.place(own[at]) <= to; at++) {
    const waits = isWait(log.kinds[own[at]]);
    const start = rows.place(own[at]);
    const end = at + 1 < own.length ? rows.place(own[at + 1]) : waits ? rows.length - 0.5 : start;
    if (end < from) continue;
    const [top, bottom] = [place.y(Math.max(start, from - 1)), place.y(Math.min(end, to + 1))];
    const now = last < log.length ? Math.max(top, Math.min(bottom, place.y(rows.place(last) - 0.5))) : bottom;
    const line = (/** @type {number} */ y1, /** @type {number} */ y2, later = "") => `<line class="${waits ? "asleep" : "life"}${later}" x1="${x}" y1="${y1}" x2="${x}" y2="${y2}"/>`;
    if (now > top) drawn.push(line(top, now));
    if (bottom > now) drawn.push(line(now, bottom, " later"));
  }
  return drawn.join("");
}

// The marks near a height of the picture: those of the row there and of the two beside it.
/** @param {Place} place */
function marksNear(place) {
  const { rows, log, lefts } = place;
  return (/** @type {number} */ y) => {
    const row = Math.floor((y - place.y(0)) / place.rowHeight + 0.5);
    /** @type {[number, number][]} */
    const found = [];
    for (let at = Math.max(0, row - 1); at <= Math.min(rows.length - 1, row + 1); at++) {
      found.push([Number(lefts.get(log.columns[rows.at(at)].name)), place.y(at)]);
    }
    return found;
  };
}

/**
 * @param {Place} place
 * @param {Edge} edge
 * @param {PointedView} view
 * @param {(y: number) => [number, number][]} near
 */
function drawEdge(place, { from, to, kind }, view, near) {
  const [source, target] = [from, to].map((id) => place.log.row(id));
  /** @type {[number, number][]} */
  const ends = [from, to].map((id, at) => [Number(place.lefts.get(goroutineOf(id))), place.y(place.rows.place([source, target][at]))]);
  const sides = [source, target].map((row) => place.log.step(row)).map((step) => (step.id === view.pointed ? "pointed" : sideOf(step, view)));
  const side = !sides.every((it) => it) ? "" : sides[1] === "consequence" ? "consequence" : "cause";
  const light = view.pointed ? (side ? ` lit ${side}` : " dim") : "";
  const later = target >= view.last ? " later" : "";
  const path = edgePath(ends[0], ends[1], near, place.rowHeight, [EDGE_ROOM, place.lanes - EDGE_ROOM]);
  return `<path class="edge ${kind}${light}${later}" data-to="${to}" marker-end="url(#tip-${side || "plain"})" d="${path}"/>`;
}
const EDGE_ROOM = 3; // pixels that an edge keeps from the sides of the lanes

// The form of a mark says the kind of the step: a square waits, a diamond starts or makes, a disc does the rest.
/**
 * @param {string} kind
 * @param {number} x
 * @param {number} y
 */
function drawMark(kind, x, y) {
  const first = word(kind);
  if (isWait(kind)) return `<rect class="mark" x="${x - 5}" y="${y - 5}" width="10" height="10"/>`;
  if (first === "go" || first === "make") return `<path class="mark" d="M${x} ${y - 6}l6 6l-6 6l-6 -6z"/>`;
  if (first === "fault") return `<path class="mark" d="M${x - 5} ${y - 5}l10 10m0 -10l-10 10" stroke-width="3"/>`;
  if (first === "close") return `<path class="mark" d="M${x - 6} ${y - 4}h12v8h-12z"/>`;
  const radius = ["pure", "call", "return"].includes(first) ? 3.5 : 5.5;
  return `<circle class="mark" cx="${x}" cy="${y}" r="${radius}"/>`;
}

/**
 * @param {Place} place
 * @param {number} at
 * @param {PointedView} view
 */
function drawStep(place, at, view) {
  const step = place.log.step(place.rows.at(at));
  const [x, y] = [Number(place.lefts.get(step.goroutine)), place.y(at)];
  const group = `<g class="${classesOf(step, view, place.rows.count(at))}"`;
  const ring = view.forbids.includes(step.id) ? `<circle class="ring" cx="${x}" cy="${y}" r="10"/>` : "";
  const wash = `<rect class="wash" x="-4" y="${y - place.rowHeight / 2 + 1}" width="${place.lanes + 4000}" height="${place.rowHeight - 2}"/>`;
  return {
    under: isWashed(step, view, place.rows.count(at)) ? `${group}>${wash}</g>` : "",
    over: `${group} data-mark="${step.id}">${drawMark(step.kind, x, y)}${ring}</g>`,
  };
}

// The distance of the lines below a cycle.
/** @param {Place} place */
export const cycleLine = ({ rowHeight }) => Math.max(20, Math.round(0.7 * rowHeight));

/**
 * @param {Place} place
 * @param {string[]} cycle
 */
export const isCycleShown = (place, cycle) => cycle.length > 0 && cycle.every((name) => place.lefts.has(name));

// The cycle of a deadlock, below the last row: each of these waits for the next one.
/**
 * @param {Place} place
 * @param {string[]} cycle
 */
function drawCycle(place, cycle) {
  const y = place.y(place.rows.length - 1) + place.rowHeight;
  return cycle.map((name, at) => {
    const [from, to] = [name, cycle[(at + 1) % cycle.length]].map((it) => Number(place.lefts.get(it)));
    const deep = 16 + 24 * at;
    return `<path class="cycle" marker-end="url(#tip-cycle)" d="M${from} ${y - 4}C${from} ${y + deep} ${to} ${y + deep} ${to} ${y - 2}"/>`;
  }).join("");
}

/** @param {Place} place */
export const cycleHeight = (place, /** @type {string[]} */ cycle) => (cycle.length ? 50 + cycleLine(place) * cycle.length : 0);

// Whether both ends of an edge are in the picture, and it passes these rows.
/**
 * @param {Place} place
 * @param {Edge} edge
 * @param {number} from
 * @param {number} last
 */
function crosses(place, edge, from, last) {
  const [one, other] = [edge.from, edge.to].map((id) => place.log.row(id));
  if (one < 0 || other < 0 || !place.rows.has(one) || !place.rows.has(other)) return false;
  if (![edge.from, edge.to].every((id) => place.lefts.has(goroutineOf(id)))) return false;
  return place.rows.place(one) <= last && place.rows.place(other) >= from;
}

// The part of the graph between two rows of the picture.
/**
 * @param {Place} place
 * @param {Edge[]} edges
 * @param {PointedView} view
 * @param {number} from
 * @param {number} to
 */
export function drawLanes(place, edges, view, from, to) {
  const last = Math.min(to, place.rows.length - 1);
  const steps = [];
  for (let at = from; at <= last; at++) steps.push(drawStep(place, at, view));
  const near = marksNear(place);
  const arrows = edges.filter((edge) => crosses(place, edge, from, last)).map((edge) => drawEdge(place, edge, view, near));
  const lives = place.rows.length ? place.names.map((name) => drawLife(place, name, from, last, view.last)) : [];
  const cycle = isCycleShown(place, view.cycle) && last === place.rows.length - 1 ? drawCycle(place, view.cycle) : "";
  return `<g aria-hidden="true">${[...steps.map((it) => it.under), ...lives, ...arrows, cycle, ...steps.map((it) => it.over)].join("")}</g>`;
}
