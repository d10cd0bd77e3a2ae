// Exercises that check themselves: what is missing until the session as it stands is what the task asks for.


import { phrase, phraseKey } from "../phrases.js";

/**
 * @typedef {object} State
 * @property {import("../session/log.js").Log} log
 * @property {Scene} scene
 * @property {string[]} commands
 * @property {string[]} cycle
 * @property {string} pinned
 * @property {SearchedWhole | null} [searched] what a search of all schedules of this source came to
 */

const NAMED = 3; // goroutines and channels in a sentence
const [NONE_BAD, BAD] = [0, 4]; // what a search came to

/** @type {{[end: string]: string}} */
const NOT_THERE = {
  ended: phraseKey("the program has not come to its end"),
  deadlock: phraseKey("the program is not in a deadlock"),
  cycle: phraseKey("no goroutines wait for each other in a cycle"),
  fault: phraseKey("no panic has stopped the program"),
};

// What is missing of the end that is asked for, or "".
/**
 * @param {string} end
 * @param {State} state
 */
function missingEnd(end, { log, scene, cycle }) {
  const isStuck = log.length > 0 && !log.isOver && scene.isStuck;
  const ends = /** @type {{[end: string]: boolean}} */ ({
    ended: log.end?.kind === "exit",
    deadlock: isStuck,
    cycle: isStuck && cycle.length > 1,
    fault: Boolean(log.end?.kind.startsWith("fault")),
    ready: log.length > 0 && !log.isOver && !isStuck,
  });
  if (ends[end]) return "";
  if (end === "ready") return log.isOver ? phrase("the program has ended") : isStuck ? phrase("the program is stuck") : phrase("no step was taken");
  return NOT_THERE[end] ? phrase(NOT_THERE[end]) : phrase("it stands otherwise");
}

/**
 * @param {string} printed
 * @param {State} state
 */
function missingPrint(printed, { scene }) {
  const is = scene.console.lines.join("\n");
  if (is === printed) return "";
  const says = (/** @type {string} */ text) => (text ? `“${text.replaceAll("\n", " ")}”` : phrase("nothing"));
  return phrase("it has printed {is}, and should have printed {should}", { is: says(is), should: says(printed) });
}

// How goroutines and channels stand: what a goal of a state compares. How many steps led there does not matter.
/** @param {Scene} scene */
export const stateOf = ({ goroutines, channels }) => [
  ...goroutines.map(({ name, state, line, frames }) => [name, state, line ?? "", ...frames.map((frame) => `${frame.name}(${frame.variables.map((it) => `${it.name}=${it.value}`).join(" ")})`)].join(" ")),
  ...channels.map(({ name, capacity, isClosed, items, senders, receivers }) => [name, capacity, isClosed ? "closed" : "open", ...[items, senders, receivers].map((it) => `[${it.join(" ")}]`)].join(" ")),
];

// Names what stands otherwise, and not how.
/**
 * @param {string[]} wanted
 * @param {State} state
 */
function missingState(wanted, { scene }) {
  const [is, should] = [stateOf(scene), wanted].map((rows) => new Map(rows.map((row) => [row.split(" ")[0], row])));
  const other = [...new Set([...should.keys(), ...is.keys()])].filter((name) => is.get(name) !== should.get(name));
  if (!other.length) return "";
  const named = other.slice(0, NAMED).join(", ");
  const names = other.length > NAMED ? phrase("{names} and {count} more", { names: named, count: other.length - NAMED }) : named;
  return phrase("{names} is not as it is asked | {names} are not as it is asked", { names, count: other.length });
}

/** @param {State} state */
function missingSearch({ searched }) {
  if (!searched) return phrase("all schedules are not searched: press Search all schedules");
  if (searched.status === NONE_BAD) return "";
  return searched.status === BAD ? phrase("a schedule of this program ends badly") : phrase("the search of all schedules came to no answer");
}

/**
 * @param {Goal} goal
 * @param {State} state
 */
function missingCommands({ only, most }, { commands }) {
  if (only !== undefined && !commands.length) return phrase("no command was given");
  if (only !== undefined && !commands.every((line) => new RegExp(only).test(line))) return only.includes("run") ? phrase("it is to be done by steps and runs alone: press Restart") : phrase("it is to be done by steps alone: press Restart");
  if (most === undefined || commands.length <= most) return "";
  return phrase("{given} commands were given, and {count} is enough: undo, or choose the exercise anew | {given} commands were given, and {count} are enough: undo, or choose the exercise anew", { given: commands.length, count: most });
}

// What is missing, in words, which do not tell the solution; "" where the goal is reached. `commands` are those of the user since the
// exercise was begun.
/**
 * @param {Goal} goal
 * @param {State} state
 */
export function missing(goal, state) {
  const isThere = (/** @type {string} */ id) => state.log.row(id) >= 0;
  const { end, printed, kept = [], without = [], chosen, state: wanted, safe } = goal;
  const found = [
    chosen === undefined || state.pinned === chosen ? "" : state.pinned ? phrase("the chosen step is another one") : phrase("no step is chosen"),
    kept.every(isThere) ? "" : phrase("a step is not there that is to stay, or to come"),
    without.some(isThere) ? phrase("a step is still there that has to go") : "",
    printed === undefined ? "" : missingPrint(printed, state),
    end === undefined ? "" : missingEnd(end, state),
    wanted === undefined ? "" : missingState(wanted, state),
    safe ? missingSearch(state) : "",
    missingCommands(goal, state),
  ];
  const [first = "", second] = found.filter((it) => it);
  return second ? phrase("{left}, and {right}", { left: first, right: second }) : first;
}

// Whether a goal is reached.
/**
 * @param {Goal} goal
 * @param {State} state
 */
export const isReached = (goal, state) => missing(goal, state) === "";
