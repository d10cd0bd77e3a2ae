// What would go if a step were taken back: lines of the console, values of variables, and what channels hold.

import { make } from "../element.js";
import { calledBy, holdersOf } from "./holders.js";
import { inRow, phrase } from "../phrases.js";
import { stateWord } from "./panes.js";

const SHOWN = 8; // changes of a kind; of more the first

/** @param {Scene} scene */
function valuesOf({ goroutines }) {
  /** @type {Map<string, string>} */
  const values = new Map();
  for (const { name, frames } of goroutines) {
    frames.forEach((frame, depth) => frame.variables.forEach((it) => values.set(`${name} ${frame.name}${frames.length > 1 ? `(${frames.length - depth})` : ""} ${it.name}`, it.value)));
  }
  return values;
}

/** @param {Channel} channel */
const channelText = ({ isClosed, items, senders, receivers }) =>
  inRow([isClosed ? phrase("closed") : phrase("open"), `${phrase("items")} ${items.join(" ") || phrase("none")}`, ...queue(phrase("senders"), senders), ...queue(phrase("receivers"), receivers)]);

/**
 * @param {string} title
 * @param {string[]} waiters
 */
const queue = (title, waiters) => (waiters.length ? [`${title} ${waiters.join(" ")}`] : []);

/**
 * @param {Map<string, string>} before
 * @param {Map<string, string>} after
 * @returns {{name: string, was: string, becomes: string}[]}
 */
function changesOf(before, after) {
  const changed = [...before].filter(([name, was]) => after.get(name) !== was);
  return changed.map(([name, was]) => ({ name, was, becomes: after.get(name) ?? phrase("gone") }));
}

// The differences of two scenes that a person cares about.
/**
 * @param {Scene} now
 * @param {Scene} then
 */
export function differences(now, then) {
  const lines = [...now.console.lines];
  for (const line of then.console.lines) lines.splice(Math.max(0, lines.indexOf(line)), lines.includes(line) ? 1 : 0);
  const places = (/** @type {Scene} */ { goroutines }) => new Map(goroutines.map(({ name, state, line }) => [name, line ? phrase("{state} at {place}", { state: stateWord(state), place: phrase("line {line}", { line: String(line) }) }) : stateWord(state)]));
  const holders = holdersOf([...now.goroutines, ...then.goroutines]);
  const channels = (/** @type {Scene} */ scene) => new Map(scene.channels.map((it) => [calledBy(holders, it.name), channelText(it)]));
  return {
    lines,
    places: changesOf(places(now), places(then)),
    variables: changesOf(valuesOf(now), valuesOf(then)),
    channels: changesOf(channels(now), channels(then)),
  };
}

/**
 * @param {string} title
 * @param {HTMLElement[]} rows
 */
function part(title, rows) {
  if (!rows.length) return [];
  const more = rows.length > SHOWN ? [make("li", { class: "none" }, phrase("and {count} more", { count: rows.length - SHOWN }))] : [];
  return [make("dt", {}, title), make("dd", {}, make("ul", {}, ...rows.slice(0, SHOWN), ...more))];
}

// The differences as a list.
/** @param {ReturnType<typeof differences>} differences */
export function previewList({ lines, places, variables, channels }) {
  const changed = (/** @type {{name: string, was: string, becomes: string}} */ { name, was, becomes }) =>
    make("li", {}, make("b", {}, name), " ", make("s", {}, was), ` → ${becomes}`);
  return make(
    "dl", { class: "preview-list" },
    ...part(phrase("Console"), lines.map((line) => make("li", {}, make("s", {}, line)))), ...part(phrase("Goroutines"), places.map(changed)),
    ...part(phrase("Variables"), variables.map(changed)), ...part(phrase("Channels"), channels.map(changed)),
  );
}
