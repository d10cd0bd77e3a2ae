// The panes: goroutines with their frames and buttons, channels with their queues, and the console. Each variable, item, waiter and
// line is a button that finds the step behind it.

import { button, make } from "../element.js";
import { calledBy, holdersOf } from "./holders.js";
import { parseWaiter } from "../engine/protocol.js";
import { wishesText } from "../waiting/sentences.js";
import { NIL, Wishes } from "../waiting/waits.js";
import { inSteps, phrase, phraseKey } from "../phrases.js";

const FRAMES = 8; // of more frames the innermost are shown until the others are unfolded
const MANY = 8; // cards: above more of them stand the channels
const HOLDERS = 4; // variables that are named beside a channel
const STATES = /** @type {{[state: string]: string}} */ ({ ready: phraseKey("ready"), waiting: phraseKey("waiting"), done: phraseKey("done"), stopped: phraseKey("stopped") });
const [OPEN, CLOSED] = [phraseKey("open, room for {count}"), phraseKey("closed, room for {count}")];
const LINES = 1000; // of more lines of the console the last are shown

/**
 * @typedef {object} PaneEvents
 * @property {(name: string, clause?: number) => void} step
 * @property {(name: string) => void} choose
 * @property {(what: {go?: string, variable?: [string, string], item?: [string, number], waiter?: string, line?: number}) => void} findStep
 */

const UNSHOWN = phraseKey("This state cannot be shown."); // why, says the status

// What stands in an empty pane.
/**
 * @param {Scene} scene
 * @param {string} text
 */
const none = ({ missing }, text) => make("p", { class: "none" }, missing ? phrase(UNSHOWN) : text);

/**
 * @param {string} title
 * @param {string} text
 * @param {() => void} onclick
 */
const asked = (title, text, onclick) => button({ class: "asked-value", title, onclick }, text);

// A value; a channel by the variable that holds it, unless it is this one.
/**
 * @param {Variable} variable
 * @param {Map<string, Set<string>>} holders
 */
function valueText({ name, value }, holders) {
  const called = value.includes("/c") ? calledBy(holders, value) : value;
  return called.startsWith(`${name} (`) ? value : called;
}

/**
 * @param {Goroutine} goroutine
 * @param {Frame} frame
 * @param {PaneEvents} on
 * @param {Map<string, Set<string>>} holders
 */
function frameRows({ name: goroutine }, { name, variables }, on, holders) {
  const value = (/** @type {Variable} */ it) => {
    const title = phrase("Find the step that gave {variable} its value", { variable: it.name });
    return make("dd", {}, asked(title, `${it.name} = ${valueText(it, holders)}`, () => on.findStep({ variable: [goroutine, it.name] })));
  };
  return [make("dt", {}, name), ...(variables.length ? variables.map(value) : [make("dd", { class: "none" }, phrase("no variables"))])];
}

/**
 * @param {Goroutine} goroutine
 * @param {PaneEvents} on
 * @param {Map<string, Set<string>>} holders
 */
function framesOf(goroutine, on, holders) {
  const { frames } = goroutine;
  if (!frames.length) return [];
  const list = make("dl", {}, ...frames.slice(0, FRAMES).flatMap((it) => frameRows(goroutine, it, on, holders)));
  const rest = frames.slice(FRAMES);
  if (!rest.length) return [list];
  const more = make("details", {}, make("summary", {}, phrase("{count} frame more | {count} frames more", { count: rest.length })));
  more.addEventListener("toggle", () => more.childElementCount === 1 && more.append(make("dl", {}, ...rest.flatMap((it) => frameRows(goroutine, it, on, holders)))));
  return [list, more];
}

// The state of a goroutine as a word.
/** @param {string} state */
export const stateWord = (state) => phrase(STATES[state] || state);

// Where a goroutine stands, in words; after the end of the program nobody is ready.
/**
 * @param {Goroutine} goroutine
 * @param {boolean} isOver
 * @param {import("../waiting/flows.js").Program | null} program
 */
function stateText({ state, steps, line }, isOver, program) {
  const word = stateWord(isOver && state === "ready" ? "stopped" : state);
  const place = program && line ? program.where(line) : phrase("line {line}", { line: String(line) });
  return line ? phrase("{state} at {place}, {steps}", { state: word, place, steps: inSteps(steps) }) : phrase("{state}, {steps}", { state: word, steps: inSteps(steps) });
}

// The buttons of a goroutine that is ready: one step, or one for each clause of a select that can be taken.
/**
 * @param {Goroutine} goroutine
 * @param {Clause[]} clauses
 * @param {PaneEvents} on
 */
function stepButtons({ name }, clauses, on) {
  const step = button({ onclick: () => on.step(name), "aria-label": phrase("Step {goroutine}", { goroutine: name }) }, phrase("Step"));
  const picks = clauses.map(({ number, text }) =>
    button({ onclick: () => on.step(name, number), "aria-label": phrase("Case {number}: {statement}, of {goroutine}", { number, statement: text, goroutine: name }) }, `${number}: `, make("code", {}, text)),
  );
  return make("div", { class: "buttons" }, step, ...picks);
}

/**
 * @param {Goroutine} goroutine
 * @param {{clauses: Clause[], isChosen: boolean, isOver: boolean, canStep: boolean, wait: string, holders: Map<string, Set<string>>, program: import("../waiting/flows.js").Program | null}} how
 * @param {PaneEvents} on
 */
function goroutineCard(goroutine, { clauses, isChosen, isOver, canStep, wait, holders, program }, on) {
  const { name, state } = goroutine;
  const choose = button({ "aria-pressed": String(isChosen), onclick: () => on.choose(name) }, name);
  const shown = make("span", { class: state === "waiting" ? "state waiting" : "state" }, stateText(goroutine, isOver, program));
  const start = name === "g0" ? [] : [asked(phrase("Find the step that started {goroutine}", { goroutine: name }), phrase("started by {goroutine}", { goroutine: name.slice(0, name.lastIndexOf(".")) }), () => on.findStep({ go: name }))];
  const card = make("div", { class: isChosen ? "card chosen" : "card", "data-goroutine": name }, make("div", { class: "top" }, choose, shown, ...start));
  if (wait) card.append(make("p", { class: "wait-text" }, wait));
  card.append(...framesOf(goroutine, on, holders));
  if (state === "ready" && canStep) card.append(stepButtons(goroutine, clauses, on));
  return card;
}

// What a goroutine waits for, by its own names for the channels.
/** @param {{wishes: import("../waiting/waits.js").Wish[]}} wait */
function waitText({ wishes }) {
  if (!wishes.length) return phrase("waits for ever: its select has no cases");
  const fields = { wishes: wishesText({ wishes }) };
  return wishes[0].channel === NIL ? phrase("waits to {wishes}: a nil channel blocks for ever", fields) : phrase("waits to {wishes}", fields);
}

// The card of a goroutine, but for those that are done: these stand in one line.
/**
 * @param {HTMLElement} host
 * @param {Scene} scene
 * @param {{chosen: string, isOver: boolean, canStep: boolean, program: import("../waiting/flows.js").Program | null}} how
 * @param {PaneEvents} on
 */
export function showGoroutines(host, scene, { chosen, isOver, canStep, program }, on) {
  const focused = /** @type {HTMLElement | null} */ (host.contains(document.activeElement) ? document.activeElement : null);
  const label = focused && (focused.getAttribute("aria-label") || focused.textContent);
  const waits = new Map(program ? new Wishes(program, scene.goroutines, scene.channels).shown(scene.hidden > 0).map((it) => [it.goroutine, waitText(it)]) : []);
  const done = scene.goroutines.filter(({ name, state }) => state === "done" && name !== chosen);
  const cards = scene.goroutines.filter((it) => !done.includes(it));
  const holders = holdersOf(scene.goroutines);
  const how = (/** @type {string} */ name) => ({ holders, program, clauses: scene.clauses.get(name) || [], isChosen: name === chosen, isOver, canStep, wait: waits.get(name) || "" });
  host.replaceChildren(...cards.map((it) => goroutineCard(it, how(it.name), on)));
  if (done.length) host.append(make("p", { class: "done" }, phrase("done:"), " ", ...done.map(({ name, steps }) => button({ "data-goroutine": name, onclick: () => on.choose(name) }, phrase("{goroutine}, {steps}", { goroutine: name, steps: inSteps(steps) })))));
  document.body.classList.toggle("many-cards", cards.length > MANY);
  if (!scene.goroutines.length) host.append(none(scene, phrase("There is no session.")));
  if (scene.hidden) host.append(make("p", { class: "none" }, phrase("{count} goroutines and channels more: ask for them by name.", { count: scene.hidden })));
  if (!label) return;
  const same = [...host.querySelectorAll("button")].find((it) => (it.getAttribute("aria-label") || it.textContent) === label);
  /** @type {HTMLElement | null} */ (same || host.querySelector(".chosen button"))?.focus();
}

/**
 * @param {string} title
 * @param {HTMLElement[]} values
 */
function listed(title, values) {
  return make("div", {}, make("dt", {}, title), make("dd", { class: values.length ? "" : "none" }, ...(values.length ? values : [phrase("none")])));
}

/**
 * @param {Channel} channel
 * @param {string[]} holders
 * @param {PaneEvents} on
 */
function channelCard({ name, capacity, isClosed, items, senders, receivers }, holders, on) {
  const core = holders.length ? [make("span", { class: "core", title: phrase("its name in commands") }, `(${name})`)] : [];
  const others = holders.length > 1 ? [make("span", { class: "state", title: phrase("other variables that hold it") }, phrase("also {variables}", { variables: holders.slice(1, HOLDERS).join(", ") }))] : [];
  const state = make("span", { class: "state" }, phrase(isClosed ? CLOSED : OPEN, { count: capacity }));
  const top = make("div", { class: "top" }, make("strong", {}, holders[0] || name), ...core, ...others, state);
  const sending = senders.filter((it) => !parseWaiter(it).clause).length; // their sends come after those of the items
  const item = (/** @type {string} */ it, /** @type {number} */ at) => asked(phrase("Find the step that sent it"), it, () => on.findStep({ item: [name, items.length - at + sending] }));
  const waiter = (/** @type {string} */ it) => asked(phrase("Find the step in which it began to wait"), it, () => on.findStep({ waiter: parseWaiter(it).goroutine }));
  const rows = [listed(phrase("items"), items.slice(0, 60).map(item)), listed(phrase("senders"), senders.map(waiter)), listed(phrase("receivers"), receivers.map(waiter))];
  return make("div", { class: "card", "data-channel": name }, top, make("dl", { class: "queues" }, ...rows));
}

/**
 * @param {HTMLElement} host
 * @param {Scene} scene
 * @param {PaneEvents} on
 */
export function showChannels(host, scene, on) {
  const holders = holdersOf(scene.goroutines);
  host.replaceChildren(...scene.channels.map((it) => channelCard(it, [...(holders.get(it.name) || [])], on)));
  if (!scene.channels.length) host.append(none(scene, phrase("No channel was made yet.")));
}

/**
 * @param {HTMLElement} host
 * @param {Scene} scene
 * @param {PaneEvents} on
 */
export function showConsole(host, { console: { isOk, count, lines }, missing }, on) {
  const shown = lines.slice(-LINES);
  const before = count - shown.length;
  const line = (/** @type {string} */ text, /** @type {number} */ at) =>
    make("li", {}, asked(phrase("Find the step that printed it"), text || " ", () => on.findStep({ line: before + at })));
  host.replaceChildren(...(before ? [make("li", { class: "none" }, phrase("{count} line before | {count} lines before", { count: before }))] : []), ...shown.map(line));
  const empty = isOk ? phrase("Nothing was printed yet.") : phrase("More was printed than there is memory to show. Take steps back to see it.");
  if (!count) host.append(make("li", { class: "none" }, missing ? phrase(UNSHOWN) : empty));
  host.scrollTop = host.scrollHeight;
}
