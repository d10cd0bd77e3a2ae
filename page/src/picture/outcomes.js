// What a line of the picture says of a step: its number, its statement, and what came of it.

import { lettersOf as widthOf, printedText, shortened } from "./labels.js";
import { isWait, word } from "../session/edges.js";
import { phrase } from "../phrases.js";

const GIVEN = 2; // variables that a line names
const VALUE = 24; // letters
const CORE_NAME = / \(g[\d.]+\/c\d+\)/g; // behind the variable of a channel

/** @typedef {import("./layout.js").Place} Place */
/** @typedef {{name: string, text: string}} Part */

// The variables that have another value behind a step, in the same frame.
/**
 * @param {Note} note
 * @param {Place} place
 */
function given({ before, after }, place) {
  if (!before || !after || after.depth !== before.depth) return "";
  const changed = after.variables.filter(({ name, value }, at) => before.variables[at]?.name !== name || before.variables[at].value !== value);
  const shown = changed.slice(0, GIVEN).map(({ name, value }) => `${name} = ${shortened(valueText(name, value, place), VALUE)}`);
  return shown.join(", ") + (changed.length > GIVEN ? ", …" : "");
}

// A channel by the variable that holds it, unless it is this one.
/**
 * @param {string} name
 * @param {string} value
 * @param {Place} place
 */
function valueText(name, value, place) {
  const called = value.includes("/c") ? place.called(value) : value;
  return called.startsWith(`${name} (`) ? value : called;
}

/**
 * @param {string} text
 * @param {string} [name]
 */
const plain = (text, name = "muted") => (text ? [{ name, text }] : []);

// What was received, by which part of the statement, and over which channel.
/**
 * @param {Note} note
 * @param {string} called
 */
const received = (note, called) => [
  { name: "received", text: `${note.part ? `${note.part} ` : ""}← ${shortened(note.received, VALUE)}` },
  ...plain(called && phrase("from {channel}", { channel: called })),
];

/**
 * @param {Note} note
 * @param {string} called
 */
const sent = (note, called) => plain(`→ ${note.over.sent ? `${shortened(note.over.sent, VALUE)} ` : ""}${called ? phrase("to {channel}", { channel: called }) : ""}`.trim());

/**
 * @param {string} kind
 * @param {string} channel
 */
function waitText(kind, channel) {
  if (kind === "recv-wait") return channel ? phrase("waits for {channel}", { channel }) : phrase("waits for a message");
  if (kind === "send-wait") return channel ? phrase("waits to send to {channel}", { channel }) : phrase("waits to send");
  return phrase("waits for a case");
}

/** @param {string} channel */
const fromText = (channel) => channel && `← ${phrase("from {channel}", { channel })}`;

/**
 * @param {string} kind
 * @param {Note} note
 * @param {string} called
 */
function waiting(kind, note, called) {
  if (note.received) return received(note, called);
  if (note.taken) return plain(phrase("after a wait"));
  return plain(waitText(kind, called), "waits");
}

/** @param {string} goroutine */
const startsText = (goroutine) => (goroutine ? phrase("starts {goroutine}", { goroutine }) : phrase("starts a goroutine"));

/**
 * @param {string} name
 * @param {Place} place
 */
const makesText = (name, place) => (name ? phrase("makes {channel}", { channel: place.called(name) }) : phrase("makes a channel"));

/** @type {{[kind: string]: (step: Step, note: Note, place: Place, called: string) => Part[]}} */
const OUTCOMES = {
  hand: (_, note, __, called) => sent(note, called),
  buffer: (_, note, __, called) => sent(note, called),
  take: (_, note, __, called) => (note.received ? received(note, called) : plain(fromText(called))),
  meet: (_, note, __, called) => (note.received ? received(note, called) : plain(fromText(called))),
  pick: (_, note, __, called) => (note.received ? received(note, called) : note.over.isSend ? sent(note, called) : plain(fromText(called))),
  closed: (_, __, ___, called) => plain(`← ${called ? phrase("nothing: {channel} is closed", { channel: called }) : phrase("nothing: it is closed")}`),
  default: () => plain(phrase("no case was ready")),
  close: (_, __, ___, called) => plain(called ? phrase("closes {channel}", { channel: called }) : phrase("closes it")),
  go: (_, note) => plain(startsText(note.started)),
  make: (_, note, place) => plain(makesText(note.made, place)),
  exit: () => plain(phrase("the program ends")),
};

/**
 * @param {Step} step
 * @param {Note} note
 * @param {Place} place
 * @returns {Part[]}
 */
function outcomeOf(step, note, place) {
  const first = word(step.kind);
  const called = note.over.channel ? place.called(note.over.channel) : "";
  if (first === "fault") return plain(place.does(step.kind), "fault-text");
  if (isWait(step.kind)) return waiting(step.kind, note, called);
  return OUTCOMES[first]?.(step, note, place, called) || plain(given(note, place), "given");
}

// The statement of a step. Of a select that took a case it is the case, and at the end of a function what the step did.
/**
 * @param {Step} step
 * @param {Note} note
 * @param {Place} place
 */
function statementText({ kind }, { taken, statement }, place) {
  if (kind === "default") return "default";
  if (!statement || statement.text === "}") return place.does(kind);
  if (statement.shown && !(taken && /^select\b/.test(statement.shown))) return statement.shown;
  return taken ? `case ${taken}` : statement.text;
}

// The parts of a line, each cut to its column.
/**
 * @param {Step} step
 * @param {Note | undefined} note
 * @param {Place} place
 * @returns {{number: string, kind: string, outcome: Part[]}}
 */
export function lineOf(step, note, place) {
  const { mostStatement, mostOutcome } = place.columns;
  const number = step.id;
  const printed = plain(printedText(note?.printed || [], mostOutcome), "printed");
  if (!note) return { number, kind: shortened(place.does(step.kind), mostStatement), outcome: [] };
  const parts = [...outcomeOf(step, note, place), ...printed];
  return { number, kind: shortened(statementText(step, note, place), mostStatement), outcome: cut(parts, mostOutcome) };
}

/** @param {Part[]} parts */
const lettersIn = (parts) => parts.reduce((sum, { text }) => sum + widthOf(text) + 1, -1);

// Parts that have at most so many letters together, with a blank between two. Where that is too few, a channel goes by its variable alone.
/**
 * @param {Part[]} parts
 * @param {number} most
 */
function cut(parts, most) {
  let left = most;
  const kept = [];
  const fitting = lettersIn(parts) <= most ? parts : parts.map(({ name, text }) => ({ name, text: text.replace(CORE_NAME, "") }));
  for (const { name, text } of fitting) {
    if (left < 4) break;
    kept.push({ name, text: shortened(text, left) });
    left -= widthOf(text) + 1;
  }
  return kept;
}

// The letters of the longest statement and outcome between two rows.
/**
 * @param {Place} place
 * @param {number} from
 * @param {number} to
 */
export function lettersOf(place, from, to) {
  const needed = { statement: 4, outcome: 4 };
  for (let at = from; at < Math.min(to, place.rows.length); at++) {
    const step = place.log.step(place.rows.at(at));
    const { kind, outcome } = lineOf(step, place.notes(step.id), place);
    needed.statement = Math.max(needed.statement, widthOf(kind));
    needed.outcome = Math.max(needed.outcome, lettersIn(outcome) + 1);
  }
  return needed;
}
