// A run as a text for other tools: a log with vector clocks for ShiViz, a sequence diagram for Mermaid, and a table.

import { compareNames } from "../engine/protocol.js";
import { isWait, word } from "../session/edges.js";
import { phrase } from "../phrases.js";

/** @typedef {import("./facts.js").Fact} Fact */
/** @typedef {import("./facts.js").Run} Run */

// How ShiViz reads the log: a line with goroutine and clock, and one that says what happened. The second line would part several runs.
const SHIVIZ = "(?<host>\\S*) (?<clock>{.*})\\n(?<event>.*)\n\n";

/** @param {Fact} fact */
const clockText = ({ clock }) => JSON.stringify(Object.fromEntries(clock));

/** @param {string} text */
const oneLine = (text) => text.replace(/\s+/g, " ").trim();

/** @param {Fact} fact */
const printedText = ({ note: { printed } }) => printed.map((text) => phrase("prints “{text}”", { text })).join(" ");

/** @param {Fact} fact */
function eventText(fact) {
  const { step, note, says, outcome } = fact;
  const line = note.line ? phrase("line {line}", { line: String(note.line) }) : "";
  return oneLine([step.id, says, outcome, printedText(fact), line].filter((it) => it).join("  "));
}

// The log of ShiViz: the clock of a step counts, of each goroutine, the steps that it depends on.
/** @param {Run} run */
export const toShiviz = ({ facts }) => SHIVIZ + facts.map((fact) => `${fact.step.goroutine} ${clockText(fact)}\n${eventText(fact)}\n`).join("");

/** @type {{[sign: string]: string}} */
const SIGNS = { "#": "#35;", ";": "#59;", "<": "#lt;", ">": "#gt;", "&": "#amp;" };

// A text in a diagram of Mermaid, where some letters have a meaning.
/** @param {string} text */
const inDiagram = (text) => oneLine(text).replace(/[#;<>&]/g, (sign) => SIGNS[sign]) || " ";

/** @param {string} goroutine */
const actor = (goroutine) => goroutine.replaceAll(".", "_");

// Whether a step gives a value: what an edge from another one is about can be the order alone.
/** @param {Fact | undefined} fact */
const gives = (fact) => Boolean(fact?.note.over.isSend);

/**
 * @param {Edge} edge
 * @param {Map<string, Fact>} byId
 * @param {Run} run
 */
function arrowOf({ from, to, kind }, byId, { called }) {
  const [giver, taker] = [byId.get(from), byId.get(to)];
  if (kind === "start") return { line: "-)", text: giver?.says || "go" };
  if (kind === "close") return { line: "--)", text: giver?.says || "close" };
  if (kind !== "message" || !gives(giver)) return { line: "-->>", text: phrase("comes before") };
  const { sent, channel } = /** @type {Fact} */ (giver).note.over;
  const value = sent || taker?.note.received || phrase("a value");
  return { line: "->>", text: channel ? phrase("{value} over {channel}", { value, channel: called(channel) }) : value };
}

// What is told beside the line of a goroutine: what it printed, that it waits at the end, and how the program ended.
/**
 * @param {Fact} fact
 * @param {Map<string, Fact>} last
 */
function notesOf(fact, last) {
  const { step, note, outcome } = fact;
  const told = note.printed.map((text) => phrase("prints {text}", { text }));
  if (last.get(step.goroutine) === fact && isWait(step.kind) && !note.received && !note.taken) told.push(outcome);
  if (["exit", "fault"].includes(word(step.kind))) told.push(outcome);
  return told.map((text) => `  Note over ${actor(step.goroutine)}: ${inDiagram(text)}\n`);
}

// The sequence diagram: an arrow for each direct dependence between two goroutines, at the later of its two steps.
/** @param {Run} run */
export function toMermaid(run) {
  const { facts, functions } = run;
  const byId = new Map(facts.map((fact) => [fact.step.id, fact]));
  const last = new Map(facts.map((fact) => [fact.step.goroutine, fact]));
  const names = [...new Set(facts.flatMap(({ clock }) => clock.map(([name]) => name)))].sort(compareNames);
  const actors = names.map((name) => `  participant ${actor(name)} as ${inDiagram(`${name} ${functions.get(name) || ""}`)}\n`);
  const rows = facts.flatMap((fact) => [
    ...fact.edges.map((edge) => {
      const { line, text } = arrowOf(edge, byId, run);
      return `  ${actor(/** @type {Fact} */ (byId.get(edge.from)).step.goroutine)}${line}${actor(fact.step.goroutine)}: ${inDiagram(text)}\n`;
    }),
    ...notesOf(fact, last),
  ]);
  return `sequenceDiagram\n${[...actors, ...rows].join("")}`;
}

/** @param {Note} note */
const channelOf = ({ over, channels }) => over.channel || (channels.length === 1 ? channels[0] : "");

/** @param {Fact} fact */
const sentBy = ({ step, note }) => (word(step.kind) === "fault" ? "" : note.over.sent);

/** @type {[name: string, of: (fact: Fact) => string | number][]} */
const COLUMNS = [
  ["row", ({ step }) => step.row + 1],
  ["step", ({ step }) => step.id],
  ["goroutine", ({ step }) => step.goroutine],
  ["kind", ({ step }) => step.kind],
  ["line", ({ note }) => note.line || ""],
  ["statement", ({ says }) => says],
  ["outcome", ({ outcome }) => outcome],
  ["printed", ({ note }) => note.printed.join("\n")],
  ["channel", ({ note }) => channelOf(note)],
  ["sent", sentBy],
  ["received", ({ note }) => note.received],
  ["depends_on", ({ rests }) => rests.join(" ")],
  ["clock", clockText],
];

/** @param {string | number} value */
const cell = (value) => (/[",\n\r]/.test(String(value)) ? `"${String(value).replaceAll('"', '""')}"` : String(value));

// The table, as RFC 4180 has it: a row for each step.
/** @param {Run} run */
export function toCsv({ facts }) {
  const rows = [COLUMNS.map(([name]) => name), ...facts.map((fact) => COLUMNS.map(([, of]) => of(fact)))];
  return rows.map((row) => `${row.map(cell).join(",")}\r\n`).join("");
}
