// From which lines of the user's source those of the program come that is run: the same ones, or, where real Go was carried over, those
// that the carrying tells.

import { parseWaiter } from "../engine/protocol.js";
import { phrase } from "../phrases.js";
import { Texts } from "./texts.js";

const FIRST = { line: 0, source: 0 };

/** @typedef {import("../engine/carry.js").Carried} Carried */

export class Origin {
  /**
   * @param {string} source
   * @param {Carried | null} carried what the source was carried over to
   */
  constructor(source, carried = null) {
    this.lines = source.split("\n");
    this.isCarried = Boolean(carried);
    this.places = carried?.places || [];
    this.texts = carried && new Texts(carried);
    /** @type {Map<number, string>} */
    this.moves = new Map(this.places.map(({ line, moves }) => [line, moves || ""])); // what the values stand for that a line hands over
    /** @type {Map<number, number>} */
    this.sources = new Map();
    for (const { line, source: from } of this.places) if (!this.sources.has(line)) this.sources.set(line, from);
  }

  // The line of the user's source, or 0 where the carrying added the line.
  /** @param {number | null} line */
  lineOf(line) {
    if (!this.isCarried) return line || 0;
    return this.sources.get(line || 0) || 0;
  }

  // The lines of the program that come from a line of the source or, where it has none, from the next one that has some.
  /** @param {number} line */
  runLines(line) {
    if (!this.isCarried) return [line];
    const next = this.places.reduce((least, it) => (it.source >= line && (!least.source || it.source < least.source) ? it : least), FIRST).source;
    return this.places.filter(({ source }) => next && source === next).map((it) => it.line);
  }

  // The text of a line of the source from which a line of the program comes, with single spaces in it; "" where there is none.
  /** @param {number} line */
  text(line) {
    return (this.lines[this.lineOf(line) - 1] || "").trim().replace(/\s+/g, " ");
  }

  // Where a line of the program stands, in words.
  /** @param {number} line */
  where(line) {
    const source = this.lineOf(line);
    return source ? phrase("line {line}", { line: String(source) }) : phrase("line {line} of what is run", { line: String(line) });
  }

  // A note with the place in the user's source.
  /**
   * @param {Note | undefined} note
   * @returns {Note | undefined}
   */
  noted(note) {
    if (!note || !this.isCarried) return note;
    const line = this.lineOf(note.line);
    const text = this.lines[line - 1] || "";
    const start = this.lines.slice(0, Math.max(line - 1, 0)).reduce((sum, it) => sum + it.length + 1, 0) + text.search(/\S|$/);
    const statement = note.statement && { ...note.statement, text: note.statement.shown || note.statement.text, start, end: start + text.trim().length };
    return { ...note, line, statement };
  }

  // A scene with the texts for which numbers in it stand.
  /**
   * @param {Scene} scene
   * @returns {Scene}
   */
  readable(scene) {
    const { texts } = this;
    if (!texts) return scene;
    const kinds = texts.kindsOf(scene.goroutines);
    const goroutines = scene.goroutines.map((it) => ({ ...it, frames: it.frames.map(({ name, variables }) => ({ name, variables: this.readVariables(name, variables) })) }));
    const channels = scene.channels.map((it) => {
      const shown = (/** @type {string} */ value) => texts.shown(kinds.get(it.name) || "", value);
      return { ...it, items: it.items.map(shown), senders: it.senders.map((sender) => senderText(sender, shown)) };
    });
    return { ...scene, goroutines, channels };
  }

  /**
   * @param {string} func
   * @param {Variable[]} variables
   */
  readVariables(func, variables) {
    const { texts } = this;
    return texts ? variables.map(({ name, value }) => ({ name, value: texts.shown(texts.kind(func, name), value) })) : variables;
  }

  // A note with the texts for which the numbers stand that the step handed over, and those in its frames. Channels are those of a scene.
  /**
   * @param {Note | undefined} note
   * @param {Scene | null | undefined} scene
   * @returns {Note | undefined}
   */
  readNote(note, scene) {
    const { texts } = this;
    if (!texts || !note) return note;
    const moved = this.moves.get(note.line);
    const kind = moved || (scene && texts.kindsOf(scene.goroutines).get(note.over.channel)) || "";
    const read = (/** @type {StackFrame | null} */ frame) => frame && { ...frame, variables: this.readVariables(note.statement?.func || "", frame.variables) };
    return { ...note, before: read(note.before), after: read(note.after), over: { ...note.over, sent: texts.shown(kind, note.over.sent) }, received: texts.shown(kind, note.received) };
  }
}

// One that waits to send, with the value as it is shown.
/**
 * @param {string} sender
 * @param {(value: string) => string} shown
 */
function senderText(sender, shown) {
  const { value } = parseWaiter(sender);
  return value ? `${sender.slice(0, sender.length - value.length)}${shown(value)}` : sender;
}
