// Lines in commands and replies. A session runs a text with each statement on a line of its own, and a person reads and writes lines of
// the source.

import { wordsOf } from "../engine/protocol.js";

const LINE = /^[1-9]\d{0,9}$/;
const GREATEST = 4294967295; // line that a command takes

/** @typedef {import("./statements.js").Statements} Statements */

// The commands of the session for one of a person. A breakpoint stands at each statement of its line, or else behind the end.
/**
 * @param {string} line
 * @param {Statements} statements
 */
export function commandsFor(line, statements) {
  const [word, number = "", ...rest] = wordsOf(line);
  const isBreak = (word === "break" || word === "clear") && !rest.length && LINE.test(number) && Number(number) <= GREATEST;
  if (!isBreak) return [line];
  const lines = statements.runLines(Number(number));
  return (lines.length ? lines : [Math.min(GREATEST, statements.length + Number(number))]).map((it) => `${word} ${it}`);
}

// The reply of the session to a command, with lines of the source.
/**
 * @param {string} line
 * @param {Reply} reply
 * @param {Statements} statements
 * @returns {Reply}
 */
export function inSource(line, reply, statements) {
  const [word] = wordsOf(line);
  const moved = (/** @type {string[]} */ words) => [...words.slice(0, -1), String(statements.lineOf(Number(words.at(-1))))];
  if (word === "run" && reply.words[2] === "break") {
    const words = moved(reply.words);
    return { ...reply, words, last: words.join(" ") };
  }
  const [first = "", ...frames] = reply.lines;
  return word === "show" && / line \d+$/.test(first) ? { ...reply, lines: [moved(first.split(" ")).join(" "), ...frames] } : reply;
}
