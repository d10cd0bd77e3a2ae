// What a worker hands on of the replies that it got, so that long texts are read beside the page.

import { columnsIn } from "./columns.js";
import { listsIn } from "./lists.js";
import { decoder, parseReplies, textOf } from "./protocol.js";

const LINES = 1100; // of more lines the last are handed on: more than a goroutine has frames

// The last lines of a reply, and how many there are.
/** @param {Reply} reply */
const tail = (reply) => ({ isOk: reply.isOk, count: reply.lines.length, lines: reply.lines.slice(-LINES), last: reply.last });

/** @type {{[shape: string]: (reply: Reply) => any}} */
const SHAPES = { replies: (reply) => reply, tail };

// The replies in a shape; as columns, that of one command.
/**
 * @param {Uint8Array} bytes
 * @param {string} shape
 * @returns {any[]}
 */
export const shaped = (bytes, shape) => (shape === "columns" ? [columnsIn(bytes)] : shapedText(decoder.decode(bytes), shape));

/**
 * @param {string} text
 * @param {string} shape
 * @returns {any[]}
 */
export const shapedText = (text, shape) => (shape === "listed" ? listsIn(text) : parseReplies(text).map(SHAPES[shape]));

// The answers to a client, in the shape that is asked for: `told` are the objects themselves, and the others come from their texts.
/**
 * @param {Uint8Array} bytes
 * @param {string} shape
 * @returns {any[]}
 */
export function shapedAnswers(bytes, shape) {
  const lines = decoder.decode(bytes).split("\n").filter((line) => line);
  return shape === "told" ? lines.map((line) => JSON.parse(line)) : shapedText(lines.map(textOf).join(""), shape);
}
