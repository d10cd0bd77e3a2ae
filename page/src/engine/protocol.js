// Commands and replies, as docs/COMMANDS.md has them, and the answers to clients, as docs/PROTOCOL.md has them.

export const decoder = new TextDecoder();
export const encoder = new TextEncoder();

// The words of commands that only ask, and among these of such whose answer may be long; of queries, which are no commands; and of commands
// that may change which steps are kept.
export const QUESTIONS = new Set(["deps", "causes", "show", "chan", "text", "console", "log", "about", "at"]);
export const LENGTHY = new Set(["log", "console", "text"]);
export const QUERIES = new Set(["about", "at"]);
export const CHANGES = new Set(["step", "undo", "back", "redo", "order", "run"]);

/** @param {string} line */
export const wordsOf = (line) => line.trim().split(/[ \t]+/);

// Replies in the order of their lines: `lines` are those that begin with a bar, without it; `words` are those of the last line.
/**
 * @param {string} text
 * @returns {Reply[]}
 */
export function parseReplies(text) {
  /** @type {Reply[]} */
  const replies = [];
  /** @type {string[]} */
  let lines = [];
  for (const line of text.split("\n")) {
    if (line.startsWith("|")) {
      lines.push(line.slice(2));
    } else if (line) {
      replies.push({ lines, last: line, words: line.split(" "), isOk: line.startsWith("ok") });
      lines = [];
    }
  }
  return replies;
}

const TEXT = '"text":';

// The text of an answer to a client. It is the last member of the object: lists of steps before it may be long, and are not read.
/** @param {string} line */
export function textOf(line) {
  const at = line.lastIndexOf(TEXT);
  return at < 0 ? "" : /** @type {string} */ (JSON.parse(line.slice(at + TEXT.length, -1)));
}

// Names of steps.
/** @param {string} id */
export const goroutineOf = (id) => id.slice(0, id.lastIndexOf("#"));
/** @param {string} id */
export const numberOf = (id) => Number(id.slice(id.lastIndexOf("#") + 1));
/**
 * @param {string} goroutine
 * @param {number} number
 */
export const stepName = (goroutine, number) => `${goroutine}#${number}`;

/** @param {string} name */
const countsIn = (name) => name.slice(1).split(/\/c|\./).map(Number);

// Orders goroutines, or channels, as the program does: by the counts in their names.
/**
 * @param {string} one
 * @param {string} other
 */
export function compareNames(one, other) {
  const [left, right] = [countsIn(one), countsIn(other)];
  for (let at = 0; at < Math.min(left.length, right.length); at++) {
    if (left[at] !== right[at]) return left[at] - right[at];
  }
  return left.length - right.length;
}

// The steps that a reply `ok K ID ..` or `no B6 K ID ..` lists.
/** @param {Reply} reply */
export const listedSteps = (reply) => reply.words.slice(reply.isOk ? 2 : 3);

/** @param {string} word */
function parsePair(word) {
  const at = word.indexOf("=");
  return { name: word.slice(0, at), value: word.slice(at + 1) };
}

/** @param {string} line */
function parseFrame(line) {
  const [name, ...pairs] = line.split(" ");
  return { name, variables: pairs.map(parsePair) };
}

// The reply of `show G`.
/**
 * @param {{lines: string[]}} reply
 * @returns {Goroutine}
 */
export function parseGoroutine(reply) {
  const [name, state, steps, , line] = reply.lines[0].split(" ");
  return { name, state, steps: Number(steps), line: line ? Number(line) : null, frames: reply.lines.slice(1).map(parseFrame) };
}

// The reply of `chan C`.
/**
 * @param {string} name
 * @param {{lines: string[]}} reply
 * @returns {Channel}
 */
export function parseChannel(name, reply) {
  const [capacity, ...rows] = reply.lines.map((line) => line.split(" "));
  const [items, senders, receivers] = rows.map((row) => row.slice(1).filter((word) => word));
  return { name, capacity: Number(capacity[1]), isClosed: capacity[2] === "closed", items, senders, receivers };
}

// One that waits on a channel: `g0.2=5` sends 5, `g0@2` waits with clause 2.
/** @param {string} word */
export function parseWaiter(word) {
  const [, goroutine, clause, value] = /** @type {RegExpExecArray} */ (/^([^@=]*)(?:@(\d+))?(?:=(.*))?$/.exec(word));
  return { goroutine, clause: Number(clause) || 0, value: value ?? "" };
}

// What standard error says of a source or a session: `rewind: C7 at 2:15`.
/**
 * @param {string} text
 * @returns {Refusal | null}
 */
export function parseFault(text) {
  const found = /^rewind: (\S+)(?: at (\d+):(\d+))?/m.exec(text);
  if (!found) return null;
  return { code: found[1], line: Number(found[2]) || 0, column: Number(found[3]) || 0, text: text.trim() };
}
