// Kinds of steps, and what an edge between two steps stands for.

const WAITS = new Set(["send-wait", "recv-wait", "select-wait"]);

/** @param {string} kind */
export const word = (kind) => kind.split(" ")[0];
/** @param {string} kind */
export const isWait = (kind) => WAITS.has(word(kind));

// The end of the program depends on every step before it. It gets no edges for that alone.
/** @param {string} kind */
export const endsAll = (kind) => ["exit", "fault"].includes(word(kind));

// An edge is the start of a goroutine, a close, a message, or else mere order: who was first in a queue, who made room, who let go on.
/**
 * @param {string} from the kind of its first step
 * @param {boolean} isMessage
 */
export function edgeKind(from, isMessage) {
  if (word(from) === "go") return "start";
  if (word(from) === "close") return "close";
  return isMessage ? "message" : "order";
}
