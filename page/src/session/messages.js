// What a step does over a channel, and with which value, as far as its text tells the value. A case of a select that waits may leave open
// which channel it is: then that is "".

import { sends } from "./facts.js";
import { channelsIn, sentValue } from "./values.js";

const RECEIVE = /^(?:[^<]*=\s*)?<-(.*)$/s;
const SEND = /^([^<]*?)<-/s;
const RECEIVED = /<-\s*[A-Za-z_]\w*/g;
const RECEIVES = new Set(["take", "meet", "closed", "recv-wait"]);
const UNORDERED = /&&|\|\||\b(?!println\b|len\b|cap\b)[A-Za-z_]\w*\s*\(/; // what may leave a part out, or do another statement between

/** @param {string} kind */
export const isReceive = (kind) => RECEIVES.has(kind);

// The one channel that a text names, or "".
/**
 * @param {string} text
 * @param {Variable[]} variables
 */
function channelIn(text, variables) {
  const channels = channelsIn(text, variables);
  return channels.length === 1 ? channels[0] : "";
}

// What a case of a select does.
/**
 * @param {string} text
 * @param {Variable[]} variables
 * @returns {Operation}
 */
export function caseOf(text, variables) {
  const received = RECEIVE.exec(text)?.[1];
  const isSend = received === undefined;
  return { text, isSend, channel: channelIn(received ?? SEND.exec(text)?.[1] ?? "", variables), sent: isSend ? sentValue(text, variables) : "" };
}

// The part of a statement that a step receives by, where there are several: `turn` receives of it are done before. "" where the text
// does not tell.
/**
 * @param {string} text
 * @param {number} turn
 */
export function receivedPart(text, turn) {
  if (UNORDERED.test(text)) return "";
  const parts = [...text.replace(/^\s*\w+\s*<-/, "").matchAll(RECEIVED)].map(([part]) => part);
  return parts.length > 1 && turn < parts.length ? parts[turn] : "";
}

// What a step did, in a statement or a case of this text.
/**
 * @param {About} fact
 * @param {string} text
 * @param {Variable[]} variables
 * @returns {Operation}
 */
export function operationOf(fact, text, variables) {
  const isSend = sends(fact);
  return { text, isSend, channel: fact.channel?.name || "", sent: isSend ? sentValue(text, variables) : "" };
}

// The case with which a select that waited was met by an operation of another goroutine; nothing where several may be it.
/**
 * @param {Operation[]} cases
 * @param {Operation} other
 * @returns {Operation | null}
 */
export function metCase(cases, other) {
  const fitting = cases.filter(({ isSend, channel }) => isSend !== other.isSend && (!channel || !other.channel || channel === other.channel));
  return fitting.length === 1 ? fitting[0] : null;
}
