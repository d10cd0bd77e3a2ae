// How a program stands, in sentences: those of the shell's `why`. Of the clients it is `sentences.py`.

import { DRAIN } from "./endings.js";
import { NIL, holderOf, ownersOf } from "./waits.js";
import { either, inRow, phrase, phraseKey, translated } from "../phrases.js";

const MAX_WAITS = 20;
const MAX_NAMES = 8;
const MAX_ITEMS = 4;
const MAX_CALLERS = 5;
const INDENT = "    ";
// What is done to a channel, by the verb of who waits or may serve.
/** @type {{[verb: string]: string}} */
const DOES = { send: phraseKey("send to {channel}"), receive: phraseKey("receive from {channel}"), close: phraseKey("close {channel}") };
/** @type {{[verb: string]: string}} */
const DOES_NIL = { send: phraseKey("send to a nil channel"), receive: phraseKey("receive from a nil channel"), close: phraseKey("close a nil channel") };
/** @type {{[verb: string]: string}} */
const SERVED = { send: phraseKey("send to it"), receive: phraseKey("receive from it"), close: phraseKey("close it") };
// What is said of who may serve those that wait to send, and to receive.
const LAST = { send: phraseKey("{goroutine} was the last one to receive from {channel}, at {place}"), receive: phraseKey("{goroutine} was the last one to send to {channel}, at {place}") };
const BEHIND = {
  send: phraseKey("only {goroutines} would receive from {channel}, after a send of its own that waits too"),
  receive: phraseKey("only {goroutines} would send to {channel}, after a receive of its own that waits too"),
};
const MAY = { send: phraseKey("{goroutine}, which may still receive from it,"), receive: phraseKey("{goroutine}, which may still send to it,") };
const NEVER = { send: phraseKey("{goroutine}, which never will receive from it again,"), receive: phraseKey("{goroutine}, which never will send to it again,") };

const WAITS = { toDo: phraseKey("{goroutine} waits to {wishes} at {place}"), forEver: phraseKey("{goroutine} waits for ever at {place}") };
const WOULD_WAIT = { toDo: phraseKey("{goroutine} would wait for ever to {wishes} at {place}"), forEver: phraseKey("{goroutine} would wait for ever at {place}") };

/** @typedef {import("./waits.js").Wait} Wait */
/** @typedef {import("./waits.js").Wish} Wish */
/** @typedef {import("./waits.js").Hold} Hold */

export class Sentences {
  /**
   * @param {import("./flows.js").Program} program
   * @param {{go: {[fault: string]: string}, faults: {[fault: string]: string}}} given
   */
  constructor(program, given) {
    this.program = program;
    this.given = given;
  }

  // The waits, and the cycle among them.
  /**
   * @param {Wait[]} waits
   * @param {string[]} cycle
   */
  deadlock(waits, cycle) {
    return [...waits.slice(0, MAX_WAITS).flatMap((wait) => this.wait(wait)), ...more(waits.length - MAX_WAITS), ...cycleText(cycle)];
  }

  /**
   * @param {import("./endings.js").Fate[]} fates
   * @param {Wait[]} waits
   */
  ended(fates, waits) {
    const told = fates.slice(0, MAX_WAITS).flatMap((fate) => {
      const wait = waits.find(({ goroutine }) => goroutine === fate.goroutine);
      return wait ? this.wait(wait, WOULD_WAIT) : [this.fate(fate)];
    });
    return [endedText(fates.length, fates.filter(({ ending }) => ending === "wait").length), ...told, ...more(fates.length - MAX_WAITS)];
  }

  /** @param {import("./endings.js").Fate} fate */
  fate({ goroutine, ending, line, fault }) {
    const fields = { goroutine, place: this.at(line) };
    const limit = () => phrase("a limit of Rewind: {fault}", { fault: translated(this.given.faults[fault] || fault) });
    if (ending === "fault") return phrase("{goroutine} would stop the program at {place} ({fault})", { ...fields, fault: this.given.go[fault] || limit() });
    if (ending === "go on") return phrase("{goroutine} would still go on after {count} steps, at {place}", { ...fields, count: DRAIN });
    return phrase("{goroutine} would end", fields);
  }

  // What a goroutine waits for, and who may still serve it.
  /** @param {Wait} wait */
  wait(wait, does = WAITS) {
    const { goroutine, places, wishes } = wait;
    const fields = { goroutine, place: this.at(places[0]?.line || 0) };
    if (!wishes.length) return [phrase(does.forEver, fields), INDENT + phrase("its select has no cases")];
    const callers = places.slice(1, 1 + MAX_CALLERS).map(({ name, line }) => INDENT + phrase("called from {name}, {place}", { name, place: this.at(line) }));
    const nil = wishes.some(({ channel }) => channel === NIL) ? [INDENT + phrase("a nil channel blocks for ever")] : [];
    const isFirst = (/** @type {Wish} */ wish) => wish === wishes.find(({ verb, channel }) => verb === wish.verb && channel === wish.channel);
    const served = wishes.filter((wish) => wish.channel !== NIL && isFirst(wish)).flatMap((wish) => this.served(wish));
    return [phrase(does.toDo, { ...fields, wishes: wishesText(wait) }), ...callers, ...nil, ...served];
  }

  // Who holds what is waited for, and who may still serve it.
  /** @param {Wish} wish */
  served(wish) {
    const { items, taken, last } = wish;
    const channel = wish.variable || wish.channel;
    const told = items.slice(0, MAX_ITEMS).map((hold) => phrase("{holder} put {value} into {channel} at {place}", { holder: holderText(hold, wish), value: String(hold.value), channel, place: this.atCalled(hold) }));
    if (items.length > MAX_ITEMS) told.push(phrase("and {count} item more is in it | and {count} items more are in it", { count: items.length - MAX_ITEMS }));
    if (taken) told.push(phrase("{holder} took the last item of {channel} at {place}", { holder: holderText(taken, wish), channel, place: this.atCalled(taken) }));
    if (last) told.push(phrase(LAST[served(wish)], { goroutine: holderOf(last), channel, place: this.atCalled(last) }));
    if (!ownersOf(wish).length) told.push(serversText(wish));
    return told.map((line) => INDENT + line);
  }

  // The place of a step, with the one that called it where it has callers, and the command that takes it back.
  /** @param {Hold} hold */
  atCalled({ step, line, callers }) {
    const place = callers.length ? phrase("{place}, called at {caller}", { place: this.at(line), caller: this.at(callers[0]) }) : this.at(line);
    return phrase("{place} ('{command}' takes that back)", { place, command: `back ${step}` });
  }

  /** @param {number} line */
  at(line) {
    return line ? `${this.program.where(line)}: ${this.program.line(line)}` : phrase("a line that is not known");
  }
}

// What a goroutine waits for, by its own names for the channels: `send 3 to out (g0/c1)`.
/** @param {{wishes: Wish[]}} wait */
export const wishesText = ({ wishes }) => either([...new Set(wishes.map(wishText))]);

/** @param {Wish} wish */
function wishText({ verb, channel, value, variable }) {
  const fields = { value: String(value), channel: variable ? `${variable} (${channel})` : channel };
  const sends = verb === "send" && value;
  if (channel === NIL) return sends ? phrase("send {value} to a nil channel", fields) : phrase(DOES_NIL[verb]);
  return sends ? phrase("send {value} to {channel}", fields) : phrase(DOES[verb], fields);
}

/** @param {Wish} wish */
function serversText(wish) {
  const { verb, servers, behind, isRange } = wish;
  const channel = wish.variable || wish.channel;
  if (servers.length) {
    const verbs = ["send", "receive", "close"].filter((it) => servers.some((server) => server.verbs.some((one) => one === it)));
    return phrase("it waits for {goroutines}, which may still {verbs}", { goroutines: named(servers.map(({ goroutine }) => goroutine)), verbs: either(verbs.map((it) => phrase(SERVED[it]))) });
  }
  if (behind.length) return phrase(BEHIND[served(wish)], { goroutines: named(behind), channel });
  if (verb === "send") return phrase("no other goroutine can still receive from {channel}", { channel });
  if (isRange) return phrase("nobody will send to {channel} again, and nobody closes it: the range cannot end", { channel });
  return phrase("no other goroutine can still send to {channel} or close it", { channel });
}

// A goroutine that used a channel, and whether it may still serve those that wait.
/**
 * @param {Hold} hold
 * @param {Wish} wish
 */
function holderText(hold, wish) {
  const goroutine = holderOf(hold);
  if (hold.stand === "self") return phrase("{goroutine} itself", { goroutine });
  if (hold.stand === "done") return phrase("{goroutine}, which is done,", { goroutine });
  return phrase((hold.stand === "may" ? MAY : NEVER)[served(wish)], { goroutine });
}

// What those wait for that are to be served: a close is waited for as a value is.
/** @param {Wish} wish */
const served = ({ verb }) => (verb === "send" ? "send" : "receive");

// Some names of goroutines: `g0.1 or g0.2`.
/** @param {string[]} names */
const named = (names) => either([...names.slice(0, MAX_NAMES), ...(names.length > MAX_NAMES ? [phrase("{count} more", { count: names.length - MAX_NAMES })] : [])]);

/** @param {number} count */
const more = (count) => (count > 0 ? [phrase("and {count} goroutine more | and {count} goroutines more", { count })] : []);

/**
 * @param {string} goroutine
 * @param {string} other
 */
export const waitsForText = (goroutine, other) => phrase("{goroutine} waits for {other}", { goroutine, other });

/** @param {string[]} cycle */
export const cycleText = (cycle) => (cycle.length ? [phrase("A cycle: {waits}.", { waits: inRow(cycle.map((name, at) => waitsForText(name, cycle[(at + 1) % cycle.length]))) })] : []);

/** @param {number} count */
export const notDone = (count) => phrase("{count} goroutine was not done | {count} goroutines were not done", { count });

// How a program ended: how many goroutines were not done, and how many of them are leaks.
/**
 * @param {number} count
 * @param {number} leaks
 */
export function endedText(count, leaks) {
  if (!count) return phrase("The program has ended, and every goroutine is done.");
  const are = leaks ? phrase("{count} is a leak | {count} are leaks", { count: leaks }) : phrase("none of them is a leak");
  return phrase("The program has ended. {not_done} when main returned, and {leaks}.", { not_done: notDone(count), leaks: are });
}
