// What each goroutine may still do with each channel, as the text ahead of its frames tells it. Of the clients it is `roles.py`.
//
// It is found by letting channels flow until nothing is new: from the variables of the frames over assignments, calls, returns, starts
// of goroutines and messages. What flows through a message is all that may ever be sent over its channel. So what is not found here
// can never come, and what is found may still come. ANY stands for a channel that cannot be told: it may be each of them.

import { parseWaiter } from "../engine/protocol.js";

const ANY = "any channel";
const BEHIND = 0.5;

/** @typedef {import("./flows.js").Verb} Verb */
/** @typedef {import("./flows.js").Flow} Flow */
/** @typedef {import("./flows.js").Expression} Expression */
/** @typedef {{name: string, line: number}} Place */

/** @param {string} value */
const isChannel = (value) => /^g0(\.\d+)*\/c\d+$/.test(value);

// A frame, or the calls of a function that are still to come: the function, and the place from which its text is ahead. `held` are the
// tokens of expressions that may be done already, with a value that no variable shows yet, and `waitsAt` is the channel at which it
// waits, where that is one.
class Life {
  /**
   * @param {string} root
   * @param {Flow} flow
   */
  constructor(root, flow) {
    this.root = root;
    this.flow = flow;
    this.begin = 0;
    /** @type {Set<number>} */
    this.held = new Set();
    /** @type {Map<string, Set<string>>} */
    this.variables = new Map();
    this.waitsAt = "";
  }

  /** @param {number} at */
  isAhead(at) {
    return at >= this.begin || this.isWithin(at);
  }

  // Whether it stands in a loop that holds the place too.
  /** @param {number} at */
  isWithin(at) {
    return this.flow.loops.some(([first, last]) => first <= this.begin && this.begin < last && first <= at && at < last);
  }
}

/**
 * @template K, V
 * @param {Map<K, Set<V>>} map
 * @param {K} key
 */
function setOf(map, key) {
  let found = map.get(key);
  if (!found) map.set(key, (found = new Set()));
  return found;
}

export class Roles {
  // `places` are those of the frames of each goroutine, the innermost first.
  /**
   * @param {import("./flows.js").Program} program
   * @param {Goroutine[]} goroutines
   * @param {Map<string, Place[]>} places
   * @param {Channel[]} channels
   */
  constructor(program, goroutines, places, channels) {
    this.program = program;
    /** @type {Map<string, Set<string>>} */
    this.contents = new Map(channels.map((it) => [it.name, sentOver(it)]));
    /** @type {Map<string, Set<string>>} */
    this.returned = new Map();
    /** @type {Map<string, Life>} */
    this.calls = new Map();
    const queued = waitingAt(channels);
    this.lives = goroutines.flatMap((it) => framesOf(program, it, places.get(it.name) || [], queued.get(it.name) || new Map()));
    this.changes = 0;
    for (let before = -1; before !== this.changes; ) {
      before = this.changes;
      for (const life of [...this.lives]) this.flow(life);
    }
    /** @type {Map<string, Set<string>>} */
    this.may = new Map();
    for (const life of this.lives) for (const use of this.uses(life)) setOf(this.may, life.root).add(use);
  }

  // What a goroutine, or one that it starts, may still do with a channel.
  /**
   * @param {string} goroutine
   * @param {string} channel
   */
  verbs(goroutine, channel) {
    const found = this.may.get(goroutine) || new Set();
    return /** @type {Verb[]} */ (["send", "receive", "close"]).filter((verb) => found.has(`${verb} ${channel}`) || found.has(`${verb} ${ANY}`));
  }

  // Lets the channels of a frame flow on by one turn.
  /** @param {Life} life */
  flow(life) {
    for (const use of life.flow.uses) {
      if (!use.value || !life.isAhead(use.at)) continue;
      for (const channel of this.value(life, use.channel)) this.add(setOf(this.contents, channel), this.value(life, use.value));
    }
    for (const { at, variable, value } of life.flow.givings) {
      if (!life.isAhead(at)) continue;
      this.add(variable ? setOf(life.variables, variable) : setOf(this.returned, `${life.root} ${life.flow.name}`), this.value(life, value));
    }
    for (const calling of life.flow.callings) if (life.isAhead(calling.at) && this.program.functions.has(calling.name)) this.call(life, calling);
  }

  // A call that is ahead: its function has a life of its own, one for all such calls of a goroutine.
  /**
   * @param {Life} life
   * @param {import("./flows.js").Calling} calling
   */
  call(life, { name, args }) {
    const key = `${life.root} ${name}`;
    let called = this.calls.get(key);
    if (!called) {
      called = new Life(life.root, /** @type {Flow} */ (this.program.functions.get(name)));
      this.calls.set(key, called);
      this.lives.push(called);
      this.changes++;
    }
    for (const [which, parameter] of called.flow.parameters.entries()) this.add(setOf(called.variables, parameter), this.value(life, args[which]));
  }

  /**
   * @param {Set<string>} kept
   * @param {Set<string>} more
   */
  add(kept, more) {
    for (const one of [...more]) {
      if (kept.has(one)) continue;
      kept.add(one);
      this.changes++;
    }
  }

  // The channels that an expression may have as its value.
  /**
   * @param {Life} life
   * @param {Expression | null | undefined} expression
   * @returns {Set<string>}
   */
  value(life, expression) {
    if (!expression) return new Set();
    const { form, token, name, inner } = expression;
    if (form === "name") return life.variables.get(name) || new Set();
    if (form === "make") return new Set([`made at ${token} for ${life.root}`]);
    const held = new Set(this.program.carries && life.held.has(token) ? [ANY] : []);
    if (form === "call") return new Set([...held, ...(this.returned.get(`${life.root} ${name}`) || [])]);
    if (!this.program.carries) return held;
    const from = [...this.value(life, inner), ANY].flatMap((channel) => [...(this.contents.get(channel) || [])]);
    return new Set([...held, ...from]);
  }

  // The uses of channels that are ahead of a frame.
  /** @param {Life} life */
  uses(life) {
    const ahead = life.flow.uses.filter(({ at }) => life.isAhead(at));
    return ahead.flatMap((use) => {
      const told = [...this.value(life, use.channel)].map((channel) => `${use.verb} ${channel}`);
      const isUnseen = use.isRange && life.isWithin(use.at) && isKeptUnseen(life.flow, use);
      return isUnseen ? [...told, `${use.verb} ${life.waitsAt || ANY}`] : told;
    });
  }
}

// The channels that are on their way over a channel.
/** @param {Channel} channel */
const sentOver = ({ items, senders }) => new Set([...items, ...senders.map((it) => parseWaiter(it).value)].filter(isChannel));

// The channels at which each goroutine waits, with what it waits to do.
/** @param {Channel[]} channels */
function waitingAt(channels) {
  /** @type {Map<string, Map<string, Verb>>} */
  const found = new Map();
  const queue = (/** @type {string[]} */ waiters, /** @type {Verb} */ verb, /** @type {string} */ channel) => {
    for (const { goroutine } of waiters.map(parseWaiter)) found.set(goroutine, (found.get(goroutine) || new Map()).set(channel, verb));
  };
  for (const { name, senders, receivers } of channels) {
    queue(senders, "send", name);
    queue(receivers, "receive", name);
  }
  return found;
}

// The frames of a goroutine as lives.
/**
 * @param {import("./flows.js").Program} program
 * @param {Goroutine} goroutine
 * @param {Place[]} places
 * @param {Map<string, Verb>} wishes
 */
function framesOf(program, { name: root, state, frames }, places, wishes) {
  /** @type {Life[]} */
  const found = [];
  let called = "";
  for (const [number, { name, variables }] of frames.entries()) {
    const flow = program.functions.get(name);
    if (!flow || !places[number]) continue;
    const life = new Life(root, flow);
    for (const { name: variable, value } of variables) if (isChannel(value)) setOf(life.variables, variable).add(value);
    const [first, last] = standing(life, places[number].line, called, !number && state === "waiting", wishes);
    life.begin = first;
    life.held = new Set(program.carries ? doneBefore(flow, places[number].line, last) : []);
    life.waitsAt = !number && wishes.size === 1 ? [...wishes.keys()][0] : "";
    called = name;
    found.push(life);
  }
  return found;
}

// The first and the last place at which a frame may stand: behind a call, at the use of a channel, or on its line.
/**
 * @param {Life} life
 * @param {number} line
 * @param {string} called
 * @param {boolean} waits
 * @param {Map<string, Verb>} wishes
 */
function standing(life, line, called, waits, wishes) {
  const { parts, callings, uses } = life.flow;
  const onLine = parts.filter((it) => it.line === line);
  if (!onLine.length) return [0, Math.max(...parts.map(({ end }) => end))];
  let at = called ? callings.filter((it) => it.line === line && it.name === called).map((it) => it.at + BEHIND) : [];
  if (!called && waits && !onLine.some(({ isCase }) => isCase)) at = uses.filter((it) => it.line === line && mayWait(life, it, wishes)).map((it) => it.at);
  if (at.length) return [Math.min(...at), Math.max(...at)];
  return [Math.min(...onLine.map(({ begin }) => begin)), Math.max(...onLine.map(({ end }) => end))];
}

// Whether a goroutine may wait at a use of a channel.
/**
 * @param {Life} life
 * @param {import("./flows.js").Use} use
 * @param {Map<string, Verb>} wishes
 */
function mayWait(life, { channel, verb }, wishes) {
  if (!channel || channel.form !== "name") return [...wishes.values()].includes(verb);
  return [...(life.variables.get(channel.name) || [])].some((it) => wishes.get(it) === verb);
}

// The tokens of receives and calls of a line that may be done while their statement is not.
/**
 * @param {Flow} flow
 * @param {number} line
 * @param {number} last
 */
function doneBefore({ uses, callings }, line, last) {
  const received = uses.filter((it) => it.line === line && it.at < last && it.verb === "receive");
  return [...received, ...callings.filter((it) => it.line === line && it.at < last)].map(({ token }) => token);
}

// Whether the channel over which a range goes may be another one than its variable holds now, or stands in none.
/**
 * @param {Flow} flow
 * @param {import("./flows.js").Use} use
 */
function isKeptUnseen({ givings }, { channel, at }) {
  if (!channel || channel.form !== "name") return true;
  return givings.some((it) => it.variable === channel.name && it.at > at);
}
