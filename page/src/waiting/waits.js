// Who waits for whom: what each goroutine waits for, who may still serve it, and the cycle where there is one. Of the clients it is
// `waits.py`.

import { Roles } from "./roles.js";
import { Transfers, callsBefore } from "./transfers.js";
import { goroutineOf, parseChannel, parseGoroutine, parseWaiter, stepName } from "../engine/protocol.js";
import { WHOLE } from "../session/order.js";
import { placed } from "../session/scene.js";
import { Unanswered } from "../engine/remote.js";

export const NIL = "nil";
const MOST = 2000; // of more goroutines or channels nothing is told
const MOST_ITEMS = 64;
/** @type {{[verb: string]: Verb[]}} */
const SERVED_BY = { send: ["receive"], receive: ["send", "close"] };

/** @typedef {import("./flows.js").Verb} Verb */
/** @typedef {import("./roles.js").Place} Place */
/** @typedef {{goroutine: string, verbs: Verb[]}} Server a goroutine that may still do the other half, and by what */
/** @typedef {"self" | "done" | "may" | "never"} Stand whether one that took a lock, or used a channel last, may still do the other half */
/** @typedef {{step: string, line: number, callers: number[], stand: Stand, value: string}} Hold a step that put an item into a buffer, or took one */

/**
 * @typedef {object} Wish what a goroutine waits for
 * @property {Verb} verb
 * @property {string} channel NIL where nobody can serve it
 * @property {number} number that of the case of a select, or 0
 * @property {string} value
 * @property {string} variable its own name for the channel
 * @property {number} capacity
 * @property {boolean} isRange
 * @property {Server[]} servers
 * @property {string[]} behind goroutines that would serve it only behind the same wish of their own
 * @property {Hold[]} items of a full buffer, the steps that put the items in
 * @property {Hold | null} taken of an empty one, the step that took the last item
 * @property {Hold | null} last the last message of a channel that nobody serves any more
 */

/** @typedef {{goroutine: string, places: Place[], since: string, wishes: Wish[]}} Wait one without wishes is at a select without cases */

/** @param {Hold} hold */
export const holderOf = (hold) => goroutineOf(hold.step);

// Those that hold a lock and may still give it back.
/** @param {Wish} wish */
export function ownersOf({ items, taken, capacity }) {
  const held = items.length ? items : taken && capacity === 1 ? [taken] : [];
  return [...new Set(held.filter(({ stand }) => stand === "may").map(holderOf))];
}

// The goroutines for which one waits: those that hold a lock, else all that may serve it.
/** @param {Wait} wait */
export function waitsFor({ wishes }) {
  return [...new Set(wishes.flatMap((wish) => (ownersOf(wish).length ? ownersOf(wish) : wish.servers.map(({ goroutine }) => goroutine))))];
}

// What goroutines wait for, by the queues of the channels and the variables of the frames.
export class Wishes {
  /**
   * @param {import("./flows.js").Program} program
   * @param {Goroutine[]} goroutines
   * @param {Channel[]} channels
   */
  constructor(program, goroutines, channels) {
    this.program = program;
    this.goroutines = goroutines.filter(({ state }) => state !== "done");
    this.channels = new Map(channels.map((it) => [it.name, it]));
  }

  // What a goroutine waits for, by the queues of the channels; what none of them has waits at a nil channel.
  /** @param {Goroutine} one */
  wishesOf(one) {
    /** @type {Wish[]} */
    const found = [];
    for (const channel of this.channels.values()) {
      for (const [verb, queue] of /** @type {[Verb, string[]][]} */ ([["send", channel.senders], ["receive", channel.receivers]])) {
        for (const { goroutine, clause, value } of queue.map(parseWaiter)) {
          if (goroutine === one.name) found.push(this.named(one, { ...wishOf(verb, channel.name), number: clause, value, capacity: channel.capacity }));
        }
      }
    }
    return found.length ? found.sort((left, right) => left.number - right.number) : this.nilWishes(one);
  }

  // What is shown of each goroutine that waits. Where not all channels are shown, one in no queue may wait at another one.
  /** @param {boolean} isPart */
  shown(isPart) {
    const waiting = this.goroutines.filter(({ state }) => state === "waiting").map((it) => ({ goroutine: it.name, line: it.line, wishes: this.wishesOf(it) }));
    return waiting.filter(({ wishes }) => !isPart || (wishes.length && wishes[0].channel !== NIL));
  }

  // A wish with the goroutine's own name for the channel: that of its statement, else that of a frame, the innermost first.
  /**
   * @param {Goroutine} one
   * @param {Wish} wish
   */
  named(one, wish) {
    const used = this.usesAt(one).filter(({ verb }) => verb === wish.verb);
    const holding = one.frames.flatMap(({ variables }) => variables.filter(({ value }) => value === wish.channel).map(({ name }) => name));
    const written = used.map(({ channel }) => channel?.name || "").filter((name) => holding.includes(name));
    const isRange = used.some((it) => it.isRange && ["", ...holding].includes(it.channel?.name || ""));
    return { ...wish, variable: [...written, ...holding, ""][0], isRange: isRange && !wish.number };
  }

  // The uses of channels on the line of a goroutine.
  /** @param {Goroutine} goroutine */
  usesAt({ frames, line }) {
    return (frames.length ? this.program.functions.get(frames[0].name)?.uses || [] : []).filter((it) => it.line === line);
  }

  // The wishes of a goroutine in no queue: at nil channels, or none at a select without cases.
  /** @param {Goroutine} one */
  nilWishes(one) {
    const verbs = new Set(this.usesAt(one).map(({ verb }) => verb).filter((verb) => verb !== "close"));
    return [...verbs].map((verb) => wishOf(verb, NIL));
  }
}

// All that is known of a program as it stands behind the last step of a log.
export class View extends Wishes {
  /**
   * @param {import("../session/reader.js").Reader} reader
   * @param {import("./flows.js").Program} program
   * @param {Goroutine[]} goroutines
   * @param {Channel[]} channels
   */
  constructor(reader, program, goroutines, channels) {
    super(program, goroutines, channels);
    this.reader = reader;
    /** @type {Map<string, Place[]>} */
    this.places = new Map(this.goroutines.map((it) => [it.name, this.placesOf(it)]));
    /** @type {Map<string, Wish[]>} */
    this.wishes = new Map();
  }

  // Reads a view; nothing where there is too much to tell of, or the log has changed.
  /**
   * @param {import("../session/reader.js").Reader} reader
   * @param {import("./flows.js").Program} program
   */
  static async read(reader, program) {
    const { log, statements } = reader;
    const { names, channels, version } = log;
    if (names.length > MOST || channels.length > MOST) return null;
    const views = [...names.map((name) => `show ${name}`), ...channels.map((name) => `chan ${name}`)];
    const replies = await reader.views(log.length, views, () => version === log.version);
    if (!replies) return null;
    const refused = replies.find(({ isOk }) => !isOk);
    if (refused) throw new Unanswered(refused.last);
    const goroutines = names.map((_, at) => placed(parseGoroutine(replies[at]), statements));
    return new View(reader, program, goroutines, channels.map((name, at) => parseChannel(name, replies[names.length + at])));
  }

  // The waits of all goroutines, in the order of their names.
  async waits() {
    const waiting = this.goroutines.filter(({ state }) => state === "waiting");
    this.wishes = new Map(waiting.map((it) => [it.name, this.wishesOf(it)]));
    this.roles = new Roles(this.program, this.goroutines, this.places, [...this.channels.values()]);
    const wished = [...this.wishes.values()].flat().map(({ channel }) => channel);
    this.transfers = new Transfers(this.reader.log.length > WHOLE ? [] : new Set(wished.filter((name) => name !== NIL)));
    await this.transfers.read(this.reader.log, this.reader.facts);
    return waiting.map(({ name, steps }) => {
      const wishes = (this.wishes.get(name) || []).map((wish) => this.served(name, wish));
      return { goroutine: name, places: this.places.get(name) || [], since: stepName(name, steps), wishes };
    });
  }

  // Where frames stand.

  // The place of each frame of a goroutine, the innermost first; the line is 0 where it cannot be told.
  /**
   * @param {Goroutine} goroutine
   * @returns {Place[]}
   */
  placesOf({ name, line, frames, steps }) {
    const outer = frames.slice(1).map((frame, at) => this.program.callingLines(frame.name, frames[at].name));
    const told = outer.map((lines) => (lines.length === 1 ? lines[0] : 0));
    const noted = told.includes(0) ? this.callers(stepName(name, steps + 1)) : [];
    const lines = noted.length === told.length && !noted.includes(0) ? noted : told;
    return frames.map((frame, at) => ({ name: frame.name, line: at ? lines[at - 1] : line || 0 }));
  }

  // The lines of the outer frames before a step, the innermost first.
  /** @param {string} id */
  callers(id) {
    return callsBefore(this.reader.log, id).map((call) => this.reader.notes.get(call)?.line || 0);
  }

  // Who serves it.

  // A wish with those that may still serve it, and the steps that left it unserved.
  /**
   * @param {string} waiting
   * @param {Wish} wish
   * @returns {Wish}
   */
  served(waiting, wish) {
    if (wish.channel === NIL) return wish;
    const [items, taken] = [this.items(waiting, wish), this.taken(waiting, wish)];
    const able = this.goroutines.filter(({ name }) => name !== waiting).map(({ name }) => ({ goroutine: name, verbs: this.verbs(name, wish) })).filter(({ verbs }) => verbs.length);
    const owners = [...items, ...(taken ? [taken] : [])].map(holderOf);
    const behind = able.map(({ goroutine }) => goroutine).filter((name) => !owners.includes(name) && this.wishesTheSame(name, wish));
    const servers = able.filter(({ goroutine }) => !behind.includes(goroutine));
    const last = servers.length || behind.length || wish.capacity ? null : this.last(waiting, wish);
    return { ...wish, servers, behind, items, taken, last };
  }

  /**
   * @param {string} name
   * @param {Wish} wish
   */
  verbs(name, { channel, verb }) {
    return this.roles?.verbs(name, channel).filter((it) => SERVED_BY[verb].includes(it)) || [];
  }

  // Whether a goroutine waits for nothing else.
  /**
   * @param {string} name
   * @param {Wish} wish
   */
  wishesTheSame(name, { channel, verb }) {
    const own = this.wishes.get(name) || [];
    return own.length > 0 && own.every((it) => it.verb === verb && it.channel === channel);
  }

  // The steps that put the items into a full buffer: the last ones that put any, since the first item goes out first.
  /**
   * @param {string} waiting
   * @param {Wish} wish
   */
  items(waiting, wish) {
    const items = this.channels.get(wish.channel)?.items || [];
    if (wish.verb !== "send" || !items.length || items.length > MOST_ITEMS) return [];
    const put = (this.transfers?.of.get(wish.channel)?.put || []).slice(-items.length);
    return put.flatMap((step, at) => this.hold(waiting, wish, step, items[items.length - put.length + at]));
  }

  // The step that took the last item out of an empty buffer.
  /**
   * @param {string} waiting
   * @param {Wish} wish
   */
  taken(waiting, wish) {
    const taken = this.transfers?.of.get(wish.channel)?.taken || [];
    return (wish.verb === "receive" && wish.capacity && taken.length && this.hold(waiting, wish, taken[taken.length - 1])[0]) || null;
  }

  // The last step that did the other half.
  /**
   * @param {string} waiting
   * @param {Wish} wish
   */
  last(waiting, wish) {
    const done = this.transfers?.of.get(wish.channel)?.[wish.verb === "send" ? "taken" : "sent"] || [];
    return (done.length && this.hold(waiting, wish, done[done.length - 1])[0]) || null;
  }

  /**
   * @param {string} waiting
   * @param {Wish} wish
   * @param {string} step
   * @returns {Hold[]}
   */
  hold(waiting, wish, step, value = "") {
    const note = this.reader.notes.get(step);
    return note ? [{ step, line: note.line, callers: this.callers(step), stand: this.stand(waiting, wish, goroutineOf(step)), value }] : [];
  }

  /**
   * @param {string} waiting
   * @param {Wish} wish
   * @param {string} name
   * @returns {Stand}
   */
  stand(waiting, wish, name) {
    if (name === waiting) return "self";
    if (!this.goroutines.some((it) => it.name === name)) return "done";
    return this.verbs(name, wish).length ? "may" : "never";
  }
}

/**
 * @param {Verb} verb
 * @param {string} channel
 * @returns {Wish}
 */
const wishOf = (verb, channel) => ({ verb, channel, number: 0, value: "", variable: "", capacity: 0, isRange: false, servers: [], behind: [], items: [], taken: null, last: null });

// The fewest goroutines of which each waits for the next one, and the last one for the first; none where there is no cycle. A cycle from
// which a way leads to a goroutine that does not wait may still come loose, and is none.
/**
 * @param {Wait[]} waits
 * @returns {string[]}
 */
export function cycleAmong(waits) {
  const edges = new Map(waits.map((wait) => [wait.goroutine, waitsFor(wait)]));
  const helpers = new Map(waits.map(({ goroutine, wishes }) => [goroutine, wishes.flatMap(({ servers }) => servers.map((it) => it.goroutine))]));
  /** @type {string[]} */
  let best = [];
  for (const start of edges.keys()) {
    const path = comesLoose(start, helpers) ? [] : pathBack(start, edges);
    if (path.length && (!best.length || path.length < best.length)) best = path;
  }
  return best;
}

// Whether one that waits may be served by way of a goroutine that does not wait.
/**
 * @param {string} start
 * @param {Map<string, string[]>} helpers all that may serve each one, also beside those that hold a lock
 */
function comesLoose(start, helpers) {
  const reached = new Set([start]);
  for (const name of reached) {
    if (!helpers.has(name)) return true;
    for (const next of helpers.get(name) || []) reached.add(next);
  }
  return false;
}

// The shortest way from a goroutine over those it waits for back to itself.
/**
 * @param {string} start
 * @param {Map<string, string[]>} edges
 */
function pathBack(start, edges) {
  const ways = [[start]];
  const seen = new Set([start]);
  for (const way of ways) {
    for (const next of edges.get(way[way.length - 1]) || []) {
      if (next === start) return way;
      if (seen.has(next)) continue;
      seen.add(next);
      ways.push([...way, next]);
    }
  }
  return [];
}
