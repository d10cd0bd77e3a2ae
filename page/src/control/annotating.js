// Finds in the background what the log does not tell, and shows it as it is found: clauses that are ready, statements, prints, edges.

import { isUnanswered } from "../engine/remote.js";
import { readyClauses } from "../session/copy.js";
import { erred } from "./losses.js";
import { pause } from "../element.js";
import { shownOf } from "../picture/shown.js";
import { standingOf } from "../waiting/standing.js";
import { FOLLOWED } from "../session/notes.js";
import { stepName } from "../engine/protocol.js";
import { phrase } from "../phrases.js";

const WHOLE = 20000; // in a log of up to this many steps each has a note; of a longer one those in view
export const ALL_EDGES = 5000; // of a longer log only the edges into the steps around the view are found
const NEAR = 10; // so many steps above and below it
const AHEAD = 150000; // steps: in a longer log, causes and consequences are asked only when they are wanted

export class Annotating {
  /** @param {import("./page.js").Page} page */
  constructor(page) {
    this.page = page;
    this.done = -1; // the stamp up to which everything is found
    this.timer = 0;
    this.work = Promise.resolve();
    this.turns = 0; // how often something was looked for
    /** @type {Map<string, string>} */
    this.functionOf = new Map();
    /** @type {import("../session/session.js").Session | null} */
    this.session = null;
  }

  /** @param {number} stamp */
  begin(stamp) {
    const turn = ++this.turns;
    this.work = this.work.then(() => this.find(stamp, turn)).then(() => {}, (fault) => this.failed(fault));
  }

  /** @param {unknown} fault */
  failed(fault) {
    this.done = this.page.stamp;
    if (!isUnanswered(fault)) erred(this.page, fault);
  }

  // Resolves when everything about the present state is found and shown.
  async settled() {
    while (this.page.session && !this.page.session.gone && this.done !== this.page.stamp) {
      await this.work;
      await pause();
    }
    await new Promise((go) => requestAnimationFrame(go));
    await pause();
  }

  /**
   * @param {number} stamp
   * @param {number} turn
   */
  async find(stamp, turn) {
    const { page } = this;
    const { session } = page;
    const isOld = () => stamp !== page.stamp || session !== page.session;
    if (!session || isOld()) return;
    await this.findClauses(session);
    if (isOld()) return;
    const [from, to] = this.wanted(session).edges;
    await session.order.find(from, to);
    if (isOld()) return;
    await this.note(session, isOld);
    if (isOld()) return;
    await this.findStanding(session, isOld);
    if (isOld()) return;
    this.done = stamp;
    this.show();
    page.tell();
    const isOver = () => isOld() || turn !== this.turns;
    const { length } = session.log;
    if (length > ALL_EDGES && length <= AHEAD) await this.askAhead(session, isOver);
  }

  // Shows what was found since.
  show() {
    const { page } = this;
    this.functions();
    if (page.session) page.views.picture.update({ log: page.session.log, ...shownOf(page) }, this.edges());
    page.views.overview.draw();
    page.views.columns.show(page);
    page.pointing.draw();
    page.showControls();
  }

  /** @param {import("../session/session.js").Session} session */
  async findClauses(session) {
    const { scene } = session;
    if (session.log.isOver) return;
    if (scene.isPartial) scene.isStuck = await session.reader.isStuck();
    const clauses = await readyClauses(session, scene.goroutines);
    scene.clauses = clauses;
    if (clauses.size && scene === this.page.session?.scene && !this.page.past.isOn) this.page.showScene(scene);
  }

  // The rows that are to have notes, and those that are to have values in them and edges.
  /** @param {import("../session/session.js").Session} session */
  wanted({ log }) {
    const [from, to] = this.page.views.picture.stepsInView();
    const near = [Math.max(0, from - NEAR), Math.min(log.length, to + NEAR)];
    return { notes: log.length <= WHOLE ? [0, log.length] : near, edges: log.length <= ALL_EDGES ? [0, log.length] : near };
  }

  /**
   * @param {import("../session/session.js").Session} session
   * @param {() => boolean} isOld
   */
  async note(session, isOld) {
    let shown = performance.now();
    const seen = () => {
      if (performance.now() - shown < 400 || isOld()) return;
      this.page.views.picture.update({ log: session.log, ...shownOf(this.page) }, this.edges());
      shown = performance.now();
    };
    const { edges: near, notes: all } = this.wanted(session); // what is in view comes first
    await session.notes.find(near[0], near[1], { hasValues: session.log.length <= FOLLOWED, isOld, seen });
    await session.notes.find(all[0], all[1], { hasValues: false, isOld, seen });
  }

  // Asks the causes and consequences of the steps in view, one after another, so that a command waits for one answer at most.
  /**
   * @param {import("../session/session.js").Session} session
   * @param {() => boolean} isOver
   */
  async askAhead({ log, known }, isOver) {
    try {
      for (const { id } of log.steps(...this.page.views.picture.stepsInView())) if (!isOver() && !known.has(id)) await known.of(id);
    } catch (fault) {
      if (!isUnanswered(fault)) throw fault;
    }
  }

  // After scrolling in a long log, finds what came into view.
  scrolled() {
    const { page } = this;
    page.views.overview.draw();
    clearTimeout(this.timer);
    if (!page.session || page.session.log.length <= ALL_EDGES) return;
    this.timer = window.setTimeout(() => this.done === page.stamp && this.begin(page.stamp), 80);
  }

  // Where the program goes on no more, who waits for whom.
  /**
   * @param {import("../session/session.js").Session} session
   * @param {() => boolean} isOld
   */
  async findStanding(session, isOld) {
    const { scene, log } = session;
    const goesOn = !log.length || !(log.isOver || scene.isStuck);
    const found = goesOn || log.length > FOLLOWED ? null : await standingOf(session, this.page.given);
    if (!isOld()) this.page.standing = found;
  }

  // The edges that are found, of the whole log or around the view.
  edges() {
    const { session } = this.page;
    if (!session) return [];
    const [from, to] = this.wanted(session).edges;
    const edges = [];
    for (let row = from; row < to; row++) edges.push(...(session.order.edges.get(session.log.id(row)) || []));
    return edges;
  }

  // The function that each goroutine runs, by its outermost frame or, where it is done, by its first step.
  functions() {
    const { session } = this.page;
    if (session !== this.session) this.functionOf = new Map();
    this.session = session;
    for (const { name, frames } of session?.scene.goroutines || []) {
      const outermost = frames[frames.length - 1];
      const called = outermost?.name || session?.reader.facts.of(stepName(name, 1))?.at?.function;
      if (called) this.functionOf.set(name, called);
    }
    return this.functionOf;
  }

  // Whether the statement of each step is found, or will be.
  get isWhole() {
    const { session } = this.page;
    return Boolean(session && session.log.length <= WHOLE);
  }

  // What the picture does not show, in words, or "".
  get missing() {
    const { session } = this.page;
    if (!session) return "";
    const { log } = session;
    if (log.length > FOLLOWED) return phrase("Of a log of more than {most} steps no values and prints are read, and arrows are drawn into the steps that are in view.", { most: FOLLOWED });
    if (log.length > ALL_EDGES) return phrase("Of this long log, arrows are drawn into the steps that are in view.");
    return "";
  }
}
