// The page: it owns the present session and the views, and shows in them what each command came to. A session is swapped whole.

import { CHANGES, wordsOf } from "../engine/protocol.js";
import { Annotating } from "./annotating.js";
import { showBreaks, takeBreaks } from "./breaks.js";
import { readyClauses } from "../session/copy.js";
import { Session } from "../session/session.js";
import { endOfRun } from "../panes/words.js";
import { carriedOf } from "../panes/carrying.js";
import { lastOf, placeOf } from "./finding.js";
import { blinded, lost } from "./losses.js";
import { Past } from "./past.js";
import { Pointing } from "./pointing.js";
import { refuse } from "./refusing.js";
import { Player } from "../lessons/player.js";
import { Prediction } from "../lessons/prediction.js";
import { Tour } from "../lessons/tour.js";
import { shownOf } from "../picture/shown.js";
import { numeral, phrase } from "../phrases.js";

const PORTION = 2000; // a run of more steps shows how far it is
const LONGEST_LINE = 1000000; // bytes: the program takes no longer ones
export const MOST_STEPS = 1000000; // of one run

/** @typedef {ReturnType<typeof import("../panes/views.js").makeViews>} Views */

export class Page {
  /**
   * @param {Given} given
   * @param {Views} views
   * @param {import("../panes/words.js").Words} words
   */
  constructor(given, views, words) {
    this.given = given;
    this.views = views;
    this.words = words;
    /** @type {Machine | null} */
    this.machine = null;
    /** @type {Session | null} */
    this.session = null;
    this.chosen = "g0";
    this.openings = 0;
    this.busy = 0; // how many things are being done
    this.isMoving = false;
    this.isMending = false; // after an error of the page
    /** @type {string[]} */
    this.errors = []; // that the page has made
    this.refusedLine = 0; // of the source that was refused last
    this.stamp = 0; // of the state that is shown
    /** @type {import("../waiting/standing.js").Standing | null} */
    this.standing = null;
    /** @type {import("./searching.js").Searched | null} */
    this.searched = null;
    /** @type {import("../panes/why.js").Blame | null} */
    this.blame = null;
    /** @type {SearchedWhole | null} */
    this.searchedWhole = null;
    this.pointing = new Pointing(this);
    this.past = new Past(this);
    this.annotating = new Annotating(this);
    /** @type {((page: Page) => void)[]} */
    this.listeners = []; // told after each change of what is shown
    this.tour = new Tour(this);
    this.player = new Player(this);
    this.prediction = new Prediction(this);
  }

  /**
   * @param {string} text
   * @param {string} tone
   */
  say(text, tone = "") {
    this.views.status.say(text, tone);
    this.views.state.show(this);
  }

  // Counts something that is being done, and shows that it is.
  /**
   * @template T
   * @param {() => Promise<T>} act
   * @returns {Promise<T>}
   */
  async doing(act) {
    this.busy++;
    try {
      return await act();
    } finally {
      this.busy--;
      this.showControls();
    }
  }

  // Begins a session on the editor's text, if it is a program; else the session of before stays.
  async open() {
    const { machine, views } = this;
    const text = views.editor.text;
    if (!machine) return false;
    const opening = ++this.openings;
    views.editor.clearRefusal();
    views.refusal.clear();
    this.refusedLine = 0;
    return this.doing(async () => {
      try {
        const session = await Session.open(machine, text, carriedOf(text));
        if (opening !== this.openings) return session.leave(), false;
        await this.swap(session);
        return true;
      } catch (fault) {
        if (opening === this.openings) refuse(this, text, fault);
        return false;
      }
    });
  }

  /** @param {Session} session */
  async swap(session) {
    this.session?.leave();
    this.player.stop();
    this.session = session;
    this.chosen = "g0";
    this.standing = null;
    this.pointing.clear();
    this.past.leave();
    this.views.picture.hidden.clear();
    this.views.picture.channel = "";
    this.views.stories.restart();
    this.views.transcript.clear();
    this.views.transcript.remark(session.carried ? phrase("The source is carried over, and its program stands before its first step.") : phrase("The source is checked, and its program stands before its first step."));
    this.say(phrase("The program stands before its first step."));
    await takeBreaks(this);
    await this.refresh();
    this.showPlace();
  }

  // The goroutines that wait for each other, where it was found that some do.
  get cycle() {
    return this.standing?.cycle || [];
  }

  // The steps in which goroutines began to wait that are stuck: all in a deadlock, and leaks behind the end.
  get stuck() {
    const { session, standing } = this;
    if (!session?.log.length) return new Set();
    const isDeadlock = session.scene.isStuck && !session.log.isOver;
    const waiting = isDeadlock ? session.scene.goroutines.filter(({ state }) => state === "waiting").map(({ name }) => name) : [];
    const leaks = (standing?.fates || []).filter(({ ending }) => ending === "wait").map(({ goroutine }) => goroutine);
    return new Set([...waiting, ...leaks].map((name) => lastOf(session, name)));
  }

  // Why no command can be given now, or "".
  get hindrance() {
    if (!this.session) return phrase("There is no session yet: start one.");
    if (this.session.gone) return phrase("The session is gone: {reason}. Start it anew, or bring its steps back.", { reason: this.session.gone });
    return this.session.isRunning || this.isMoving ? phrase("A run is going on: stop it first.") : "";
  }

  // Performs one line of a command, as typed, and shows what came of it. Gives nothing where it was not performed.
  /**
   * @param {string} line
   * @returns {Promise<Reply | null>}
   */
  async perform(line) {
    const [text, session] = [line.trim(), this.session];
    if (!text) return null;
    const hindrance = this.hindrance || (text.length > LONGEST_LINE ? phrase("This is too long for one command: the program takes lines of up to {most} bytes.", { most: 1 << 20 }) : "");
    if (hindrance || !session) {
      this.showControls();
      return this.say(hindrance, "bad"), null;
    }
    const [word, count] = wordsOf(text);
    if (word === "run" && /^[1-9]\d{0,6}$/.test(count) && Number(count) > PORTION && Number(count) <= MOST_STEPS) return this.run(Number(count));
    return this.doing(() => this.performNow(session, text));
  }

  /**
   * @param {Session} session
   * @param {string} line
   */
  async performNow(session, line) {
    this.past.leave();
    try {
      const reply = await session.perform(line);
      if (session !== this.session) return null;
      this.views.transcript.add(line, reply);
      await this.after(line, reply);
      return reply;
    } catch (fault) {
      lost(this, session, fault);
      return null;
    }
  }

  /**
   * @param {string} line
   * @param {Reply} reply
   */
  async after(line, reply) {
    const [word] = wordsOf(line);
    this.say(this.words.reply(line, reply), reply.isOk ? "" : "bad");
    if (word === "quit" && reply.isOk) this.say(phrase("The session is ended. Start it to begin anew."));
    if (CHANGES.has(word)) await this.refresh();
    showBreaks(this);
    if (reply.words[1] === "B4") this.pointing.forbid(reply.words.slice(2));
  }

  // Performs commands one after another, and shows the state after the last.
  /** @param {string[]} commands */
  async replay(commands) {
    const { session } = this;
    if (!session) return;
    await this.doing(async () => {
      try {
        for (const line of commands) this.views.transcript.add(line, await session.perform(line));
      } catch (fault) {
        lost(this, session, fault);
      }
      if (session === this.session) await this.refresh();
    });
  }

  // A run of many steps: it shows how far it is, and can be stopped.
  /**
   * @param {number} count
   * @param {string} [asked]
   * @returns {Promise<Reply | null>}
   */
  async run(count, asked = `run ${count}`) {
    const { session } = this;
    if (this.hindrance || !session) return this.say(this.hindrance, "bad"), null;
    this.past.leave();
    return this.doing(async () => {
      const began = performance.now();
      const going = (/** @type {number} */ taken) => this.views.status.progress(taken, count);
      this.views.status.progress(0, count);
      this.showControls(true);
      try {
        const { taken, reason, reply } = await session.run(count, going);
        if (session !== this.session) return null;
        const told = reply || { lines: [], last: `ok ${taken} ${reason}`, words: ["ok", String(taken), ...reason.split(" ")], isOk: true };
        this.views.transcript.add(asked, told);
        if (await this.refresh()) this.say(phrase("{end} {seconds} s.", { end: reply ? this.words.reply(asked, reply) : endOfRun(taken, reason, this.words.where), seconds: numeral((performance.now() - began) / 1000, 1) }));
        return told;
      } catch (fault) {
        lost(this, session, fault);
        return null;
      } finally {
        this.views.status.progress(0, 0);
      }
    });
  }

  stop() {
    this.player.stop();
    this.isMoving = false;
    if (this.session) this.session.isRunning = false;
  }

  // Does a move of many steps, which can be stopped; no other command is taken meanwhile.
  /**
   * @template T
   * @param {() => Promise<T>} act
   * @returns {Promise<T>}
   */
  moving(act) {
    this.isMoving = true;
    return this.doing(act).finally(() => {
      this.isMoving = false;
      this.views.status.progress(0, 0);
      this.showControls();
    });
  }

  // Reads the session anew, and shows it. Says whether that was possible.
  async refresh() {
    const { session } = this;
    if (!session) return false;
    const stamp = ++this.stamp;
    let isShown = false;
    this.past.leave();
    this.standing = this.searched = this.blame = null;
    try {
      const { missing } = await session.look();
      if (stamp !== this.stamp) return true;
      if (missing) blinded(this, missing);
      if (!session.log.names.includes(this.chosen)) this.chosen = "g0";
      this.pointing.keepKnown();
      this.showScene(session.scene);
      this.showPicture();
      await this.pointing.color();
      this.tell();
      isShown = !missing;
    } catch (fault) {
      if (stamp === this.stamp) lost(this, session, fault);
    }
    this.annotating.begin(stamp);
    return isShown;
  }

  tell() {
    for (const listen of this.listeners) listen(this);
  }

  // The panes of the present, or of a past state.
  /** @param {Scene} scene */
  showScene(scene, isPast = false) {
    const { views, session, chosen } = this;
    const isOver = Boolean(session?.log.isOver) && !isPast;
    const canStep = !isOver && !isPast && !this.hindrance;
    views.panes.goroutines(scene, { chosen, isOver, canStep, program: session?.program || null });
    views.panes.channels(scene);
    views.panes.console(scene);
    if (session && views.editor.text === session.source) views.editor.markPlaces(scene.goroutines.map((it) => ({ ...it, line: placeOf(session, it) })));
    else views.editor.clearPlaces();
    this.showControls();
  }

  showControls(isRunning = false) {
    this.views.controls.show(this, isRunning);
    this.views.state.show(this);
  }

  // The note of a step, as far as it is found.
  /** @param {string} id */
  note = (id) => this.session?.notes.get(id);

  showPicture() {
    const { session, views } = this;
    if (session) views.picture.show({ log: session.log, ...shownOf(this) }, this.annotating.edges());
    views.overview.draw();
    views.columns.show(this);
  }

  // Scrolls the source to where the chosen goroutine stands.
  showPlace() {
    const line = this.session && placeOf(this.session, this.session.scene.goroutines.find((it) => it.name === this.chosen));
    if (line) this.views.editor.reveal(line);
  }

  /** @param {string} name */
  chooseGoroutine(name) {
    this.chosen = name;
    this.showScene(this.past.scene || this.session?.scene || { ...this.views.nothing }, this.past.isOn);
    this.showPlace();
  }

  /** @param {number} by */
  nextGoroutine(by) {
    const names = this.session?.scene.goroutines.map(({ name }) => name) || [];
    if (names.length) this.chooseGoroutine(names[(names.indexOf(this.chosen) + by + names.length) % names.length]);
  }

  /**
   * @param {string} goroutine
   * @param {number} [clause]
   */
  async step(goroutine, clause) {
    this.chosen = goroutine;
    const reply = await this.perform(clause ? `step ${goroutine} ${clause}` : `step ${goroutine}`);
    this.showPlace();
    return reply;
  }

  // The key of a clause: that one, where it can be taken.
  /** @param {number} number */
  async stepClause(number) {
    const { session } = this;
    if (!session || this.hindrance) return this.say(this.hindrance, "bad");
    try {
      const ready = session.scene.clauses.get(this.chosen) || (await readyClauses(session, session.scene.goroutines)).get(this.chosen) || [];
      if (!ready.some((it) => it.number === number)) return this.say(phrase("{goroutine} has no ready case {number}.", { goroutine: this.chosen, number }), "bad");
      return await this.step(this.chosen, number);
    } catch (fault) {
      lost(this, session, fault);
    }
  }

  // What is kept of the work, and shared: the text, the commands of the session where it is of that text, breakpoints and the story.
  /** @returns {import("./linking.js").Shared} */
  get work() {
    const { session, views } = this;
    const source = views.editor.text;
    const commands = session && session.source === source && session.isKept ? session.commands : [];
    const { name, own } = views.stories;
    const isOfStory = views.stories.isOf(source);
    return { source, commands, breaks: views.editor.breaks, name: isOfStory ? name : "", ...(isOfStory && own ? { lesson: own } : {}) };
  }

  // Resolves when everything about the present state is found and shown.
  settled() {
    return this.annotating.settled();
  }
}
