// Plays by itself: a past run state by state, or a story command by command, or else a step of the program after another. Whatever a
// person does meanwhile ends it.

import { field, find } from "../element.js";
import { keepSettings, settings } from "../control/keeping.js";
import { nextOfStory } from "../control/telling.js";
import { phrase } from "../phrases.js";

/** @typedef {import("../control/page.js").Page} Page */

// Milliseconds from one state to the next, and for each letter of what is told meanwhile.
const PACES = /** @type {{[speed: string]: {state: number, letter: number}}} */ ({
  slow: { state: 2400, letter: 75 }, medium: { state: 1200, letter: 45 }, fast: { state: 350, letter: 20 },
});
const USUAL = "medium";
const LOOK = 40; // milliseconds between two looks at whether the page is busy
const OWN = "#play, #speed"; // what does not end it
const HELD = new Set(["Tab", "Shift", "Control", "Alt", "Meta"]); // keys that do nothing alone

/** @param {number} milliseconds */
const rest = (milliseconds) => new Promise((go) => setTimeout(go, milliseconds));

// Whether the goroutine that a run takes next, round robin in the order of their names, stands at a breakpoint.
/** @param {import("../session/session.js").Session} session */
function isAtBreak({ log, scene, breakpoints }) {
  const names = scene.goroutines.map(({ name }) => name);
  const after = log.length ? names.indexOf(log.columns[log.length - 1].name) + 1 : 0;
  const next = [...scene.goroutines.slice(after), ...scene.goroutines.slice(0, after)].find(({ state }) => state === "ready");
  return Boolean(next?.line && breakpoints.has(next.line));
}

export class Player {
  /** @param {Page} page */
  constructor(page) {
    this.page = page;
    this.turn = 0;
    this.isOn = false;
    const { speed } = settings();
    field("speed").value = PACES[speed] ? speed : USUAL;
    find("speed").onchange = () => keepSettings({ speed: field("speed").value });
    document.addEventListener("pointerdown", ({ target }) => /** @type {Element} */ (target).closest?.(OWN) || this.stop(), true);
    document.addEventListener("keydown", ({ key, target }) => HELD.has(key) || key === "k" || /** @type {Element} */ (target).closest?.(OWN) || this.stop(), true);
  }

  toggle() {
    if (this.isOn) return this.stop();
    return this.play();
  }

  stop() {
    this.turn++;
    if (!this.isOn) return;
    this.isOn = false;
    this.show();
    this.page.pointing.draw();
  }

  show() {
    const { session } = this.page;
    find("play").textContent = this.isOn ? phrase("Stop") : phrase("Play");
    field("play").disabled = !session || Boolean(session.gone) || session.isRunning;
  }

  async play() {
    const [turn, { session }] = [++this.turn, this.page];
    const goesOn = () => turn === this.turn && session === this.page.session && !session?.gone;
    this.isOn = true;
    this.show();
    try {
      while (goesOn() && (await this.go())) await rest(this.pace());
    } finally {
      if (turn === this.turn) this.stop(); // else somebody did, or plays anew
    }
  }

  // How long the state that is shown stays: long enough to read what is newly told of it.
  pace() {
    const { state, letter } = PACES[field("speed").value] || PACES[USUAL];
    const { commands, at } = this.page.views.stories;
    return Math.max(state, this.page.past.isOn ? 0 : letter * (commands[at]?.text.length || 0));
  }

  // Goes on by one state, and says whether there is another one.
  async go() {
    const { page } = this;
    while (page.busy) await rest(LOOK);
    const { session, past, views } = page;
    if (!session || page.hindrance) return false;
    if (past.isOn) return this.look(session, past.row + 1);
    if (views.stories.next !== undefined && views.stories.isOf(session.source)) {
      await nextOfStory(page);
      return views.stories.next !== undefined;
    }
    if (session.log.isOver || session.scene.isStuck) return Boolean(session.log.length) && this.look(session, 0);
    await page.perform("run 1");
    return !session.log.isOver && !session.scene.isStuck && !isAtBreak(session);
  }

  /**
   * @param {import("../session/session.js").Session} session
   * @param {number} row
   */
  async look(session, row) {
    await this.page.past.lookAt(row);
    return row < session.log.length;
  }
}
