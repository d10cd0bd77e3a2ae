// Asks before each command of a story what will come of it, gives the answer when the command was given, and counts.

import { button, find, make } from "../element.js";
import { nextOfStory } from "../control/telling.js";
import { questionFor, verdictOf } from "./questions.js";
import { phrase } from "../phrases.js";

/** @typedef {import("../control/page.js").Page} Page */
/** @typedef {import("./questions.js").Question} Question */

export class Prediction {
  /** @param {Page} page */
  constructor(page) {
    this.page = page;
    this.isOn = false;
    this.right = 0;
    this.asked = 0;
    this.shown = ""; // for which state the question is drawn
    /** @type {import("../session/session.js").Session | null} */
    this.session = null;
    page.listeners.push(() => this.show());
  }

  /** @param {boolean} isOn */
  set(isOn) {
    this.isOn = isOn;
    this.shown = "";
    find("ask-first").setAttribute("aria-pressed", String(isOn));
    this.show();
  }

  toggle() {
    this.set(!this.isOn);
    const { stories, editor } = this.page.views;
    if (this.isOn && !(stories.commands.length && stories.isOf(editor.text))) this.page.say(phrase("You are asked before each step of a story: choose one in the menu."));
  }

  // Another session begins to count anew.
  begin() {
    this.session = this.page.session;
    this.right = this.asked = 0;
    find("verdict").textContent = "";
  }

  show() {
    const { session, views, stamp } = this.page;
    const isOfStory = this.isOn && Boolean(session) && views.stories.commands.length > 0 && views.stories.isOf(session?.source || "");
    find("prediction").hidden = !isOfStory;
    document.body.classList.toggle("asking", isOfStory);
    if (!session || !isOfStory) return;
    if (this.session !== session) this.begin();
    const key = `${stamp} ${views.stories.at}`;
    if (key === this.shown) return;
    this.shown = key;
    find("score").textContent = this.asked ? phrase("{right} of {count} right", { right: this.right, count: this.asked }) : "";
    this.draw(session.log.isOver && /^(step|run)/.test(views.stories.next || "") ? null : questionFor(views.stories.next, session.scene));
  }

  /** @param {Question | null} question */
  draw(question) {
    const { next } = this.page.views.stories;
    find("question").textContent = question ? question.text : next === undefined ? phrase("The story has no more commands.") : phrase("Nothing is asked before the next command: press Next in story.");
    const parts = question ? [...(question.kind === "who" ? [] : [this.field(question)]), ...this.buttons(question)] : [];
    find("options").replaceChildren(...parts);
  }

  /** @param {Question} question */
  field(question) {
    const isCount = question.kind === "count";
    const onkeydown = (/** @type {KeyboardEvent} */ { key }) => {
      if (key === "Enter" && question.kind !== "end") void this.answer(question, {});
    };
    return make("input", { id: "guess", autocomplete: "off", size: isCount ? 6 : 16, inputmode: isCount ? "numeric" : "text", "aria-label": isCount ? phrase("How many steps") : phrase("What is printed"), placeholder: isCount ? "" : phrase("nothing"), onkeydown });
  }

  /** @param {Question} question */
  buttons(question) {
    if (!question.options.length) return [button({ onclick: () => this.answer(question, {}) }, phrase("Answer"))];
    return question.options.map((option) => button({ onclick: () => this.answer(question, { option }) }, question.kind === "end" ? phrase(option) : option));
  }

  // Gives the command of the story, and tells whether the guess was right.
  /**
   * @param {Question} question
   * @param {import("./questions.js").Guess} guess
   */
  async answer(question, guess) {
    const { page } = this;
    const { session } = page;
    const text = /** @type {HTMLInputElement | null} */ (document.getElementById("guess"))?.value || "";
    const before = session?.scene;
    const reply = await nextOfStory(page);
    if (!reply || !before || !session || session !== page.session) return;
    const { count, lines } = session.scene.console;
    const printed = count > before.console.count ? lines.slice(before.console.count - count) : [];
    const verdict = verdictOf(question, { ...guess, text }, { reply, printed, before });
    if (verdict) this.count(verdict);
    this.shown = "";
    this.show();
    /** @type {HTMLElement} */ (find("options").querySelector("input, button") || find("next")).focus();
  }

  /** @param {{isRight: boolean, text: string}} verdict */
  count({ isRight, text }) {
    this.asked++;
    if (isRight) this.right++;
    find("verdict").textContent = text;
    find("verdict").className = isRight ? "right" : "wrong";
  }
}
