// The menu of stories and exercises, the commands that a story gives one after another, and what is told before each of them.

import { exerciseOf, fileNameOf, OWN, storyOf } from "./lesson.js";
import { lettersOf } from "../picture/labels.js";
import { make } from "../element.js";
import { phrase, phraseKey, translated } from "../phrases.js";

const LETTERS = 68; // of a line, about
const MOST_LINES = 6;
const LINE = 1.14; // the height of a line, and what is around them, as parts of a letter
const PADDING = 1.1;
const LEVELS = ["", phraseKey("Exercises: first steps"), phraseKey("Exercises: find the cause"), phraseKey("Exercises: make it happen")];

// A story with its texts in the language of the page.
/** @param {Story} story */
const inLanguage = (story) => ({ ...story, title: translated(story.title), shows: translated(story.shows), told: story.told.map(({ text, command }) => ({ text: translated(text), command })) });

export class Stories {
  /**
   * @param {HTMLSelectElement} menu
   * @param {HTMLElement} about
   * @param {Given} given
   */
  constructor(menu, about, given) {
    this.menu = menu;
    this.about = about;
    this.stories = given.stories.map(inLanguage);
    this.exercises = given.exercises.map((it) => ({ ...it, title: translated(it.title), task: translated(it.task), hint: translated(it.hint) }));
    /** @type {Story | null} */
    this.story = null;
    /** @type {Exercise | null} */
    this.exercise = null;
    /** @type {Lesson | null} */
    this.lesson = null; // of one's own, which was opened last
    this.at = 0;
    const option = (/** @type {{name: string, title: string}} */ { name, title }) => make("option", { value: name }, title);
    const shown = this.stories.filter(({ level }) => level);
    const groups = [...new Set(shown.map(({ level }) => level))].map((level) => make("optgroup", { label: translated(String(level)) }, ...shown.filter((it) => it.level === level).map(option)));
    const exercises = [1, 2, 3].map((level) => make("optgroup", { label: phrase(LEVELS[level]) }, ...this.exercises.filter((it) => it.level === level).map(option)));
    menu.append(make("option", { value: "" }, phrase("your own program")), ...groups, ...exercises);
  }

  // Turns to a story or an exercise; of another name to a program of one's own. Gives its source, or "".
  /** @param {string} name */
  choose(name) {
    this.story = name === OWN ? storyOf(this.lesson) : this.stories.find((it) => it.name === name) || null;
    this.exercise = name === OWN ? exerciseOf(this.lesson) : this.exercises.find((it) => it.name === name) || null;
    this.at = 0;
    this.menu.value = this.story || this.exercise ? name : "";
    this.show();
    return (this.story || this.exercise)?.source || "";
  }

  // Takes a story or an exercise of one's own into the menu, and turns to it. Gives its source.
  /** @param {Lesson} lesson */
  open(lesson) {
    this.lesson = lesson;
    this.menu.querySelector(`[value=${OWN}]`)?.remove();
    this.menu.options[0].after(make("option", { value: OWN }, lesson.title));
    return this.choose(OWN);
  }

  // Turns to what a link, a file or kept work holds: its own story or exercise, or the one that it names.
  /** @param {{lesson?: Lesson, name?: string}} shared */
  turnTo({ lesson, name = "" }) {
    return lesson ? this.open(lesson) : this.choose(name === OWN ? "" : name);
  }

  // The story or exercise of one's own that is at hand, or nothing.
  get own() {
    return this.name === OWN ? this.lesson : null;
  }

  // The name of a file of what is at hand.
  get fileName() {
    return this.own ? fileNameOf(this.own.title) : this.name;
  }

  // What a story or an exercise of the menu begins with, or nothing.
  /** @param {string} name */
  beginning(name) {
    const exercise = this.exercises.find((it) => it.name === name);
    const found = exercise || this.stories.find((it) => it.name === name);
    return found ? { name, source: found.source, commands: exercise?.before || [] } : null;
  }

  // The exercise behind the one at hand, or nothing.
  get nextExercise() {
    const at = this.exercises.findIndex(({ name }) => name === this.exercise?.name);
    return at < 0 ? undefined : this.exercises[at + 1];
  }

  // Marks exercises that were solved.
  /** @param {string[]} names */
  markSolved(names) {
    for (const option of this.menu.options) if (names.includes(option.value)) option.textContent = `✓ ${String(option.textContent).replace(/^✓ /, "")}`;
  }

  get name() {
    return (this.story || this.exercise)?.name || "program";
  }

  // Whether a text is that of the story or exercise. Where all schedules of a program are to end well, its text is to be changed.
  /** @param {string} text */
  isOf(text) {
    return Boolean(this.exercise?.goal.safe) || (this.story || this.exercise)?.source === text;
  }

  get commands() {
    return this.story?.told || [];
  }

  get next() {
    return this.commands[this.at]?.command;
  }

  // Goes to the next command.
  take() {
    this.at++;
    this.show();
  }

  restart() {
    this.at = 0;
    this.show();
  }

  // Goes to where these commands that changed a session have led.
  /** @param {string[]} done */
  catchUp(done) {
    let matched = 0;
    this.commands.forEach(({ command }, at) => {
      if (command !== done[matched]) return;
      matched++;
      this.at = at + 1;
    });
    this.show();
  }

  // The lines that the longest paragraph of the story takes, so that none of them moves what is below it.
  linesOf() {
    const shows = this.story?.shows || "";
    const texts = this.exercise ? [`${this.exercise.task}${" ".repeat(3 * LETTERS)}`] : [`${shows} ${this.commands[0]?.text || ""}`, ...this.commands.map(({ text }) => text)];
    const longest = Math.max(...texts.map(lettersOf));
    return Math.max(1, Math.min(MOST_LINES, Math.ceil(longest / LETTERS)));
  }

  show() {
    const isOver = this.at > 0 && this.at >= this.commands.length;
    const last = this.commands.slice(0, this.at + 1).filter(({ text }) => text).at(-1)?.text || "";
    this.about.parentElement?.style.setProperty("--told-height", `${this.linesOf() * LINE + PADDING}rem`);
    const told = isOver ? phrase("That was the story. Go on by yourself: point at steps, take them back.") : last;
    const shows = this.story?.shows || "";
    if (told && this.at) return this.about.replaceChildren(told);
    this.about.replaceChildren(/[\p{L}\p{N}]$/u.test(shows) && told ? phrase("{sentence}.", { sentence: shows }) : shows, ...(told ? [make("span", { class: "told" }, ` ${told}`)] : []));
  }
}
