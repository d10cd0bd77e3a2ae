// The views of the page over its elements.

import { toggleBreak } from "../control/breaks.js";
import { describeStep, showChosen } from "./chosen.js";
import { Editor } from "./editor.js";
import { Filter } from "./filter.js";
import { past, showMatter, showMoment, status } from "./matter.js";
import { showGhost } from "../picture/ghost.js";
import { Tabs, Views } from "./tabs.js";
import { NOTHING } from "../session/scene.js";
import { Overview } from "../picture/overview.js";
import { PictureView } from "../picture/view.js";
import { Stories } from "../lessons/stories.js";
import { Transcript } from "./transcript.js";
import { enable, field, find } from "../element.js";
import { showChannels, showConsole, showGoroutines } from "./panes.js";
import { phrase } from "../phrases.js";

/** @typedef {import("../control/page.js").Page} Page */

const refusal = {
  clear() {
    find("refusal").textContent = "";
  },
  /**
   * @param {string} text
   * @param {boolean} isAtItsLine
   */
  show(text, isAtItsLine) {
    find("refusal").textContent = text;
    find("refusal").classList.toggle("unseen", isAtItsLine);
  },
};

// Which buttons can be used.
const controls = {
  /** @param {Page} page */
  show(page, isStarting = false) {
    const { session } = page;
    const isRunning = isStarting || Boolean(session?.isRunning);
    const lives = Boolean(session) && !session?.gone && !isRunning;
    const goesOn = lives && !session?.log.isOver;
    for (const id of ["run", "step", "over", "alone", "to-line", "run-on", "run-it"]) enable(id, goesOn);
    find("step-of").textContent = page.chosen;
    find("alone-of").textContent = phrase("Run {goroutine} until it waits", { goroutine: page.chosen });
    field("count").disabled = !goesOn;
    for (const id of ["search-all", "search-whole", "follow", "show-parting"]) enable(id, lives && !page.isMoving);
    enable("undo", lives && Boolean(session?.log.length));
    enable("redo", lives && Boolean(session?.undone));
    find("redo").textContent = lives && session?.undone ? phrase("Redo {count}", { count: session.undone }) : phrase("Redo");
    for (const id of ["back", "bar-back"]) enable(id, lives && Boolean(page.pointing.about && page.pointing.pinned) && !page.past.isOn);
    for (const id of ["save", "save-png", "save-moving", "save-shiviz", "save-mermaid", "save-csv"]) enable(id, Boolean(session?.log.length));
    showStart(page);
    showStory(page, lives);
    showGhost(page);
    page.player.show();
    find("gone").textContent = session?.gone ? phrase("The session is gone. Its steps can be taken again.") : "";
    find("picture-note").textContent = page.annotating.missing;
    showMoment(page);
  },
};

/**
 * @param {Page} page
 * @param {boolean} lives
 */
function showStory({ session, views: { stories, editor } }, lives) {
  const isOfStory = stories.isOf(session?.source || "");
  find("next").hidden = !stories.commands.length || !isOfStory;
  enable("next", lives && stories.next !== undefined);
  find("next").title = stories.next ? phrase("The story goes on with: {command} (n)", { command: stories.next.slice(0, 80) }) : phrase("The story gives no more commands");
  const isText = stories.isOf(editor.text);
  find("about-story").hidden = !isText;
  find("told").classList.toggle("empty", !isText);
  stories.menu.value = isText ? stories.name : "";
}

// The button that checks the source is there where the text is another one than that of the session.
/** @param {Page} page */
function showStart({ session, views }) {
  const isStale = Boolean(session) && session?.source !== views.editor.text;
  find("stale").hidden = !isStale;
  find("carried").hidden = isStale || !session?.carried;
  find("start-bar").classList.toggle("wanted", isStale || !session);
}

// The views; `later()` gives the page, which is made after them.
/**
 * @param {Given} given
 * @param {() => Page} later
 * @param {import("./words.js").Words} words
 * @param {import("./panes.js").PaneEvents} on
 * @param {(line: number) => void} stepsOf
 */
export function makeViews(given, later, words, on, stepsOf) {
  const pointing = {
    point: (/** @type {string | null} */ id) => later().pointing.point(id),
    choose: (/** @type {string} */ id) => void later().pointing.choose(id),
    takeBack: (/** @type {string} */ id) => void later().pointing.takeBack(id),
    move: (/** @type {string} */ id, /** @type {number} */ row) => void later().pointing.move(id, row),
    scrolled: () => later().annotating.scrolled(),
  };
  const describe = (/** @type {Step} */ step) => describeStep(step, later().session?.origin.noted(later().note(step.id)), later().session?.log.length || 0, (kind) => words.kind(kind));
  const picture = new PictureView(find("picture"), pointing, describe);
  const editorEvents = {
    open: () => void later().open(),
    change: () => later() && later().tell(),
    toggleBreak: (/** @type {number} */ line) => void toggleBreak(later(), line),
    stepsOf,
  };
  const editor = new Editor(find("editor"), editorEvents);
  return {
    editor,
    picture,
    overview: new Overview(/** @type {HTMLCanvasElement} */ (find("overview")), picture),
    transcript: new Transcript(find("transcript"), (code) => words.meaning(code)),
    stories: new Stories(/** @type {HTMLSelectElement} */ (find("story")), find("about-story"), given),
    panes: {
      goroutines: (/** @type {Scene} */ scene, /** @type {Parameters<typeof showGoroutines>[2]} */ how) => showGoroutines(find("goroutines"), scene, how, on),
      channels: (/** @type {Scene} */ scene) => showChannels(find("channels"), scene, on),
      console: (/** @type {Scene} */ scene) => showConsole(find("console"), scene, on),
    },
    tabs: new Tabs(find("tabs")),
    windows: new Views(find("views"), () => editor.refresh()),
    status, refusal, controls, past, state: { show: showMatter },
    columns: new Filter(find("columns-list"), picture, later),
    chosen: { show: showChosen },
    nothing: NOTHING,
  };
}
