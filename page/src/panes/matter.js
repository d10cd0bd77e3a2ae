// The row above the picture, which is always there: one sentence on how things stand, and one button for what can be done about it.

import { field, find, make } from "../element.js";
import { inSteps, numeral, phrase, pieces } from "../phrases.js";
import { showWhy } from "./why.js";

/** @typedef {import("../control/page.js").Page} Page */

const BUTTONS = ["stop", "bring-back", "now", "show-line", "follow", "back", "show-why", "run-on", "again"];
const LONG = 120; // letters: a longer sentence is written smaller

// What the last command came to, and how far a long run is.
export const status = {
  tone: "",
  isRunning: false,
  /**
   * @param {string} text
   * @param {string} tone
   */
  say(text, tone = "") {
    find("status").textContent = text;
    find("status").classList.toggle("bad", tone === "bad");
    status.tone = tone;
  },
  // Of no steps at all, there is no run.
  /**
   * @param {number} taken
   * @param {number} count
   */
  progress(taken, count) {
    status.isRunning = count > 0;
    find("stop").hidden = find("run-shown").hidden = !count;
    /** @type {HTMLProgressElement} */ (find("progress")).value = count ? taken / count : 0;
    find("taken").textContent = count ? phrase("{taken} of at most {count} step | {taken} of at most {count} steps", { taken, count }) : "";
  },
  // A search goes on, of which nobody can tell how far it is.
  /** @param {number} seconds */
  searching(seconds) {
    status.isRunning = true;
    find("stop").hidden = find("run-shown").hidden = false;
    find("progress").removeAttribute("value");
    find("taken").textContent = phrase("all schedules are searched: {seconds} s", { seconds: numeral(seconds) });
  },
};

// What a search has found, as long as it is about what is seen.
/** @param {Page} page */
const searchedBy = ({ searched, pointing, past }) => (searched && searched.pinned === pointing.pinned && !past.isOn ? searched : null);

// Which button there is. The picture of a log without steps has buttons of its own.
/**
 * @param {Page} page
 * @param {{tone: string} | null} state
 */
function buttonFor(page, state) {
  const { session, past, pointing, refusedLine } = page;
  if (status.isRunning) return "stop";
  if (session?.gone) return "bring-back";
  if (session && past.isOn) return "now";
  if (refusedLine && status.tone === "bad") return "show-line";
  if (!session) return "";
  if (searchedBy(page)?.commands.length) return "follow";
  if (pointing.pinned && pointing.about) return "back";
  if (state?.tone === "stuck") return "show-why";
  if (!session.log.length) return "";
  return session.log.isOver ? "again" : "run-on";
}

// What is said of the past state that is shown, or looked for.
/** @param {Page} page */
function pastText({ past: it, session }) {
  if (!it.isOn || !session || it.row > session.log.length) return "";
  const count = session.log.length;
  const of = it.row ? phrase("the state after step {row}, {step}, of {count} step | the state after step {row}, {step}, of {count} steps", { row: it.row, step: session.log.id(it.row - 1), count }) : phrase("the state before the first step of {count} step | the state before the first step of {count} steps", { count });
  const onTheWay = it.isMissed ? phrase("This page cannot find {state}.", { state: of }) : phrase("On the way to {state}: now at step {row}.", { state: of, row: session.reader.place });
  return it.found === it.row ? phrase("This is {state}. Nothing is changed.", { state: of }) : onTheWay;
}

// What is said of a step that is chosen while the program can go on.
/** @param {Page} page */
function chosenText({ pointing: { about, pinned } }) {
  if (!about || !pinned) return null;
  const causes = about.causes ? make("span", { class: "cause-word" }, `${inSteps(about.causes)} ↑`) : phrase("no other step");
  const goes = about.consequences ? make("span", { class: "consequence-word" }, `${inSteps(about.consequences)} ↓`) : phrase("nothing else");
  return pieces("{step} is because of {causes}, and with it goes {goes}. | {step} is because of {causes}, and with it go {goes}.", { step: make("strong", {}, about.id), causes, goes, count: about.consequences || 1 });
}

// A sentence whose first words, up to a colon or a full stop before a blank, say what the matter is.
/** @param {string} text */
export function led(text) {
  const { index } = /[:.](?=\s)|[：。]|$/.exec(text) || { index: text.length };
  return [make("strong", {}, text.slice(0, index + 1)), text.slice(index + 1)];
}

// What is seen: how things stand, or else what the last command came to. What is only said again is not spoken again.
/**
 * @param {Page} page
 * @param {string} short
 * @param {boolean} isToldOff
 */
function sentenceOf(page, short, isToldOff) {
  const said = String(find("status").textContent);
  const again = (/** @type {string} */ tone) => [make("span", { class: tone, "aria-hidden": "true" }, said)];
  if (status.isRunning) return [];
  if (isToldOff) return again("bad");
  if (page.past.isOn) return [make("span", { id: "then-text" }, pastText(page))];
  if (searchedBy(page)) return led(said);
  return (short && led(short)) || chosenText(page) || again(status.tone);
}

// Shows a sentence in an element of its own, so that no line of it is one that has moved.
/** @param {(Node | string)[]} parts */
function showSentence(parts) {
  const line = make("p", { id: "headline" }, ...parts);
  line.classList.toggle("long", String(line.textContent).length > LONG);
  if (line.innerHTML !== find("headline").innerHTML) find("headline").replaceWith(line);
}

/** @param {Page} page */
export function showMatter(page) {
  const { session, words, standing, note, past, pointing } = page;
  const state = session && !past.isOn ? words.state(session, standing, note) : null;
  const shown = buttonFor(page, state);
  for (const id of BUTTONS) find(id).hidden = id !== shown;
  find("show-parting").hidden = !searchedBy(page)?.isBad || status.isRunning || Boolean(session?.gone);
  if (shown === "follow") find("follow").textContent = phrase("Take it | Take these {count}", { count: page.searched?.commands.length || 0 });
  if (shown === "back" && pointing.about) find("back").textContent = takeBackText(pointing.about.consequences + 1);
  const isToldOff = status.tone === "bad" || Boolean(session?.gone);
  showSentence(sentenceOf(page, session && state ? words.headline(session, standing, note) : "", isToldOff));
  find("matter").className = status.isRunning ? "" : isToldOff ? "stuck" : past.isOn ? "past" : searchedBy(page)?.tone ?? state?.tone ?? "";
  showWhy(page, state);
}

// The words of the button that takes steps back.
/** @param {number} count */
export const takeBackText = (count) => phrase("Take this step back | Take these {count} back", { count });

export const past = {
  /** @param {Page} page */
  show(page) {
    document.body.classList.toggle("is-past", page.past.isOn);
    if (page.past.isOn) field("moment").value = String(page.past.row);
    showMoment(page);
    showMatter(page);
  },
};

// The slider of time.
/** @param {Page} page */
export function showMoment({ session, past: it }) {
  const slider = field("moment");
  const most = session?.log.length || 0;
  slider.max = String(most);
  slider.disabled = !most || Boolean(session?.gone);
  if (!it.isOn) slider.value = slider.max;
  const text = it.isOn ? phrase("after step {row} of {count}", { row: it.row, count: most }) : phrase("now");
  slider.setAttribute("aria-valuetext", text);
  find("moment-text").textContent = it.isOn ? phrase("{row} of {count}", { row: it.row, count: most }) : most ? phrase("now, {count} step | now, {count} steps", { count: most }) : "";
}
