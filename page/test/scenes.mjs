// Twenty looks of the page: what is shown in each, and in which window.

import { LOOP } from "./truths.mjs";

/** @typedef {{name: string, width: number, height: number, scheme?: string, media?: {name: string, value: string}[], paper?: boolean, show: (hands: Hands) => Promise<void>}} Scene */

const MANY = `package main

func wait(c chan int) { <-c }

func main() {
	c := make(chan int)
	for i := 0; i < 60; i++ { go wait(c) }
	c <- 1
}
`;

/** @param {Hands} hands */
async function deadlock(hands) {
  await hands.story("deadlock");
  await hands.perform("run 100");
}

// The deadlock of the first view, with its step chosen.
/** @param {Hands} hands */
async function chosen(hands) {
  await deadlock(hands);
  await hands.browser.run("rewind.page.pointing.show('g0.2#1')");
  await hands.until("document.querySelector('#preview s')");
}

/** @param {Hands} hands */
async function past(hands) {
  await hands.story("lost_update");
  await hands.perform("run 100");
  await hands.browser.run("rewind.page.past.lookAt(17)");
  await hands.until("rewind.page.past.scene");
}

/** @param {Hands} hands */
async function firstView({ browser }) {
  await browser.run("rewind.page.tour.begin().then(() => rewind.page.tour.leave())");
  await browser.run("rewind.page.settled()");
}

/** @param {Hands} hands */
async function tour({ browser }) {
  await browser.run("rewind.page.tour.begin().then(() => rewind.page.tour.go())");
}

/** @param {Hands} hands */
async function told(hands) {
  await hands.story("lost_update");
  for (let count = 0; count < 22; count++) await hands.act("next");
  await hands.browser.run("rewind.page.pointing.show('g0.2#1')");
  await hands.until("document.querySelector('#preview s')");
}

/** @param {Hands} hands */
async function longLog(hands) {
  await hands.source(LOOP);
  await hands.perform("run 20000");
  await hands.browser.run("document.getElementById('picture').scrollTop = 90000");
}

/** @param {Hands} hands */
async function searched(hands) {
  await chosen(hands);
  await hands.browser.run("document.getElementById('search-text').value = 'from', document.getElementById('search').onsubmit(new Event('submit'))");
}

// The dialog in which a story or an exercise is made.
/**
 * @param {Hands} hands
 * @param {string} kind
 */
async function author(hands, kind) {
  await deadlock(hands);
  await hands.browser.run(`document.getElementById('make-lesson').click(), document.getElementById('lesson-is-${kind}').click()`);
  await hands.browser.run(`document.getElementById("lesson-name").focus()`);
}

// Before a run of a story, with the answer to what was asked before it.
/**
 * @param {Hands} hands
 * @param {string} words
 */
async function asked(hands, words = "") {
  await hands.story("send_on_closed");
  await hands.browser.run(`location.hash = "#story=deadlock&ask${words}"`);
  await hands.until("document.body.classList.contains('asking') && rewind.page.views.stories.name === 'deadlock' && document.getElementById('options').children.length > 4");
  await hands.idle();
  await hands.browser.run("document.querySelectorAll('#options button')[0].click()");
  await hands.idle();
}

// In a frame of another page.
/** @param {Hands} hands */
async function frame(hands) {
  await hands.browser.run("location.hash = '#story=untie_the_deadlock&embed'");
  await hands.until("document.body.classList.contains('embed') && rewind.page.views.stories.name === 'untie_the_deadlock' && rewind.page.session.log.length === 16");
  await hands.idle();
  await hands.browser.run("rewind.page.pointing.show('g0.2#1')");
}

/** @type {{name: string, show: (hands: Hands) => Promise<void>}[]} */
const WIDE = [
  { name: "first view", show: firstView },
  { name: "tour", show: tour },
  { name: "chosen step", show: chosen },
  { name: "empty picture", show: (hands) => hands.story("send_on_closed") },
  { name: "story", show: told },
  { name: "prediction", show: asked },
  { name: "past state", show: past },
  { name: "exercise", show: (hands) => hands.story("untie_the_deadlock") },
  { name: "panic", show: async (hands) => (await hands.story("send_on_closed"), hands.perform("run 100")) },
  { name: "refused source", show: (hands) => hands.program("number_too_large") },
  { name: "sixty goroutines", show: async (hands) => (await hands.source(MANY), hands.perform("run 400")) },
  { name: "long log", show: longLog },
  { name: "search", show: searched },
  { name: "menu of the picture", show: async (hands) => (await chosen(hands), hands.browser.run("document.getElementById('view').click()")) },
  { name: "making a story", show: (hands) => author(hands, "story") },
  { name: "making an exercise", show: (hands) => author(hands, "exercise") },
  { name: "help", show: async (hands) => (await deadlock(hands), hands.browser.run("document.getElementById('help').click()")) },
];

const PHONE = { width: 390, height: 844 };
const FORCED = [{ name: "forced-colors", value: "active" }];

/** @type {Scene[]} */
export const SCENES = [
  ...WIDE.map((scene) => ({ ...scene, width: 1280, height: 720 })),
  { name: "phone", ...PHONE, show: chosen },
  { name: "source on a phone", ...PHONE, show: async (hands) => (await chosen(hands), hands.browser.run("rewind.page.views.windows.show('source')")) },
  { name: "state on a phone", ...PHONE, show: async (hands) => (await chosen(hands), hands.browser.run("rewind.page.views.windows.show('state')")) },
  { name: "making an exercise on a phone", ...PHONE, show: (hands) => author(hands, "exercise") },
  { name: "tablet", width: 820, height: 1180, show: past },
  { name: "zoom of 200 percent", width: 640, height: 360, show: chosen },
  { name: "prediction on a phone", ...PHONE, show: asked },
  { name: "prediction in a frame", width: 600, height: 400, show: (hands) => asked(hands, "&embed") },
  { name: "frame", width: 600, height: 400, show: frame },
  { name: "dark", width: 1280, height: 720, scheme: "dark", show: chosen },
  { name: "dark past state", width: 1280, height: 720, scheme: "dark", show: past },
  { name: "refused source in the dark", width: 1280, height: 720, scheme: "dark", show: (hands) => hands.program("number_too_large") },
  { name: "forced colours", width: 1280, height: 720, media: FORCED, show: chosen },
  { name: "presentation", width: 1920, height: 1080, show: async (hands) => (await deadlock(hands), hands.act("present")) },
  { name: "wide", width: 1920, height: 1080, show: told },
  { name: "paper", width: 1000, height: 1400, paper: true, show: chosen },
];
