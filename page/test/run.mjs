// Tests a page in browsers. Its path stands in PAGE, and the folder for pictures to look at in LOOKS. PART names one part alone, or is
// `short`: the example sessions, and one story. ROUNDS and SEED are those of the monkeys.

import assert from "node:assert/strict";
import { basename } from "node:path";
import { realGo } from "./carrying.mjs";
import { drawings } from "./drawings.mjs";
import { embedded } from "./embed.mjs";
import { exports } from "./exports.mjs";
import { inLanguages } from "./languages.mjs";
import { inputMethods } from "./insertions.mjs";
import { looks } from "./looks.mjs";
import { ownLessons } from "./own.mjs";
import { playing } from "./playing.mjs";
import { others } from "./others.mjs";
import { testOf } from "./parts.mjs";
import { sessions } from "./sessions.mjs";
import { firstStory, stories } from "./story.mjs";
import { access } from "./access.mjs";
import { searches } from "./searching.mjs";
import { lessons } from "./lesson.mjs";
import { roomAndRank } from "./room.mjs";
import { saidWords } from "./words.mjs";
import { hastyMonkey, monkey } from "./monkey.mjs";
import { predictions } from "./predicting.mjs";
import { speed } from "./speed.mjs";
import { truths } from "./truths.mjs";
import { wideModule } from "./wide.mjs";
import { works } from "./work.mjs";

const { PAGE = "", LOOKS = "", PART = "", ROUNDS, SEED } = process.env;
const SHORT = "short";

// The page says of its program whether it is proved, where it is named and in the help.
/**
 * @param {TestContext} _
 * @param {TestBrowser} browser
 */
async function build(_, browser) {
  const places = ["title", "h1", "#help-dialog"];
  const says = await browser.run(`${JSON.stringify(places)}.map((place) => /unproved build/.test(document.querySelector(place).textContent))`);
  const isUnproved = basename(PAGE) === "rewind-quick.html";
  assert.deepEqual(says, places.map(() => isUnproved), "the page says that it is an unproved build, in its title, heading and help");
}

const wide = new URL(`../out/${basename(PAGE, ".html")}.wide.wasm`, import.meta.url).pathname;
/**
 * @param {number} rounds
 * @param {number} seed
 */
const given = (rounds, seed) => ({ program: PAGE.replace(/\.html$/, ""), rounds: Number(ROUNDS) || rounds, seed: Number(SEED) || seed });

const ALL = [
  { name: "kind of build", part: build },
  { name: "sessions", part: sessions },
  { name: "the module with 64-bit addresses", part: (/** @type {TestContext} */ t, /** @type {TestBrowser} */ browser) => wideModule(t, browser, wide) },
  { name: "stories in one run that waits", part: stories },
  { name: "stories run anew for each exchange", part: stories, hash: "#repeat" },
  { name: "true in every state", part: truths },
  { name: "work that is kept", part: works },
  { name: "words", part: saidWords },
  { name: "input methods", part: inputMethods },
  { name: "room and rank", part: roomAndRank },
  { name: "for everybody", part: access },
  { name: "for a lesson", part: lessons },
  { name: "play", part: playing },
  { name: "of one's own", part: ownLessons },
  { name: "prediction", part: predictions },
  { name: "real Go", part: (/** @type {TestContext} */ t, /** @type {TestBrowser} */ browser) => realGo(t, browser, PAGE) },
  { name: "all schedules", part: searches },
  { name: "languages", part: (/** @type {TestContext} */ t, /** @type {TestBrowser} */ browser) => inLanguages(t, browser, PAGE) },
  { name: "drawings", part: drawings },
  { name: "files for other tools", part: exports },
  { name: "in a frame", part: (/** @type {TestContext} */ t, /** @type {TestBrowser} */ browser) => embedded(t, browser, { page: PAGE, folder: LOOKS }) },
  { name: "long logs", part: speed },
  { name: "a monkey", part: (/** @type {TestContext} */ t, /** @type {TestBrowser} */ browser) => monkey(t, browser, given(25, 1)) },
  { name: "a hasty monkey", part: (/** @type {TestContext} */ t, /** @type {TestBrowser} */ browser) => hastyMonkey(t, browser, given(15, 5000)) },
  { name: "a monkey without suspension", part: (/** @type {TestContext} */ t, /** @type {TestBrowser} */ browser) => monkey(t, browser, given(10, 1000)), hash: "#repeat" },
  { name: "looks", part: (/** @type {TestContext} */ t, /** @type {TestBrowser} */ browser) => looks(t, browser, LOOKS) },
  ...others,
];
const PARTS = PART === SHORT ? [...ALL.slice(0, 3), { name: "a story", part: firstStory }] : ALL.filter(({ name }) => !PART || name === PART);

assert.ok(PARTS.length, `there is no part '${PART}': the parts are ${ALL.map(({ name }) => name).join(", ")}`);
for (const part of PARTS) testOf(PAGE, part);
