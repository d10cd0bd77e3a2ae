// The dialog with a schedule that ends badly beside one that ends well: the step where they part stands in the middle. A bar has the ends
// of schedules that were drawn by chance, each with its number, and each opens its schedule.

import { aligned } from "./aligning.js";
import { aroundOf } from "./partner.js";
import { button, field, find, make } from "../element.js";
import { drawn, followed, knownSteps } from "./pictures.js";
import { isBad } from "./drawing.js";
import { isUnanswered } from "../engine/remote.js";
import { phrase } from "../phrases.js";

const LONGEST = 1000; // steps of a schedule that is shown
const PRINTED = 40; // letters

/** @typedef {import("../control/page.js").Page} Page */
/** @typedef {import("./drawing.js").Schedule} Schedule */
/** @typedef {import("./partner.js").Around} Around */

const dialog = () => /** @type {HTMLDialogElement} */ (find("parting-dialog"));

// How a schedule ends, in words.
/**
 * @param {Page} page
 * @param {Schedule} schedule
 */
function endText({ words }, { end, fault, printed, commands }) {
  const lines = printed.join(" ").slice(0, PRINTED);
  if (end === "ended") return lines ? phrase("ends, and prints “{lines}”", { lines }) : phrase("ends, and prints nothing");
  if (end === "deadlock") return phrase("a deadlock");
  return end === "panic" ? phrase("panic: {fault}", { fault: words.fault(fault) }) : phrase("goes on after {count} steps", { count: commands.length });
}

// Finds a good schedule for what a search has found, and shows both.
/** @param {Page} page */
export async function showParting(page) {
  const { session, searched } = page;
  if (!session || !searched?.isBad || page.hindrance) return;
  try {
    const around = await page.moving(() => aroundOf(page, session, searched));
    if (!around || session !== page.session) return;
    page.say(searched.sentence);
    showOutcomes(page, around);
    dialog().showModal();
    await showBeside(page, around, around.bad);
  } catch (fault) {
    if (!isUnanswered(fault)) throw fault;
    page.say(phrase("The search could not go on: {reason}.", { reason: /** @type {Error} */ (fault).message }), "bad");
  }
}

/**
 * @param {Page} page
 * @param {Around} around
 */
function showOutcomes(page, around) {
  const { outcomes, drawn: count } = around;
  find("outcomes-text").textContent = count ? phrase("{count} schedule was drawn by chance from here: | {count} schedules were drawn by chance from here:", { count }) : "";
  const bar = outcomes.map(({ count: number, shown }) =>
    button({ class: isBad(shown) ? "ends-badly" : "", style: `flex-grow:${number}`, onclick: () => void showBeside(page, around, shown) }, phrase("{count}: {end}", { count: number, end: endText(page, shown) })),
  );
  find("outcomes").replaceChildren(...bar);
}

/** @param {Around} around */
function blameText({ blamed, isHopeless }) {
  if (isHopeless) return phrase("No schedule of the program ends well.");
  return blamed ? phrase("{step} is to blame: before it some schedule ends well, and after it none does.", { step: blamed }) : "";
}

// Shows a schedule beside the good one, or alone where none is known.
/**
 * @param {Page} page
 * @param {Around} around
 * @param {Schedule} shown
 */
async function showBeside(page, around, shown) {
  const { session } = page;
  if (!session) return;
  [...find("outcomes").children].forEach((it, at) => it.setAttribute("aria-pressed", String(around.outcomes[at].shown === shown)));
  const { good } = around;
  find("parting-take").onclick = () => void take(page, shown);
  field("parting-take").disabled = !shown.commands.length;
  const isLong = [good, shown].some((it) => it && it.steps.length > LONGEST);
  const schedules = isLong ? [] : [good, shown].filter((it) => it !== null);
  const both = await Promise.all(schedules.map((it) => followed(page, session, /** @type {Schedule} */ (it))));
  const lines = aligned(knownSteps(both[0] || { log: { steps: () => [] } }), both.length > 1 ? knownSteps(both[1]) : []);
  const told = isLong ? phrase("A schedule of more than {most} steps is not drawn here.", { most: LONGEST }) : good ? partingText(both, lines) : lackText(around);
  find("parting-text").textContent = [blameText(around), told].filter((it) => it).join(" ");
  drawBoth(page, both, lines);
}

/** @param {Around} around */
const lackText = ({ drawn: from, tried, isHopeless }) => (isHopeless ? "" : phrase("No good schedule is known: of {count} that were drawn none ends well.", { count: from + tried }));

// The step of a schedule that stands on a line, or "".
/**
 * @param {import("./pictures.js").Followed} of
 * @param {number[]} lines
 * @param {number} line
 */
const stepAt = ({ log }, lines, line) => (lines.includes(line) ? log.id(lines.indexOf(line)) : "");

/**
 * @param {import("./pictures.js").Followed[]} both
 * @param {import("./aligning.js").Aligned} lines
 */
function partingText([one, other], { left, right, shared, parting }) {
  if (parting < 0) return phrase("Both are the same schedule.");
  const [ours, theirs] = [stepAt(one, left, parting), stepAt(other, right, parting)];
  if (!ours || !theirs) return phrase("The two have {count} step in common. They part at {step}. | The two have {count} steps in common. They part at {step}.", { count: shared, step: ours || theirs });
  return phrase("The two have {count} step in common. They part where {left} stands beside {right}. | The two have {count} steps in common. They part where {left} stands beside {right}.", { count: shared, left: ours, right: theirs });
}

/**
 * @param {Page} page
 * @param {import("./pictures.js").Followed[]} both
 * @param {import("./aligning.js").Aligned} lines
 */
function drawBoth(page, both, { left, right, parting }) {
  const height = Math.max(...left, ...right, 0) + 1;
  const room = Math.floor(find("schedules").clientWidth / both.length) - 2;
  const shownLines = [left, right];
  const columns = both.map((of, at) => {
    const others = new Set(shownLines[1 - at]);
    const own = new Set(both.length > 1 ? of.log.steps(0, of.log.length).filter(({ row }) => !others.has(shownLines[at][row]) || differs(both, shownLines, row, at)).map(({ id }) => id) : []);
    const { svg, top } = drawn(of, shownLines[at], { own, parting: both.length > 1 ? stepAt(of, shownLines[at], parting) : "", height, room });
    const picture = make("div", { class: "schedule", tabindex: "0", "data-parting": String(top(Math.max(0, parting))) });
    picture.innerHTML = svg;
    return make("figure", {}, make("figcaption", {}, endText(page, of.schedule)), picture);
  });
  find("schedules").replaceChildren(...columns);
  const middle = Number(find("schedules").querySelector(".schedule")?.getAttribute("data-parting") || 0);
  find("schedules").scrollTop = Math.max(0, middle - find("schedules").clientHeight / 2);
}

// Whether the steps that stand on one line are different ones.
/**
 * @param {import("./pictures.js").Followed[]} both
 * @param {number[][]} lines
 * @param {number} row
 * @param {number} at
 */
function differs(both, lines, row, at) {
  const there = lines[1 - at].indexOf(lines[at][row]);
  return both[at].log.id(row) !== both[1 - at].log.id(there);
}

// Takes the steps of a schedule in the session of the user.
/**
 * @param {Page} page
 * @param {Schedule} schedule
 */
async function take(page, { commands }) {
  dialog().close();
  if (page.hindrance) return page.say(page.hindrance, "bad");
  await page.replay(commands);
  page.say(phrase("{count} step of the schedule was taken. | {count} steps of the schedule were taken.", { count: commands.length }));
}
