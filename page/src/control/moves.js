// The moves of every debugger: over a statement, on with one goroutine until it waits, and to a line. Each step is one of the user's
// session, as if it were commanded by hand.

import { showBreaks } from "./breaks.js";
import { isWait } from "../session/edges.js";
import { lost } from "./losses.js";
import { Unanswered } from "../engine/remote.js";
import { phrase, phraseKey } from "../phrases.js";

const MOST = 2000; // steps of one move
const LONGEST_RUN = 1000000;
const STILL_WAITS = phraseKey("{goroutine} still waits, and nobody helped it on.");
const GOES_ON = phraseKey("{goroutine} goes on at {place}: the others ran until then.");
const NO_GOROUTINE = "N2"; // the code of a question about a goroutine that is not there

/** @typedef {import("./page.js").Page} Page */

// Tells what went wrong with a move. The chosen goroutine may have been taken back meanwhile.
/**
 * @param {Page} page
 * @param {import("../session/session.js").Session} session
 * @param {unknown} fault
 */
function missed(page, session, fault) {
  if (fault instanceof Unanswered && fault.code === NO_GOROUTINE) page.say(phrase("{goroutine} is not started any more.", { goroutine: page.chosen }), "bad");
  else lost(page, session, fault);
}

// Steps a goroutine until `isThere` holds of where it stands, or it waits, is done, or the program is over.
/**
 * @param {Page} page
 * @param {(at: Goroutine) => boolean} isThere
 */
async function stepUntil(page, isThere) {
  const { session, chosen } = page;
  if (!session || page.hindrance) return page.say(page.hindrance, "bad");
  await page.moving(async () => {
    try {
      const end = await stepping(page, session, isThere);
      if (session === page.session) await page.refresh();
      page.say(end);
      page.showPlace();
    } catch (fault) {
      missed(page, session, fault);
    }
  });
  page.chosen = chosen;
}

/**
 * @param {Page} page
 * @param {import("../session/session.js").Session} session
 * @param {(at: Goroutine) => boolean} isThere
 */
async function stepping(page, session, isThere) {
  const { chosen, views } = page;
  for (let count = 1; count <= MOST; count++) {
    if (!page.isMoving) return phrase("Stopped by you after {count} step. | Stopped by you after {count} steps.", { count: count - 1 });
    views.status.progress(count, MOST);
    const reply = await session.perform(`step ${chosen}`);
    views.transcript.add(`step ${chosen}`, reply);
    if (!reply.isOk) return page.words.reply(`step ${chosen}`, reply);
    const kind = reply.words.slice(2).join(" ");
    if (isWait(kind)) return phrase("{goroutine} waits now: step another goroutine, or run.", { goroutine: chosen });
    if (session.log.isOver) return page.words.reply(`step ${chosen}`, reply);
    const at = await session.reader.standing(chosen);
    if (at.state === "done") return phrase("{goroutine} is done.", { goroutine: chosen });
    if (isThere(at)) return phrase("{goroutine} stands at {place}.", { goroutine: chosen, place: session.origin.where(at.line || 0) });
    if (at.line && session.breakpoints.has(at.line)) return phrase("{goroutine} stopped at the breakpoint in {place}.", { goroutine: chosen, place: session.origin.where(at.line) });
  }
  return phrase("{count} steps were taken, and no end is in sight.", { count: MOST });
}

// Goes on to the next statement of the frame, or out of it; what it calls is passed. One that waits is helped: the others run until it
// goes on.
/** @param {Page} page */
export async function stepOver(page) {
  const { session, chosen } = page;
  if (!session || page.hindrance) return page.say(page.hindrance, "bad");
  return page.doing(async () => {
    try {
      const start = await session.reader.standing(chosen);
      if (start.state === "waiting") return await helpOn(page, session);
      const deep = start.frames.length;
      await stepUntil(page, ({ frames, statement }) => frames.length < deep || (frames.length === deep && statement !== start.statement));
    } catch (fault) {
      missed(page, session, fault);
    }
  });
}

// Lets the others run, a step each, until the chosen goroutine is ready.
/**
 * @param {Page} page
 * @param {import("../session/session.js").Session} session
 */
const helpOn = (page, session) => page.moving(async () => {
  for (let count = 0; count < MOST && page.isMoving; count++) {
    page.views.status.progress(count, MOST);
    const reply = await session.perform("run 1");
    if (!reply.isOk || reply.words[1] === "0") break;
    page.views.transcript.add("run 1", reply);
    if ((await session.reader.standing(page.chosen)).state !== "waiting") break;
  }
  await page.refresh();
  const { state, line } = await session.reader.standing(page.chosen);
  page.say(phrase(state === "waiting" ? STILL_WAITS : GOES_ON, { goroutine: page.chosen, place: session.origin.where(line || 0) }));
});

// Steps the chosen goroutine until it waits or is done.
/** @param {Page} page */
export const runAlone = (page) => stepUntil(page, () => false);

// Runs all goroutines to a line of the source.
/**
 * @param {Page} page
 * @param {number} line
 */
export async function runToLine(page, line) {
  const { session } = page;
  if (!session || page.hindrance) return page.say(page.hindrance, "bad");
  const goal = session.snap(line);
  if (!goal) return page.say(phrase("There is no statement at this line or below."), "bad");
  if (session.breakpoints.has(goal)) return page.run(LONGEST_RUN);
  session.goal = goal;
  return page.doing(async () => {
    try {
      await session.perform(`break ${goal}`);
      await page.run(LONGEST_RUN);
      if (!session.gone) await session.perform(`clear ${goal}`);
    } catch (fault) {
      lost(page, session, fault);
    } finally {
      session.goal = 0;
      showBreaks(page);
    }
  });
}
