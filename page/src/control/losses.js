// What goes wrong around a session: it has ended, its panes cannot be shown, or the page has made an error of its own. Each is told as
// what it is, with what to do.

import { showBreaks } from "./breaks.js";
import { isUnanswered } from "../engine/remote.js";
import { Session } from "../session/session.js";
import { phrase } from "../phrases.js";

/** @typedef {import("./page.js").Page} Page */

// Tells what went wrong with a command, or with what is shown of its session.
/**
 * @param {Page} page
 * @param {Session} session
 * @param {unknown} fault
 */
export function lost(page, session, fault) {
  if (!isUnanswered(fault)) return erred(page, fault);
  if (session !== page.session || session.isLeft) return;
  if (session.gone) gone(page, session);
  else blinded(page, /** @type {Error} */ (fault).message);
}

// The user's session answers no more.
/**
 * @param {Page} page
 * @param {Session} session
 */
function gone(page, session) {
  page.views.transcript.fault(phrase("The session is gone: {reason}.", { reason: session.gone }));
  page.say(phrase("The session is gone: {reason}. What was printed and drawn is that of before.", { reason: session.gone }), "bad");
  page.showControls();
}

// What the page asks of the session was not answered. The session goes on.
/**
 * @param {Page} page
 * @param {string} reason
 */
export const blinded = (page, reason) => page.say(phrase("The session goes on, but its panes cannot be shown: {reason}. Take steps back to see it again.", { reason }), "bad");

// The page has made an error of its own. The session goes on: everything is read of it, and drawn, anew.
/**
 * @param {Page} page
 * @param {unknown} fault
 */
export function erred(page, fault) {
  const { session, isMending } = page;
  page.errors.push(String(fault));
  const error = phrase("This page has made an error of its own: {fault}.", { fault: String(fault) });
  page.views.transcript.fault(error);
  page.say(phrase("{error} Reload the page: it keeps your work.", { error }), "bad");
  if (!session || session.gone || isMending) return;
  page.isMending = true;
  const say = () => page.say(phrase("{error} The session goes on, and was read anew. If something looks wrong, reload the page: it keeps your work.", { error }), "bad");
  void mend(page, session).then((isMended) => isMended && say()).finally(() => (page.isMending = false));
}

/**
 * @param {Page} page
 * @param {Session} session
 */
async function mend(page, session) {
  try {
    page.pointing.clear();
    await session.renew();
    if (session !== page.session) return false;
    page.views.editor.refresh();
    return await page.refresh();
  } catch {
    return false; // it is told to load the page anew
  }
}

// Takes the kept commands again in a new session.
/** @param {Page} page */
export async function bringBack(page) {
  const { session, machine } = page;
  if (!session || !machine) return;
  const { commands, source, carried, breakpoints } = session;
  await page.doing(async () => {
    const fresh = await Session.open(machine, source, carried);
    await page.swap(fresh);
    await page.replay(commands);
    await fresh.setBreaks(breakpoints);
    showBreaks(page);
    page.say(phrase("{count} step taken again. | {count} steps taken again.", { count: fresh.log.length }));
  });
}
