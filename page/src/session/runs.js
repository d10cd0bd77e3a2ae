// A long run in portions, so that it shows how far it is and can be stopped.

const FIRST = 2000; // steps of the first portion; a run of no more is asked for at once
const MOST = 50000;
const MILLISECONDS = 100; // that a portion should take

// Runs up to `count` steps with `run(steps)`, which performs one run and gives its reply, and `undo()`. `goesOn(taken)` says whether
// to go on. Returns the steps taken, and the reason of the end.
//
// A run looks for breakpoints before each of its steps but the first. So where there are breakpoints, a portion begins with the last
// step of the one before, which is taken back first: else a breakpoint between two portions would be passed.
/**
 * @param {{run: (steps: number) => Promise<Reply>, undo: () => Promise<Reply>, hasBreaks: () => boolean}} session
 * @param {number} count
 * @param {(taken: number) => boolean} goesOn
 */
export async function runInPortions(session, count, goesOn) {
  let [taken, again, portion] = [0, 0, FIRST];
  while (true) {
    const began = performance.now();
    const reply = await session.run(Math.min(portion, count - taken) + again);
    if (!reply.isOk) return { taken: taken - again, reason: reply.last, reply };
    taken += Number(reply.words[1]) - again;
    const reason = reply.words.slice(2).join(" ");
    if (reason !== "count" || taken >= count) return { taken, reason };
    if (!goesOn(taken)) return { taken, reason: "stopped" };
    again = session.hasBreaks() ? 1 : 0;
    if (again) await session.undo();
    portion = nextPortion(portion, performance.now() - began);
  }
}

/**
 * @param {number} portion
 * @param {number} took
 */
const nextPortion = (portion, took) => Math.max(FIRST, Math.min(MOST, Math.round((portion * MILLISECONDS) / Math.max(10, took))));
