// The picture of a schedule that is not that of the session: its steps are followed in a session of its own, as those of the log are.

import { calledBy, holdersOf } from "../panes/holders.js";
import { cycleHeight, drawLanes, drawNames } from "../picture/lanes.js";
import { NOTHING_POINTED, withOwnTips } from "../picture/picture.js";
import { drawLines } from "../picture/lines.js";
import { layOut } from "../picture/layout.js";
import { inCopy } from "../session/copy.js";
import { Log } from "../session/log.js";
import { Reader } from "../session/reader.js";
import { Rows } from "../picture/rows.js";
import { compareNames, stepName } from "../engine/protocol.js";
import { stepCommand } from "../session/session.js";
import { word } from "../session/edges.js";

const ROW = 22; // pixels of a row
const LEAST_ROOM = 600; // in less the columns of text would stand below each other

/** @typedef {Awaited<ReturnType<typeof followed>>} Followed */

// The clauses that steps name which met a fault: their kind leaves them out.
/**
 * @param {import("./drawing.js").Schedule} schedule
 */
function clausesOf({ steps, commands }) {
  const from = steps.length - commands.length;
  const named = commands.map((line, at) => [steps[from + at], line.split(" ")[2]]).filter(([step, clause]) => clause && word(/** @type {Step} */ (step).kind) === "fault");
  return new Map(named.map(([step, clause]) => [/** @type {Step} */ (step).id, String(clause)]));
}

// Follows a schedule to its end.
/**
 * @param {import("../control/page.js").Page} page
 * @param {import("../session/session.js").Session} session
 * @param {import("./drawing.js").Schedule} schedule
 */
export async function followed(page, session, schedule) {
  const log = new Log();
  log.restart(schedule.steps);
  const clauses = clausesOf(schedule);
  const taken = schedule.steps.map((step) => stepCommand(step, clauses));
  return inCopy(session.machine, session.statements, taken, async (remote) => {
    const reader = new Reader(remote, session.statements, log, clauses);
    const { notes, order } = reader;
    await notes.find(0, log.length);
    await order.find(0, log.length);
    const before = await reader.sceneAt(Math.max(0, log.length - 1)); // behind the end of `main` no variable holds a channel
    const scene = await reader.sceneAt(log.length);
    const holders = holdersOf([...(scene?.goroutines || []), ...(before?.goroutines || [])]);
    return { schedule, log, order, shown: shownOf(page, reader, { scene, holders }), scene };
  }, true);
}

// The function of each goroutine, by its frames at the end or, where it is done, by its first step.
/**
 * @param {Reader} reader
 * @param {Scene | null} scene
 * @param {Map<string, string>} known
 */
function functionsOf({ log, facts }, scene, known) {
  const frames = new Map(scene?.goroutines.map((it) => [it.name, it.frames.at(-1)?.name]));
  const functions = log.names.map((name) => /** @type {[string, string]} */ ([name, frames.get(name) || facts.of(stepName(name, 1))?.at?.function || known.get(name) || ""]));
  return new Map(functions);
}

/**
 * @param {import("../control/page.js").Page} page
 * @param {Reader} reader
 * @param {{scene: Scene | null, holders: ReturnType<typeof holdersOf>}} end
 */
function shownOf({ words, annotating, session }, reader, { scene, holders }) {
  const { log, notes } = reader;
  return {
    log, rows: new Rows(log), functions: functionsOf(reader, scene, annotating.functions()), notes: (/** @type {string} */ id) => (session ? session.origin.readNote(notes.get(id), scene) : notes.get(id)),
    called: (/** @type {string} */ channel) => calledBy(holders, channel), does: (/** @type {string} */ kind) => words.kind(kind),
  };
}

// The steps as they are aligned: each with how many steps of each goroutine it depends on.
/** @param {Followed} of */
export const knownSteps = ({ log, order }) =>
  log.steps(0, log.length).map(({ id, kind }) => ({ id, kind, clock: JSON.stringify([...(order.causes(id) || [])].sort(([one], [other]) => compareNames(one, other))) }));

// The steps in which goroutines began to wait that are stuck at the end.
/** @param {Followed} of */
function stuckOf({ schedule, scene, log }) {
  if (schedule.end !== "deadlock") return new Set();
  return new Set((scene?.goroutines || []).filter(({ state }) => state === "waiting").map(({ name }) => stepName(name, log.byName.get(name)?.rows.length || 0)));
}

// The height of a place between the lines that the rows stand on.
/**
 * @param {number[]} lines
 * @param {number} at
 */
function lineAt(lines, at) {
  const last = lines.length - 1;
  if (at <= 0) return at + (lines[0] || 0);
  if (at >= last) return lines[last] + at - last;
  const [low, part] = [Math.floor(at), at - Math.floor(at)];
  return lines[low] + part * (lines[low + 1] - lines[low]);
}

// The picture, with each row on its line, and the heights of a line.
/**
 * @param {Followed} of
 * @param {number[]} lines
 * @param {{own: Set<string>, parting: string, height: number, room: number}} how the steps that the other has not, the first of them, the lines of both, and the width
 */
export function drawn(of, lines, { own, parting, height, room }) {
  const { shown, log, order } = of;
  const layout = layOut(shown, { rowHeight: ROW, room: Math.max(LEAST_ROOM, room) });
  const y = (/** @type {number} */ at) => layout.head + (lineAt(lines, at) + 0.5) * ROW;
  const place = { ...layout, y };
  const view = { ...NOTHING_POINTED, pointed: parting, found: own, stuck: /** @type {Set<string>} */ (stuckOf(of)) };
  const edges = log.steps(0, log.length).flatMap(({ id }) => order.edges.get(id) || []);
  const [width, tall] = [Math.ceil(layout.lanes + layout.lineWidth), layout.head + (height + 1) * ROW + cycleHeight(place, [])];
  const parts = drawNames(place) + drawLanes(place, edges, view, 0, log.length - 1) + drawLines(place, view, 0, log.length - 1, { left: layout.lanes });
  return { svg: `<svg class="picture" width="${width}" height="${tall}" viewBox="0 0 ${width} ${tall}" role="img">${withOwnTips("beside", parts)}</svg>`, top: (/** @type {number} */ line) => layout.head + line * ROW };
}
