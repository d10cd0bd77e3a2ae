// Saves the picture: with every edge where the log is short enough, else the part around the view, which the file says.

import { ALL_EDGES } from "../control/annotating.js";
import { FOLLOWED } from "../session/notes.js";
import { Rows } from "./rows.js";
import { shownOf } from "./shown.js";
import { savedPicture } from "./saved.js";
import { phrase } from "../phrases.js";

const PARTS = [[20000, 800], [Infinity, 60]]; // up to so many steps of a longer log, how many above and below the view are saved

// The SVG text of the picture.
/**
 * @param {import("../control/page.js").Page} page
 * @param {{title?: string, hasLegend?: boolean}} how
 */
export async function savePicture(page, { title = "", hasLegend = true } = {}) {
  const { session, views } = page;
  if (!session) return "";
  const { log } = session;
  const isWhole = log.length <= ALL_EDGES;
  const [inView, below] = views.picture.stepsInView();
  const [, part] = /** @type {number[]} */ (PARTS.find(([most]) => log.length <= most));
  const [from, to] = isWhole ? [0, log.length] : [Math.max(0, inView - part), Math.min(log.length, below + part)];
  await session.notes.find(from, to, { hasValues: log.length <= FOLLOWED, isOld: () => session.isLeft });
  await session.order.find(from, to);
  const { picture } = views;
  const rows = new Rows(log, { isFolded: isWhole && picture.isFolded, hidden: isWhole ? picture.hidden : new Set() });
  const edges = log.steps(from, to).flatMap(({ id }) => (session.order.edges.get(id) || []).filter((edge) => log.row(edge.from) >= from));
  const shown = { ...shownOf(page), log, rows };
  const name = views.stories.name.replaceAll("_", " ");
  return savedPicture(shown, edges, picture.view, {
    title: title || phrase("Steps of {name}, a lane for each goroutine", { name }), rowHeight: picture.rowHeight, from, to: isWhole ? rows.length : to, hasLegend,
    part: partText(isWhole, from, to, log.length),
  });
}

/**
 * @param {boolean} isWhole
 * @param {number} from
 * @param {number} to
 * @param {number} count
 */
function partText(isWhole, from, to, count) {
  if (isWhole) return "";
  return phrase("Steps {from} to {to} of {count}, with the arrows between them", { from: from + 1, to, count });
}
