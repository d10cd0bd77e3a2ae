// The picture as a file of its own: SVG with a legend, or the same as PNG.

import { DEFINITIONS, PICTURE_RULES } from "./picture.js";
import { cycleHeight, drawLanes, drawNames } from "./lanes.js";
import { drawLines } from "./lines.js";
import { escaped } from "./labels.js";
import { layOut } from "./layout.js";
import { lettersOf } from "./outcomes.js";
import { LEGEND_HEIGHT, legendDrawing } from "./legend.js";
import { paletteRules } from "../tokens.js";

// `part` says in words which steps the picture shows, where it does not show all of them.
/**
 * @param {import("./layout.js").Shown} shown
 * @param {Edge[]} edges
 * @param {PointedView} view
 * @param {{title: string, rowHeight: number, from: number, to: number, part: string, hasLegend: boolean}} how
 */
export function savedPicture(shown, edges, view, { title, rowHeight, from, to, part, hasLegend }) {
  const how = { rowHeight, last: to, top: from };
  const layout = layOut(shown, { ...how, needed: lettersOf(layOut(shown, how), from, to) });
  const width = Math.ceil(Math.max(layout.lanes + layout.lineWidth, hasLegend ? 640 : 0));
  const bottom = layout.height + (to >= shown.rows.length ? cycleHeight(layout, view.cycle) : 0);
  const said = part ? `<text x="8" y="${bottom + 14}">${escaped(part)}</text>` : "";
  const legendTop = bottom + (part ? 24 : 0);
  const legend = hasLegend ? `<g transform="translate(8 ${legendTop + 6})">${legendDrawing()}</g>` : "";
  const height = legendTop + (hasLegend ? LEGEND_HEIGHT : 0);
  const rules = `${paletteRules("svg")}${PICTURE_RULES}.picture .sheet{fill:var(--page)}`;
  const drawn = drawNames(layout) + drawLanes(layout, edges, view, from, to - 1) + drawLines(layout, view, from, to - 1, { left: layout.lanes });
  return `<svg xmlns="http://www.w3.org/2000/svg" class="picture" width="${width}" height="${height}" viewBox="0 0 ${width} ${height}" role="img"><title>${escaped(part ? `${title} (${part})` : title)}</title>
<style>${rules}</style>${DEFINITIONS}<rect class="sheet" width="100%" height="100%"/>${drawn}${said}${legend}</svg>
`;
}

// The PNG of an SVG text, twice as fine as a screen, and no larger than browsers draw.
/**
 * @param {string} text
 * @returns {Promise<Blob | null>}
 */
export async function asPng(text) {
  const [, width, height] = (/width="(\d+)" height="(\d+)/.exec(text) || []).map(Number);
  const image = new Image();
  image.src = `data:image/svg+xml,${encodeURIComponent(text)}`;
  await image.decode();
  const scale = Math.min(2, 16000 / Math.max(width, height));
  const canvas = Object.assign(document.createElement("canvas"), { width: width * scale, height: height * scale });
  canvas.getContext("2d")?.drawImage(image, 0, 0, canvas.width, canvas.height);
  return new Promise((give) => canvas.toBlob(give));
}
