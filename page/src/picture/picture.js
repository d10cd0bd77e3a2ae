// What the parts of the picture share: the look of lanes and lines, and what a step is to the one that is pointed at. The same code
// draws the part in view, a saved file and the pictures of the documents.

import { isWait, word } from "../session/edges.js";

export const PICTURE_RULES = `
.picture text{font:var(--picture-size,13px) var(--mono,Menlo,Consolas,"DejaVu Sans Mono","Liberation Mono",monospace);fill:var(--text)}
.picture .muted,.picture .number,.picture .of,.picture .outcome{fill:var(--muted)}
.picture .name,.picture .of{text-anchor:middle}.picture .name{font-weight:700}.picture .of{font-size:calc(var(--picture-size,13px)*.85)}.picture .close{font-size:calc(var(--picture-size,13px)*.92)}
.picture .received,.picture .given,.picture .printed{fill:var(--text)}.picture .printed{font-weight:700}
.picture .fault-text,.picture .stuck .waits,.picture .cycle-word{fill:var(--stuck)}.picture .stuck .waits,.picture .cycle-word,.picture .fault-text{font-weight:700}
.picture .fold .kind{fill:var(--muted)}
.picture .life{stroke:var(--edge);stroke-width:1.5}
.picture .asleep{stroke:var(--edge);stroke-width:1.5;stroke-dasharray:2 4}
.picture .edge{fill:none;stroke-width:1.8;stroke:var(--edge)}
.picture .edge.start{stroke-dasharray:1.5 2.5}.picture .edge.close{stroke-dasharray:7 3 1.5 3}.picture .edge.order{stroke-width:1.3;stroke-dasharray:5 3}
.picture .edge.dim{opacity:.35}.picture .edge.lit{stroke-width:2.6}.picture .edge.lit.cause{stroke:var(--cause)}.picture .edge.lit.consequence{stroke:var(--consequence)}
.picture marker path{fill:var(--edge)}.picture .tip-cause path{fill:var(--cause)}.picture .tip-consequence path{fill:var(--consequence)}.picture .tip-cycle path{fill:var(--stuck)}
.picture .cycle{fill:none;stroke:var(--stuck);stroke-width:2.6}
.picture .mark{fill:var(--mark);stroke:var(--mark);stroke-width:1.6}
.picture .wait .mark{fill:var(--page)}
.picture .stuck .mark{fill:var(--stuck-wash);stroke:var(--stuck);stroke-width:2.2}
.picture .fault .mark{fill:var(--stuck);stroke:var(--stuck)}
.picture .wash{fill:none}
.picture .at .wash{fill:var(--here)}.picture .at .mark{stroke:var(--text);stroke-width:4}.picture .at .kind,.picture .at .number{font-weight:700;fill:var(--text)}
.picture .cause .wash{fill:var(--cause-wash)}.picture .consequence .wash{fill:var(--consequence-wash)}.picture .found .wash{fill:var(--found)}
.picture .cause .mark{fill:var(--cause);stroke:var(--cause)}
.picture .consequence .mark{fill:var(--consequence);stroke:var(--consequence)}
.picture .cause.wait .mark,.picture .consequence.wait .mark{fill:var(--page)}
.picture .consequence.stuck .mark,.picture .cause.stuck .mark{stroke:var(--stuck)}
.picture .side{font-weight:700;text-anchor:middle}
.picture .cause .side{fill:var(--cause)}.picture .consequence .side{fill:var(--consequence)}
.picture .pointed .mark{fill:var(--text);stroke:var(--text);stroke-width:4}
.picture .pointed .kind,.picture .pointed .number{font-weight:700;fill:var(--text)}
.picture .pointed.goes .wash{fill:var(--consequence-wash);stroke:var(--consequence);stroke-width:2}
.picture .later text,.picture .later tspan{fill:var(--muted)!important;font-weight:400}
.picture .later .mark{fill:var(--page);stroke:var(--edge);stroke-width:1;stroke-dasharray:2 2}
.picture line.later,.picture .edge.later{stroke:var(--line);stroke-dasharray:2 4}
.picture .forbids .ring{fill:none;stroke:var(--stuck);stroke-width:2.5}
@media (forced-colors:active){.picture .mark{stroke:CanvasText}.picture .pointed .mark{fill:Highlight;stroke:Highlight}.picture text,.picture tspan{fill:CanvasText}
.picture .cause .mark,.picture .consequence .mark{stroke-width:3}.picture .edge,.picture .life{stroke:CanvasText}.picture .wash{fill:none!important}
.picture .pointed.goes .wash,.picture .at .wash{stroke:Highlight}}
`;

/** @type {PointedView} */
export const NOTHING_POINTED = {
  pointed: "", causes: new Map(), consequences: new Map(), forbids: [], count: 0, cycle: [], stuck: new Set(), found: null, last: Infinity, at: -1,
  direct: false, isKept: false,
};

const TIPS = ["plain", "cause", "consequence", "cycle"];
export const DEFINITIONS = `<defs>${TIPS.map(
  (tip) => `<marker id="tip-${tip}" class="tip-${tip}" viewBox="0 0 8 8" refX="7" refY="4" markerWidth="7" markerHeight="7"
 orient="auto-start-reverse" markerUnits="userSpaceOnUse"><path d="M0 0L8 4L0 8z"/></marker>`,
).join("")}</defs>`;

// A drawing with tips of arrows of its own, which are there also while another picture is not shown.
/**
 * @param {string} name
 * @param {string} drawing
 */
export const withOwnTips = (name, drawing) => (DEFINITIONS + drawing).replaceAll('id="tip-', `id="${name}-`).replaceAll("url(#tip-", `url(#${name}-`);

export const SIDES = /** @type {{[side: string]: string}} */ ({ cause: "↑", consequence: "↓" });

// What a step is to the one that is pointed at.
/**
 * @param {Step} step
 * @param {PointedView} view
 */
export function sideOf({ id, goroutine, number }, view) {
  if (!view.pointed || id === view.pointed) return "";
  if (view.causes.has(goroutine)) {
    const numbers = /** @type {number[]} */ (view.causes.get(goroutine));
    if (view.direct ? numbers.includes(number) : number <= numbers[1]) return "cause";
  }
  const first = view.consequences.get(goroutine);
  return first && number >= first[0] ? "consequence" : "";
}

/**
 * @param {Step} step
 * @param {PointedView} view
 * @param {number} count the steps of its row
 */
export function classesOf(step, view, count = 1) {
  const classes = ["step", isWait(step.kind) ? "wait" : word(step.kind), sideOf(step, view)];
  if (count > 1) classes.push("fold");
  if (step.id === view.pointed) classes.push("pointed", view.count && view.isKept ? "goes" : "");
  if (view.forbids.includes(step.id)) classes.push("forbids");
  if (view.found?.has(step.id)) classes.push("found");
  if (view.stuck.has(step.id)) classes.push("stuck");
  if (step.row >= view.last) classes.push("later");
  if (isAt(step, view, count)) classes.push("at");
  return classes.filter((it) => it).join(" ");
}

// Whether the state that is shown, or played, is the one behind this row.
/**
 * @param {Step} step
 * @param {PointedView} view
 * @param {number} count the steps of its row
 */
const isAt = ({ row }, { at }, count) => at >= row && at < row + count;

// Whether a row has a colour behind it.
/**
 * @param {Step} step
 * @param {PointedView} view
 * @param {number} count the steps of its row
 */
export const isWashed = (step, view, count = 1) => Boolean(isAt(step, view, count) || sideOf(step, view) || view.found?.has(step.id) || (step.id === view.pointed && view.count && view.isKept));
