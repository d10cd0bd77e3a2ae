// A saved picture that moves: the steps appear one after another, each with its line and the arrows into it.

const [EACH, MOST] = [0.9, 60]; // seconds from one step to the next, and of the whole
const RULES = `.picture [data-step],.picture [data-mark],.picture [data-to]{animation:appear .5s both}@keyframes appear{from{opacity:0}}
@media (prefers-reduced-motion:reduce){.picture *{animation:none!important}}`;

// The text of a picture with its movement; `ids` are the steps in their order. Who wishes no movement sees the whole.
/**
 * @param {string} svg
 * @param {string[]} ids
 */
export function moving(svg, ids) {
  const rows = new Map(ids.map((id, row) => [id, row]));
  const each = Math.min(EACH, MOST / Math.max(1, ids.length));
  const delayed = svg.replace(/<(g|path) ([^>]*\bdata-(?:step|mark|to)="([^"]*)")/g, (_, name, rest, id) => `<${name} style="animation-delay:${(each * (rows.get(id) || 0)).toFixed(2)}s" ${rest}`);
  return delayed.replace("</style>", `${RULES}</style>`);
}
