// The tokens of the page and of saved pictures: colours, sizes of type and space. No style has another colour, size or space of its own.
//
// A colour has one meaning. Blue is what a step is because of, orange what goes with it, and red what is stuck: a deadlock, a leak, a
// panic, a source that is refused. Green is an exercise that is solved, yellow is what was found, and purple a keyword. All else is ink
// and greys. Texts have a contrast of at least 4.5 to 1 on every background that they stand on, and marks of at least 3 to 1.

const LIGHT = {
  page: "#ffffff", panel: "#f5f6f8", field: "#ffffff", text: "#1a1f24", muted: "#525c67", line: "#d3d9df", control: "#7d8792",
  ink: "#1a1f24", "on-ink": "#ffffff", here: "#eaedf1", mark: "#4a5560", edge: "#717b86", ghost: "#dde2e7",
  cause: "#0b57d0", "cause-wash": "#e2ecfd", consequence: "#a33d0a", "consequence-wash": "#fdeadb", stuck: "#b3261e", "stuck-wash": "#fdebe9",
  good: "#17693d", found: "#fff3c4", keyword: "#6b3fa0", comment: "#59636d",
};

const DARK = {
  page: "#14171a", panel: "#1b2024", field: "#101214", text: "#e6e9ec", muted: "#a9b3bd", line: "#39424b", control: "#7f8a95",
  ink: "#e6e9ec", "on-ink": "#101214", here: "#252c33", mark: "#b3bdc7", edge: "#8f99a3", ghost: "#2b3238",
  cause: "#8ab4f8", "cause-wash": "#1d3050", consequence: "#ffb27a", "consequence-wash": "#45290f", stuck: "#ff9d94", "stuck-wash": "#43201d",
  good: "#7fd6a4", found: "#433a12", keyword: "#c7a5f2", comment: "#9aa4ae",
};

// Pixels, as parts of the letter that the reader has chosen.
const rem = (/** @type {number} */ pixels) => `${pixels / 16}rem`;
const MONO = 'Menlo,Consolas,"DejaVu Sans Mono","Liberation Mono",monospace';
const SANS = '"Segoe UI",Roboto,"Helvetica Neue","DejaVu Sans",sans-serif';
const SIZES = {
  "type-1": rem(12), "type-2": rem(13), "type-3": rem(15), "type-4": rem(18), code: rem(12.5), "code-large": rem(20),
  "space-1": rem(4), "space-2": rem(8), "space-3": rem(12), "space-4": rem(16), round: "6px", mono: MONO, sans: SANS,
};

/** @param {{[name: string]: string}} tokens */
const declared = (tokens) => Object.entries(tokens).map(([name, value]) => `--${name}:${value}`).join(";");

// The rules that give an element the colours, by the system's wish unless its `data-theme` says otherwise.
/** @param {string} element */
export function paletteRules(element) {
  const dark = `${declared(DARK)};color-scheme:dark`;
  return `${element}{${declared(LIGHT)};color-scheme:light}
@media (prefers-color-scheme:dark){${element}:not([data-theme=light]){${dark}}}
${element}[data-theme=dark]{${dark}}`;
}

// The rules that give the page all tokens.
export const tokenRules = () => `:root{${declared(SIZES)}}${paletteRules(":root")}`;
