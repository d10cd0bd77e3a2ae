// Where everything of the picture stands. At the left is a lane for each goroutine. At the right each step has a line of text, with
// its number, its statement and what came of it in columns of their own. A row is as tall in both.

const LETTER = 7.87; // the usual width of a letter, for which the widths of lanes are given
const WIDEST = 62; // from one lane to the next
const NARROWEST = 20;
const SMALLER = 0.92; // the letters of names on two lines
const EDGE = 6; // before the first lane and behind the last
const SHARE = 0.32; // of the room, for lanes: as much for one as for many, so that the text stays where it is
const SMALL = 480; // pixels: of a smaller room lanes get a little more
const SMALL_SHARE = 0.34;
const SIDE = 18; // for the sign of a cause or a consequence
const GAP = 14; // between two columns
const LEAST = 38; // letters of statement and outcome beside each other; where there are fewer, they stand below each other
const MOST_STATEMENT = 42;
const MOST_OUTCOME = 48;
const [LEAST_NAME, MOST_NAME] = [7, 14]; // letters of the number of a step
const MOST_HEAD = 14; // letters of the name of a function

// The height of the row of names, which has two lines.
/** @param {number} letter */
export const headOf = (letter) => Math.round(letter * 4.8);

/**
 * @typedef {object} Shown what the picture is drawn of
 * @property {import("../session/log.js").Log} log
 * @property {import("./rows.js").Rows} rows
 * @property {Map<string, string>} functions
 * @property {(id: string) => Note | undefined} notes
 * @property {(channel: string) => string} called the name of a channel, by a variable that holds it
 * @property {(kind: string) => string} does a kind in words
 */

/** @typedef {{number: number, statement: number, outcome: number, mostStatement: number, mostOutcome: number, isStacked: boolean}} Columns */

/**
 * @typedef {Shown & {
 *   names: string[], rowHeight: number, letter: number, head: number, headLetters: number, isStaggered: boolean, lefts: Map<string, number>,
 *   lanes: number, lanesInView: number, columns: Columns, lineWidth: number, room: number, y: (place: number) => number, height: number,
 * }} Place
 */

// The distance of two lanes. Names that do not fit beside each other stand on two lines in turn.
/**
 * @param {string[]} names
 * @param {number} room
 * @param {number} letter
 */
function pitchOf(names, room, letter) {
  const scale = letter / LETTER;
  const longest = names.reduce((most, { length }) => Math.max(most, length), 2);
  const [widest, least] = [Math.max(WIDEST * scale, longest * letter + 8), Math.max(NARROWEST * scale, (longest * SMALLER * letter) / 2 + 1)];
  const fitting = (room - 2 * EDGE) / Math.max(1, names.length);
  const pitch = Math.floor(Math.min(widest, Math.max(fitting, least)));
  return { pitch, isStaggered: pitch < longest * letter + 4 };
}

// How many letters the longest number of a step may have.
/**
 * @param {import("../session/log.js").Log} log
 * @param {string[]} names
 */
function numberLetters({ byName }, names) {
  const longest = names.reduce((most, name) => Math.max(most, name.length + 1 + String(byName.get(name)?.rows.length || 0).length), LEAST_NAME);
  return Math.min(longest, MOST_NAME);
}

// Where the columns of text begin, and how many letters they take. Without a bound of the room they take what the longest lines need.
/**
 * @param {number} room
 * @param {number} letter
 * @param {number} numbers
 * @param {{statement: number, outcome: number}} needed
 * @returns {Columns}
 */
function columnsOf(room, letter, numbers, needed) {
  const statement = SIDE + numbers * letter + GAP;
  const letters = room === Infinity ? Infinity : Math.floor((room - statement - GAP - 6) / letter);
  if (letters < LEAST) {
    const mostStatement = Math.max(8, Math.floor((room - SIDE - 6) / letter));
    return { number: SIDE, statement: SIDE, outcome: statement, mostStatement, mostOutcome: Math.max(6, mostStatement - numbers - 2), isStacked: true };
  }
  const mostStatement = letters === Infinity ? needed.statement : Math.min(MOST_STATEMENT, Math.floor(letters * 0.54));
  const mostOutcome = letters === Infinity ? needed.outcome : letters - mostStatement;
  return { number: SIDE, statement, outcome: statement + mostStatement * letter + GAP, mostStatement, mostOutcome, isStacked: false };
}

// Whether the columns of text stand below each other in this room, which makes rows taller.
/**
 * @param {{log: import("../session/log.js").Log, hidden: Set<string>}} shown
 * @param {number} room
 * @param {number} letter
 */
export function isStacked({ log, hidden }, room, letter) {
  const names = log.names.filter((name) => !hidden.has(name));
  const { lanesInView } = lanesOf(names, room, letter);
  return columnsOf(room - lanesInView, letter, numberLetters(log, names), { statement: 0, outcome: 0 }).isStacked;
}

/**
 * @param {string[]} names
 * @param {number} room
 * @param {number} letter
 */
function lanesOf(names, room, letter) {
  const share = Math.round((room < SMALL ? SMALL_SHARE : SHARE) * room);
  const { pitch, isStaggered } = pitchOf(names, share, letter);
  const lanes = 2 * EDGE + names.length * pitch;
  return { pitch, isStaggered, lanes, lanesInView: room === Infinity ? lanes : share };
}

// `needed` are the letters of the longest statement and outcome, where the room has no bound.
/**
 * @param {Shown} shown
 * @param {{rowHeight: number, letter?: number, room?: number, last?: number, top?: number, needed?: {statement: number, outcome: number}}} how
 * @returns {Place}
 */
export function layOut(shown, { rowHeight, letter = LETTER, room = Infinity, last = Infinity, top = 0, needed = { statement: MOST_STATEMENT, outcome: MOST_OUTCOME } }) {
  const { rows, log } = shown;
  const names = log.names.filter((name) => !rows.hidden.has(name));
  const { pitch, isStaggered, lanes, lanesInView } = lanesOf(names, room, letter);
  const columns = columnsOf(room - lanesInView, letter, numberLetters(log, names), needed);
  const head = headOf(letter);
  const y = (/** @type {number} */ place) => head + (place - top + 0.5) * rowHeight;
  return {
    ...shown, room, names, rowHeight, letter, head, headLetters: Math.min(MOST_HEAD, Math.floor((pitch - 4) / (letter * 0.85))), isStaggered,
    lefts: new Map(names.map((name, at) => [name, EDGE + Math.round((at + 0.5) * pitch)])), lanes: Math.max(lanes, room === Infinity ? 0 : lanesInView), lanesInView, columns,
    lineWidth: room === Infinity ? Math.ceil(columns.outcome + columns.mostOutcome * letter + GAP) : room - lanesInView,
    y, height: y(Math.min(rows.length, last)) + 6,
  };
}
