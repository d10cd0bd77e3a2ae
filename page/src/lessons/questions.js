// What is asked before a command of a story, and whether the answer is right. All that decides it is told by the program: who is ready
// before the command, its reply, and what it printed.

import { wordsOf } from "../engine/protocol.js";
import { phrase, phraseKey } from "../phrases.js";

/**
 * @typedef {object} Question
 * @property {"who" | "print" | "end" | "count"} kind
 * @property {string} text
 * @property {string[]} options
 * @property {string} [goes] the goroutine that goes in the story
 */

/** @typedef {{reply: Reply, printed: string[], before: Scene}} Outcome */
/** @typedef {{option?: string, text?: string}} Guess */

/** @type {{[reason: string]: string}} */
const ENDS = { ended: phraseKey("the program ends"), stuck: phraseKey("a deadlock"), fault: phraseKey("a panic") };
const GOES_ON = phraseKey("it can go on");
const ENDED_SO = {
  [ENDS.ended]: phraseKey("{printed}, and the program ends"), [ENDS.stuck]: phraseKey("{printed}, and it ends in a deadlock"),
  [ENDS.fault]: phraseKey("{printed}, and it ends in a panic"), [GOES_ON]: phraseKey("{printed}, and then it can go on"),
};
const NOTHING = phraseKey("nothing");
// Of a goroutine that was chosen: whether it can go, and who goes in the story.
const GOES = phraseKey("{goroutine} can go, and in the story it goes");
const OTHER_GOES = phraseKey("{goroutine} can go, and in the story {other} goes");
const WAITS = phraseKey("{goroutine} waits, and in the story {other} goes");
const WAITS_AT = phraseKey("{goroutine} waits at {place}, and in the story {other} goes");
export const END_OPTIONS = [...Object.values(ENDS), GOES_ON];

/** @type {{[word: string]: (id: string) => string}} */
const COUNTS = {
  back: (command) => phrase("The story goes on with “{command}”. How many steps go back?", { command }),
  deps: (command) => phrase("How many steps depend on {step}, itself among them?", { step: command.split(" ")[1] }),
  causes: (command) => phrase("On how many steps does {step} depend, itself among them?", { step: command.split(" ")[1] }),
};

/**
 * @param {string} goroutine
 * @param {Scene} scene
 * @returns {Question | null}
 */
function aboutStep(goroutine, scene) {
  const at = scene.goroutines.find(({ name }) => name === goroutine);
  const text = at?.state === "ready" ? at.statement?.text || "" : "";
  if (/\bprintln\s*\(/.test(text)) return { kind: "print", text: phrase("{goroutine} goes next, at “{statement}”. What does this step print?", { goroutine, statement: text.replace(/\s+/g, " ") }), options: [] };
  const options = scene.goroutines.filter(({ state }) => state !== "done").map(({ name }) => name);
  return options.length > 1 ? { kind: "who", text: phrase("Who can go next?"), options, goes: goroutine } : null;
}

// The question before a command, or nothing where there is none worth it.
/**
 * @param {string | undefined} command
 * @param {Scene} scene
 * @returns {Question | null}
 */
export function questionFor(command, scene) {
  const [word, first = ""] = wordsOf(command || "");
  if (!command || scene.hidden) return null;
  if (word === "step") return aboutStep(first, scene);
  if (word === "run") return { kind: "end", text: phrase("The story goes on with “{command}”. What is printed by it, and how does it end?", { command }), options: END_OPTIONS };
  const text = COUNTS[word]?.(command);
  return text ? { kind: "count", text, options: [] } : null;
}

/** @param {string} text */
const plain = (text) => text.replace(/[“”"',;/]/g, " ").replace(/\s+/g, " ").trim();

/** @param {string[]} printed */
const printedText = (printed) => (printed.length ? phrase("{lines} is printed | {lines} are printed", { lines: printed.map((line) => `“${line}”`).join(", "), count: printed.length }) : phrase("nothing is printed"));

// Whether the lines were guessed: what separates them does not matter, and nothing is an empty answer or the word.
/**
 * @param {string} guess
 * @param {string[]} printed
 */
const isPrint = (guess, printed) => plain([NOTHING, phrase(NOTHING)].includes(guess) && !printed.length ? "" : guess) === plain(printed.join(" "));

/**
 * @param {Question} question
 * @param {Guess} guess
 * @param {Outcome} outcome
 */
function ofWho({ goes = "" }, { option = "" }, { before }) {
  const at = before.goroutines.find(({ name }) => name === option);
  const isRight = at?.state === "ready";
  const fields = { goroutine: option, other: goes, place: phrase("line {line}", { line: String(at?.line || "") }) };
  if (!isRight) return { isRight, text: phrase(at?.line ? WAITS_AT : WAITS, fields) };
  return { isRight, text: phrase(option === goes ? GOES : OTHER_GOES, fields) };
}

/**
 * @param {Question} _question
 * @param {Guess} guess
 * @param {Outcome} outcome
 */
function ofEnd(_question, { option, text = "" }, { reply, printed }) {
  const end = ENDS[reply.words[2]] || GOES_ON;
  const isRight = option === end && isPrint(text, printed);
  return { isRight, text: phrase(ENDED_SO[end], { printed: printedText(printed) }) };
}

/**
 * @param {Question} _question
 * @param {Guess} guess
 * @param {Outcome} outcome
 */
const ofPrint = (_question, { text = "" }, { printed }) => ({ isRight: isPrint(text, printed), text: printedText(printed) });

/**
 * @param {Question} _question
 * @param {Guess} guess
 * @param {Outcome} outcome
 */
const ofCount = (_question, { text = "" }, { reply }) => ({ isRight: Number(text) === Number(reply.words[1]) && /^\s*\d+\s*$/.test(text), text: phrase("it is {count} step | it is {count} steps", { count: Number(reply.words[1]) }) });

const VERDICTS = { who: ofWho, print: ofPrint, end: ofEnd, count: ofCount };

// Whether a guess is right, with the answer. Nothing where the command was refused.
/**
 * @param {Question} question
 * @param {Guess} guess
 * @param {Outcome} outcome
 */
export function verdictOf(question, guess, outcome) {
  if (!outcome.reply.isOk) return null;
  const { isRight, text } = VERDICTS[question.kind](question, guess, outcome);
  return { isRight, text: isRight ? phrase("Right: {answer}.", { answer: text }) : phrase("No: {answer}.", { answer: text }) };
}
