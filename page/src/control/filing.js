// A session, a story or an exercise as one file, which the page and the shell open: a source, and behind it a script as comments. In a
// script each line is a command, but for those that begin with `//`: these say what it is a script of.

import { checkedLesson } from "../lessons/lesson.js";

const COMMANDS = "\n// commands of Rewind:\n"; // between source and script
const SAYS = /^\/\/ ?([a-z]+): ?(.*)$/;
const OF_SOURCE = /^\/\/ commands for .*, SHA-256 ([0-9a-f]{64})$/; // with which the shell names the source of a script

/**
 * @typedef {object} Opened what files hold
 * @property {string | null} source
 * @property {string[]} commands
 * @property {string} name
 * @property {Lesson | null} lesson
 * @property {string} version that has saved it, or ""
 * @property {string} digest the SHA-256 of the source that a script is of, or ""
 */

/** @param {string} text */
const oneLine = (text) => text.replace(/\s+/g, " ").trim();

/**
 * @param {string} word
 * @param {string} text
 */
const says = (word, text) => (oneLine(text) ? [`// ${word}: ${oneLine(text)}`] : []);

/** @param {Lesson} lesson */
function aboutLesson({ title, shows, task, hint, before, goal }) {
  if (!goal) return [...says("story", title), ...says("shows", shows)];
  return [...says("exercise", title), ...says("task", task), ...says("hint", hint), `// goal: ${JSON.stringify(goal)}`, `// begins: ${before.length}`];
}

/**
 * @param {string} source
 * @param {string[]} script
 */
const oneFile = (source, script) => `${source}${COMMANDS}${script.map((line) => `// ${line}`).join("\n")}\n`;

// The session as it stands; of an exercise of one's own with its task and its goal.
/**
 * @param {import("./linking.js").Shared} shared
 * @param {string} version
 */
export function toFile({ source, commands, lesson }, version) {
  const about = lesson?.goal ? aboutLesson(lesson) : [];
  return commands.length || about.length ? oneFile(source, [...says("version", version), ...about, ...commands]) : source;
}

// A story with its sentences, or an exercise as it begins.
/**
 * @param {Lesson} lesson
 * @param {string} version
 */
export function lessonFile(lesson, version) {
  const told = lesson.told.flatMap(({ text, command }) => [...says("say", text), command]);
  return oneFile(lesson.source, [...says("version", version), ...aboutLesson(lesson), ...told, ...lesson.before]);
}

// What the lines of a script say.
/** @param {string[]} lines */
function readScript(lines) {
  /** @type {{told: Told[], about: Map<string, string>, digest: string}} */
  const read = { told: [], about: new Map(), digest: "" };
  let text = "";
  for (const line of lines.map((it) => it.trim()).filter((it) => it)) {
    const [, word, said] = SAYS.exec(line) || [];
    if (word === "say") text = said;
    else if (word) read.about.set(word, said);
    else if (line.startsWith("//")) read.digest = OF_SOURCE.exec(line)?.[1] || read.digest;
    else read.told.push({ text: text.slice(), command: line });
    if (!line.startsWith("//")) text = "";
  }
  return read;
}

/** @param {string | undefined} text */
function parsed(text) {
  try {
    return JSON.parse(text || "null");
  } catch {
    return null;
  }
}

// The story or the exercise that a script is of, or nothing.
/**
 * @param {string} source
 * @param {ReturnType<typeof readScript>} script
 */
function lessonOf(source, { about, told }) {
  const commands = told.map(({ command }) => command);
  const [title, task, hint, shows] = [about.get("exercise") ?? about.get("story"), ...["task", "hint", "shows"].map((word) => about.get(word))];
  if (about.has("exercise")) return checkedLesson({ source, title, task, hint, goal: parsed(about.get("goal")), before: commands.slice(0, Number(about.get("begins")) || 0) });
  return about.has("story") ? checkedLesson({ source, title, shows, told }) : null;
}

// What files hold: `NAME.go` a source, `NAME.script` a script, or both in one. A script alone is one of the source that is there.
/**
 * @param {{name: string, text: string}[]} files
 * @param {string} [there]
 * @returns {Opened}
 */
export function fromFiles(files, there = "") {
  /** @type {string[]} */
  const lines = [];
  let source = null;
  let name = "";
  for (const file of files) {
    const isScript = /\.script$/.test(file.name);
    const [before, ...behind] = file.text.split(COMMANDS);
    if (!isScript || behind.length) [source, name] = [before, file.name.replace(/\.\w+$/, "")];
    const commented = behind.join(COMMANDS).split("\n").filter((line) => line.startsWith("//")).map((line) => line.replace(/^\/\/ ?/, ""));
    for (const line of isScript && !behind.length ? file.text.split("\n") : commented) lines.push(line);
  }
  const script = readScript(lines);
  const lesson = lessonOf(source ?? there, script);
  const commands = lesson && !lesson.goal ? [] : script.told.map(({ command }) => command);
  return { source, commands, name, lesson, version: script.about.get("version") || "", digest: script.digest };
}

// Whether a script with this digest is of a source; true where the browser cannot tell.
/**
 * @param {string} digest
 * @param {string} source
 */
export async function isOfSource(digest, source) {
  if (!digest || !globalThis.crypto?.subtle) return true;
  const bytes = new Uint8Array(await crypto.subtle.digest("SHA-256", new TextEncoder().encode(source)));
  return Array.from(bytes, (byte) => byte.toString(16).padStart(2, "0")).join("") === digest;
}
