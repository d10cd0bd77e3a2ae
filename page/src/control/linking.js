// A session as a link: its source, the commands that made it, the breakpoints, the chosen step, the theme, and the story or exercise.

import { checkedLesson, isLine } from "../lessons/lesson.js";

/**
 * @typedef {object} Shared
 * @property {string} source
 * @property {string[]} commands
 * @property {number[]} [breaks]
 * @property {string} [chosen]
 * @property {string} [theme]
 * @property {string} [name]
 * @property {Lesson} [lesson]
 */

const LINK = "#s="; // before what a link holds

// What the part of an address behind its `#` asks for: words with `&` between them.
/** @param {string} hash */
export function askedBy(hash) {
  const words = new URLSearchParams(hash.slice(1));
  const [session, story] = [words.get("s"), words.get("story")];
  return { session, story, isLink: session !== null || story !== null, isEmbedded: words.has("embed"), isAsking: words.has("ask"), isRepeating: words.has("repeat"), language: words.get("lang") || "" };
}

/**
 * @param {Uint8Array} bytes
 * @param {any} stream
 */
async function through(bytes, stream) {
  const blob = new Blob([/** @type {any} */ (bytes)]);
  return new Uint8Array(await new Response(/** @type {any} */ (blob.stream()).pipeThrough(stream)).arrayBuffer());
}

/** @param {Uint8Array} bytes */
const toText = (bytes) => btoa(Array.from(bytes, (byte) => String.fromCharCode(byte)).join("")).replace(/\+/g, "-").replace(/\//g, "_").replace(/=+$/, "");
/** @param {string} text */
const toBytes = (text) => Uint8Array.from(atob(text.replace(/-/g, "+").replace(/_/g, "/")), (letter) => letter.charCodeAt(0));

// The part of an address behind its `#`.
/** @param {Shared} shared */
export async function toHash(shared) {
  const bytes = new TextEncoder().encode(JSON.stringify(shared));
  return LINK + toText(await through(bytes, new CompressionStream("deflate-raw")));
}

/** @param {unknown} it */
const isText = (it) => typeof it === "string";

// The bytes of a text in base 64 that were deflated.
/** @param {string} text */
export const inflated = (text) => through(toBytes(text.trim()), new DecompressionStream("deflate-raw"));

// What a link holds; nothing where it is none, and an error where it is damaged.
/**
 * @param {string} hash
 * @returns {Promise<Shared | null>}
 */
export async function fromHash(hash) {
  const { session } = askedBy(hash);
  return session === null ? null : checked(JSON.parse(new TextDecoder().decode(await inflated(session))));
}

// What was read of a link or of what was kept, with the types that it must have.
/**
 * @param {any} read
 * @returns {Shared}
 */
export function checked(read) {
  if (!isText(read?.source)) throw new Error("it has no source");
  const commands = Array.isArray(read.commands) ? read.commands.filter(isLine) : [];
  const breaks = Array.isArray(read.breaks) ? read.breaks.filter((/** @type {unknown} */ it) => Number.isInteger(it)) : [];
  const [chosen, theme, name] = [read.chosen, read.theme, read.name].map((it) => (isText(it) ? it : ""));
  const lesson = checkedLesson(read.lesson);
  return { source: read.source, commands, breaks, chosen, theme, name, ...(lesson ? { lesson } : {}) };
}
