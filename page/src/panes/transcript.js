// Commands and replies, in their order, with the meaning of each refusal in words.

import { make } from "../element.js";
import { noCommand } from "./elsewhere.js";
import { phrase } from "../phrases.js";

const LINES = 300; // of a longer reply the first are shown
const LETTERS = 400; // of a longer line the first are shown until it is unfolded
const ENTRIES = 400; // of more entries the last are shown

// A text that is folded where it is long.
/** @param {string} text */
function folded(text) {
  if (text.length <= LETTERS) return [text];
  const rest = make("details", {}, make("summary", {}, phrase(".. and {count} letter more | .. and {count} letters more", { count: text.length - LETTERS })));
  rest.addEventListener("toggle", () => rest.append(text.slice(LETTERS)), { once: true });
  return [text.slice(0, LETTERS), rest];
}

export class Transcript {
  /**
   * @param {HTMLElement} host
   * @param {(code: string) => string} meaning
   */
  constructor(host, meaning) {
    this.host = host;
    this.meaning = meaning;
  }

  clear() {
    this.host.replaceChildren();
  }

  /**
   * @param {string} command
   * @param {Reply | null} reply
   */
  add(command, reply) {
    const entry = make("div", {}, make("div", { class: "asked" }, ...folded(`> ${command}`)));
    if (reply) entry.append(...this.lines(command, reply));
    this.put(entry);
  }

  /**
   * @param {string} command
   * @param {Reply} reply
   */
  lines(command, reply) {
    const shown = reply.lines.slice(0, LINES).map((line) => make("div", {}, ...folded(`| ${line}`)));
    const left = reply.lines.length - shown.length;
    if (left) shown.push(make("div", { class: "meaning" }, phrase(".. and {count} line more | .. and {count} lines more", { count: left })));
    shown.push(make("div", { class: reply.isOk ? "" : "refused" }, ...folded(reply.last)));
    const means = reply.isOk ? "" : reply.last === "? bad command" ? noCommand(command) : this.meaning(reply.words[1]);
    if (means) shown.push(make("div", { class: "meaning" }, means));
    return shown;
  }

  /** @param {string} text */
  remark(text) {
    this.put(make("div", { class: "meaning" }, text));
  }

  /** @param {string} text */
  fault(text) {
    this.put(make("div", { class: "refused" }, text));
  }

  /** @param {HTMLElement} entry */
  put(entry) {
    this.host.append(entry);
    while (this.host.childElementCount > ENTRIES) this.host.firstElementChild?.remove();
    this.host.scrollTop = this.host.scrollHeight;
  }
}
