// Keys of the page. Those of one letter act outside of fields of text, and can be switched off. A letter counts by what it writes, and
// where that is none of the Latin alphabet, by its place on the keyboard.

import { tableRow } from "../element.js";

const FIELDS = "input:not([type=checkbox]):not([type=range]), textarea, select, [contenteditable], .CodeMirror";
const PLACES = /** @type {{[code: string]: string}} */ ({ BracketLeft: "[", BracketRight: "]", Slash: "/", Comma: ",", Period: "." });

/**
 * @typedef {object} Key
 * @property {string[]} keys
 * @property {string} says
 * @property {(key: string) => void} act
 * @property {string} [shown]
 */

// What a key stands for.
/** @param {KeyboardEvent} event */
export function meantKey({ key, code, shiftKey }) {
  if (key.length !== 1 || /[ -~]/.test(key)) return key;
  if (code === "Slash" && shiftKey) return "?";
  return /^(?:Key|Digit)(.)$/.exec(code)?.[1].toLowerCase() || PLACES[code] || key;
}

export class Keys {
  /**
   * @param {Key[]} table
   * @param {() => boolean} isOn
   */
  constructor(table, isOn) {
    this.table = table;
    this.isOn = isOn;
    document.addEventListener("keydown", (event) => this.pressed(event));
  }

  /** @param {KeyboardEvent} event */
  pressed(event) {
    if (event.ctrlKey || event.metaKey || event.altKey || event.defaultPrevented || document.querySelector("dialog[open]")) return;
    const key = meantKey(event);
    const row = this.table.find(({ keys }) => keys.includes(key));
    if (!row) return;
    const isLetter = key.length === 1;
    if (isLetter && (!this.isOn() || /** @type {Element} */ (event.target).closest?.(FIELDS))) return;
    event.preventDefault();
    row.act(key);
  }

  /** @param {HTMLElement} host */
  show(host) {
    host.append(...this.table.map(({ keys, shown, says }) => tableRow("kbd", shown || keys[0], says)));
  }
}
