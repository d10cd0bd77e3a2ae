// Numbers that stand for texts in a program that was carried over, as the list of `rewind-carry` tells them.

const ROOM = 1000n; // a made text is -(values * ROOM + number of its form)
const DEEPEST = 8; // texts that lie in texts

/** @typedef {{text?: string, value?: string, most?: number}} Part a text that is known, or what a value stands for */
/** @typedef {{parts: Part[], most: number}} Form of texts that are made, in which each value takes `most` numbers */
/** @typedef {import("../engine/carry.js").Carried} Carried */

export class Texts {
  /** @param {Carried} told */
  constructor({ texts, errors, forms, variables }) {
    /** @type {Map<string, string[]>} */
    this.known = new Map([["text", texts || []], ["error", errors || []]]);
    this.forms = forms || [];
    this.variables = variables || {};
  }

  // What a variable stands for, or the values of its channel: `text`, `error`, or "" for itself.
  /**
   * @param {string} func
   * @param {string} name
   */
  kind(func, name) {
    return this.variables[func]?.[name] || "";
  }

  // What the values of channels stand for, as variables tell that hold them.
  /**
   * @param {Goroutine[]} goroutines
   * @returns {Map<string, string>}
   */
  kindsOf(goroutines) {
    const told = goroutines.flatMap(({ frames }) => frames.flatMap((frame) => frame.variables.map(({ name, value }) => /** @type {[string, string]} */ ([value, this.kind(frame.name, name)]))));
    return new Map(told.filter(([value, kind]) => value.includes("/c") && kind));
  }

  // A value of a kind as it is shown: a text or an error in quotes. An error that is none is `nil`.
  /**
   * @param {string} kind
   * @param {string} value
   */
  shown(kind, value) {
    if (!this.known.has(kind) || !/^-?\d+$/.test(value)) return value;
    if (kind === "error" && value === "0") return "nil";
    const text = this.text(kind, BigInt(value));
    return text === null ? value : JSON.stringify(text);
  }

  // The text of a number; null where the number stands for none.
  /**
   * @param {string} kind
   * @param {bigint} number
   * @returns {string | null}
   */
  text(kind, number, depth = 0) {
    if (number >= 0n) return this.known.get(kind)?.[Number(number)] ?? null;
    const form = depth > DEEPEST ? undefined : this.forms[Number(-number % ROOM) - 1];
    if (!form) return null;
    let values = -number / ROOM;
    const most = BigInt(form.most);
    /** @type {(string | null)[]} */
    const texts = form.parts.map(({ text }) => text || "");
    for (const [at, { value }] of [...form.parts.entries()].reverse()) {
      if (!value) continue;
      const folded = values % most;
      values /= most;
      texts[at] = this.part(value, folded % 2n ? -(folded + 1n) / 2n : folded / 2n, depth);
    }
    return texts.includes(null) ? null : texts.join("");
  }

  // A value in a made text.
  /**
   * @param {string} kind
   * @param {bigint} number
   * @param {number} depth
   */
  part(kind, number, depth) {
    if (kind === "truth") return String(Boolean(number));
    return kind === "number" ? String(number) : this.text(kind, number, depth + 1);
  }
}
