// The source: an editor with the lines at which goroutines stand, breakpoints, and a refusal at its place.

import { decoder, encoder } from "../engine/protocol.js";
import { make } from "../element.js";
import { takeInsertions } from "./insertions.js";
import { phrase } from "../phrases.js";

const SHOWN = 2; // names beside a line; of more the first, and how many more

/**
 * @typedef {object} EditorEvents
 * @property {() => void} open
 * @property {() => void} change
 * @property {(line: number) => void} toggleBreak
 * @property {(line: number) => void} stepsOf
 */

export class Editor {
  /**
   * @param {HTMLElement} host
   * @param {EditorEvents} on
   */
  constructor(host, on) {
    this.editor = window.CodeMirror(host, {
      mode: "text/x-go",
      lineNumbers: true,
      gutters: ["breaks", "CodeMirror-linenumbers", "where"],
      inputStyle: "contenteditable",
      indentWithTabs: true,
      indentUnit: 4,
      lineWrapping: true,
      screenReaderLabel: phrase("Source text"),
      // The tab key leaves the editor, so that nobody is caught in it.
      extraKeys: { Tab: false, "Shift-Tab": false, "Ctrl-Enter": () => on.open(), "Cmd-Enter": () => on.open() },
    });
    /** @type {any[]} */
    this.marks = [];
    /** @type {any} */
    this.chosen = null;
    /** @type {any[]} */
    this.refusal = [];
    this.editor.on("change", () => on.change());
    this.editor.on("renderLine", (/** @type {any} */ _, /** @type {any} */ line, /** @type {HTMLElement} */ shown) => this.indentRest(line, shown));
    this.editor.on("gutterClick", (/** @type {any} */ _, /** @type {number} */ line) => on.toggleBreak(line + 1));
    this.on = on;
    takeInsertions(this.editor);
    this.editor.refresh();
  }

  // Where a line takes several, the others begin a little further in than the first.
  /**
   * @param {any} line
   * @param {HTMLElement} shown
   */
  indentRest(line, shown) {
    const columns = window.CodeMirror.countColumn(line.text, null, this.editor.getOption("tabSize")) + 2;
    const inset = columns * this.editor.defaultCharWidth();
    shown.style.textIndent = `-${inset}px`;
    shown.style.paddingLeft = `${2 + inset}px`;
  }

  get text() {
    return this.editor.getValue();
  }

  // Another text, which undoing takes back. It has no breakpoints.
  set text(text) {
    this.clearRefusal();
    if (text === this.text) return;
    this.markBreaks([]);
    const last = this.editor.lastLine();
    this.editor.replaceRange(text, { line: 0, ch: 0 }, { line: last, ch: this.editor.getLine(last).length });
    this.editor.setCursor({ line: 0, ch: 0 });
  }

  // Begins with a text, before which there is none.
  /** @param {string} text */
  begin(text) {
    this.editor.setValue(text);
    this.editor.clearHistory();
  }

  get line() {
    return this.editor.getCursor().line + 1;
  }

  focus() {
    this.editor.focus();
  }

  refresh() {
    this.editor.refresh();
  }

  // Marks the statements at which goroutines stand: one change for the editor, which lays out after each.
  /** @param {Goroutine[]} goroutines */
  markPlaces(goroutines) {
    this.editor.operation(() => this.markPlacesNow(goroutines));
  }

  // The names at each.
  /** @param {Goroutine[]} goroutines */
  markPlacesNow(goroutines) {
    this.clearPlaces();
    /** @type {Map<number, string[]>} */
    const places = new Map();
    for (const { name, line } of goroutines) if (line) places.set(line, [...(places.get(line) || []), name]);
    for (const [line, names] of places) {
      const short = names.length > SHOWN ? `${names[0]} +${names.length - 1}` : names.join(" ");
      this.editor.setGutterMarker(line - 1, "where", this.place(line, short, names));
      const handle = this.editor.addLineClass(line - 1, "background", "stands");
      if (handle) this.marks.push(handle);
    }
  }

  // The names at the end of a line, which a click asks for its steps.
  /**
   * @param {number} line
   * @param {string} text
   * @param {string[]} names
   */
  place(line, text, names) {
    const onmousedown = (/** @type {Event} */ event) => event.stopPropagation();
    return make("div", { class: "at-line", title: phrase("here: {goroutines}. Press to mark the steps of this line", { goroutines: names.join(", ") }), onmousedown, onclick: () => this.on.stepsOf(line) }, text);
  }

  clearPlaces() {
    this.editor.clearGutter("where");
    for (const line of this.marks.splice(0)) this.editor.removeLineClass(line, "background", "stands");
  }

  // The lines of the breakpoints, where they are now in the text.
  /** @returns {number[]} */
  get breaks() {
    /** @type {number[]} */
    const lines = [];
    this.editor.eachLine((/** @type {any} */ line) => {
      if (line.gutterMarkers?.breaks) lines.push(this.editor.getLineNumber(line) + 1); // a value would end the way over the lines
    });
    return lines;
  }

  /** @param {Iterable<number>} lines */
  markBreaks(lines) {
    this.editor.operation(() => this.markBreaksNow(lines));
  }

  /** @param {Iterable<number>} lines */
  markBreaksNow(lines) {
    this.editor.clearGutter("breaks");
    this.editor.eachLine((/** @type {any} */ line) => void this.editor.removeLineClass(line, "gutter", "has-break"));
    for (const line of lines) {
      this.editor.setGutterMarker(line - 1, "breaks", make("div", { class: "break-mark", title: phrase("breakpoint at line {line}", { line: String(line) }) }));
      this.editor.addLineClass(line - 1, "gutter", "has-break");
    }
  }

  // Marks the statement of the step that is pointed at, or only its line: one change for the editor, which lays out after each.
  /** @param {Note | undefined} note */
  markChosen(note, isFollowed = false) {
    this.editor.operation(() => this.markNote(note, isFollowed));
  }

  /**
   * @param {Note | undefined} note
   * @param {boolean} isFollowed
   */
  markNote(note, isFollowed) {
    if (this.chosen) this.chosen.forEach((/** @type {() => void} */ undo) => undo());
    this.chosen = null;
    if (!note?.line || note.line > this.editor.lineCount()) return;
    const handle = this.editor.addLineClass(note.line - 1, "background", "of-chosen");
    this.chosen = [() => this.editor.removeLineClass(handle, "background", "of-chosen")];
    if (note.statement) {
      const mark = this.mark(note.statement.start, note.statement.end, "chosen-statement", { startStyle: "chosen-start", endStyle: "chosen-end" });
      this.chosen.push(() => mark.clear());
    }
    if (isFollowed) this.reveal(note.line);
  }

  /**
   * @param {number} from
   * @param {number} to
   * @param {string} className
   * @param {{startStyle?: string, endStyle?: string}} ends
   */
  mark(from, to, className, ends = {}) {
    return this.editor.markText(this.editor.posFromIndex(from), this.editor.posFromIndex(to), { className, ...ends });
  }

  /** @param {number} line */
  reveal(line) {
    this.editor.scrollIntoView({ line: line - 1, ch: 0 }, 60);
  }

  // Shows a refusal below its line, and marks what it is about: `length` letters from its column on, which counts bytes, and the whole
  // statement around them. Returns whether there is such a line.
  /**
   * @param {{line: number, column: number, length: number, whole: {start: number, end: number} | null}} place
   * @param {string} message
   * @param {Node | string} more a button, or nothing
   */
  refuse({ line, column, length, whole }, message, more) {
    this.clearRefusal();
    if (!line || line > this.editor.lineCount()) return false;
    const text = this.editor.getLine(line - 1);
    const at = Math.min(decoder.decode(encoder.encode(text).subarray(0, column - 1)).length, Math.max(0, text.length - 1));
    const start = this.editor.indexFromPos({ line: line - 1, ch: at });
    const marks = [this.mark(start, start + Math.max(1, length), "refused-word")];
    if (whole) marks.push(this.mark(whole.start, whole.end, "refused-statement"));
    const handle = this.editor.addLineClass(line - 1, "background", "refused-line");
    const widget = this.editor.addLineWidget(line - 1, make("div", { class: "refusal-note" }, message, more), { noHScroll: true });
    this.refusal = [() => marks.forEach((mark) => mark.clear()), () => this.editor.removeLineClass(handle, "background", "refused-line"), () => widget.clear()];
    this.reveal(line);
    return true;
  }

  clearRefusal() {
    for (const undo of this.refusal.splice(0)) undo();
  }
}
