// Text that comes, or goes, neither by keys nor by paste: of an input method, a touch keyboard, dictation, a text expander or an
// extension. The browser changes what the editor draws. The editor reads a change of one line there; one of more lines is done in the
// source in its place.

const INSERTS = new Set(["insertText", "insertParagraph", "insertLineBreak"]);
const DELETIONS = /** @type {{[type: string]: string}} */ ({ deleteContentBackward: "delCharBefore", deleteContentForward: "delCharAfter" });

/** @typedef {{line: number, ch: number}} Position */

class Insertions {
  /** @param {any} editor */
  constructor(editor) {
    this.editor = editor;
    /** @type {{ranges: {anchor: Position, head: Position}[], text: string, deletion: string} | null} */
    this.told = null; // of one change, which a browser tells line by line or at once
  }

  /** @param {InputEvent} event */
  note({ inputType, data, isComposing }) {
    const isDeletion = inputType.startsWith("delete");
    if (isComposing || !(isDeletion || INSERTS.has(inputType))) return;
    if (!this.told) setTimeout(() => this.take(), 0);
    this.told ??= { ranges: this.editor.listSelections(), text: "", deletion: DELETIONS[inputType] || "" };
    this.told.text += isDeletion ? "" : data ?? "\n";
  }

  take() {
    const { editor, told } = this;
    this.told = null;
    if (!told) return;
    const joins = this.joinsLines(told.ranges[0].head, told.deletion);
    if (!this.isOverLines(told.ranges) && !told.text.includes("\n") && !joins) return;
    editor.operation(() => {
      editor.refresh(); // every line is drawn anew
      editor.setSelections(told.ranges);
      if (joins) editor.execCommand(told.deletion);
      else editor.replaceSelection(told.text, "end", "+input");
    });
    editor.focus();
  }

  isOverLines(ranges = this.editor.listSelections()) {
    return ranges.some((/** @type {{anchor: Position, head: Position}} */ { anchor, head }) => anchor.line !== head.line);
  }

  // Whether a deletion here takes the end of a line away, where nothing is selected.
  /**
   * @param {Position} at
   * @param {string} deletion
   */
  joinsLines({ line, ch }, deletion) {
    const edge = deletion === "delCharAfter" ? this.editor.getLine(line).length : 0;
    return Boolean(deletion) && ch === edge && !this.isOverLines();
  }
}

/** @param {any} editor */
export function takeInsertions(editor) {
  const insertions = new Insertions(editor);
  const field = editor.getInputField();
  field.addEventListener("input", (/** @type {InputEvent} */ event) => insertions.note(event), true);
  // Whatever the editor does next, it does with the change.
  for (const type of ["scroll", "keydown", "blur"]) editor.getWrapperElement().addEventListener(type, () => insertions.take(), true);
  // An input method begins with what is selected: lines go before, so that it writes into one.
  field.addEventListener("compositionstart", () => insertions.isOverLines() && editor.replaceSelection("", "end", "+input"), true);
}
