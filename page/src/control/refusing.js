// What is said of a source that is refused, at its line and in the row above the picture.

import { carryButton } from "../panes/carrying.js";
import { explain } from "../refused/refusals.js";
import { erred } from "./losses.js";
import { parseFault } from "../engine/protocol.js";
import { Refused } from "../session/session.js";
import { SessionGone } from "../engine/remote.js";
import { phrase } from "../phrases.js";

/**
 * @param {import("./page.js").Page} page
 * @param {string} text
 * @param {unknown} fault
 */
export function refuse(page, text, fault) {
  const refusal = fault instanceof Refused && parseFault(fault.errors);
  if (fault instanceof SessionGone) return page.say(phrase("No session could be opened: {reason}.", { reason: fault.message }), "bad");
  if (!refusal) return erred(page, fault);
  const explained = explain(page.given.refusals, text, refusal);
  const instead = explained.instead ? ` ${phrase("Write instead: {code}", { code: explained.instead })}` : "";
  const hint = explained.hint ? ` ${phrase("Hint: {hint}.", { hint: explained.hint })}` : "";
  const sentence = phrase("{sentence}.", { sentence: explained.sentence });
  const message = `${sentence}${instead}${hint}`;
  const line = String(explained.line);
  page.refusedLine = explained.line;
  const isAtItsLine = page.views.editor.refuse(explained, message, carryButton(page, text));
  page.views.refusal.show(explained.line ? phrase("Refused at line {line}: {message}", { line, message }) : phrase("Refused: {message}", { message }), isAtItsLine);
  const kept = page.session ? ` ${phrase("The session is still that of the text before.")}` : "";
  page.views.transcript.fault(phrase("The source in the editor is refused ({code}).", { code: refusal.text }) + kept);
  page.say((explained.line ? phrase("The source is refused at line {line}: {sentence}", { line, sentence }) : phrase("The source is refused: {sentence}", { sentence })) + kept, "bad");
}
