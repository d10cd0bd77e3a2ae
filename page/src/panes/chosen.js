// What the page says of the chosen step, and what would go if it were taken back.

import { enable, find, make } from "../element.js";
import { differences, previewList } from "./preview.js";
import { isUnanswered } from "../engine/remote.js";
import { withoutStep } from "../session/copy.js";
import { inSteps, phrase, pieces } from "../phrases.js";

/** @typedef {import("../control/page.js").Page} Page */

const PREVIEWED = 20000; // steps: of a longer log no preview is made

// One sentence on a step, for those who see the picture and those who do not. `does` gives a kind in words.
/**
 * @param {Step} step
 * @param {Note | undefined} note
 * @param {number} count
 * @param {(kind: string) => string} does
 */
export function describeStep({ id, kind, row }, note, count, does) {
  const statement = note?.statement ? `, ${note.statement.text.replace(/\s+/g, " ")}` : "";
  const line = note?.line ? phrase(", line {line}", { line: String(note.line) }) : "";
  return `${id}, ${does(kind)}${line}${statement}${note ? cameText(note) : ""}${phrase(", {row} of {count}", { row: row + 1, count })}`;
}

// The case that was taken, what was received and what was printed.
/** @param {Note} note */
function cameText({ taken, received, part, printed }) {
  const by = part ? phrase(", received {value} by {part}", { value: received, part }) : phrase(", received {value}", { value: received });
  return (taken ? phrase(", case {statement}", { statement: taken.replace(/\s+/g, " ") }) : "") + (received ? by : "") + (printed.length ? phrase(", printed {lines}", { lines: printed.join("; ") }) : "");
}

// What is said where no step is chosen.
/** @param {Page} page */
function hint({ session }) {
  if (!session) return phrase("There is no session.");
  if (!session.log.length) return phrase("No step was taken yet.");
  return phrase("Point at a step: what it is because of turns blue, and what goes with it orange. Click it to keep it chosen.");
}

// A step that is kept, in words.
/**
 * @param {Page} page
 * @param {import("../session/session.js").Session} session
 * @param {string} id
 */
const saidOf = (page, { log }, id) => describeStep(log.step(log.row(id)), page.note(id), log.length, (kind) => page.words.kind(kind));

/** @param {Page} page */
export function showChosen(page) {
  const { session, views } = page;
  const { about, pinned, sought } = page.pointing;
  const isChosen = Boolean(about && pinned);
  for (const id of ["earlier", "later"]) enable(id, isChosen && !page.past.isOn);
  for (const id of ["back", "bar-back"]) enable(id, isChosen && !page.past.isOn && !page.hindrance);
  find("moving").hidden = !isChosen;
  find("bar-back").textContent = isChosen && about ? phrase("Take back {count}", { count: about.consequences + 1 }) : phrase("Take back");
  views.tabs.follow(isChosen);
  views.state.show(page);
  if (!pinned) find("course").replaceChildren();
  if (!about || !session) {
    find("chosen-text").replaceChildren(sought && session ? phrase("{step}. What it depends on, and what depends on it, is looked for.", { step: saidOf(page, session, sought) }) : hint(page));
    find("preview").replaceChildren();
    return;
  }
  const step = session.log.step(session.log.row(about.id));
  const causes = make("span", { class: "cause-word" }, `${inSteps(about.causes)} ↑`);
  const consequences = make("span", { class: "consequence-word" }, `${inSteps(about.consequences)} ↓`);
  const said = pieces("{step}. It depends on {causes}; on it depends {consequences}. | {step}. It depends on {causes}; on it depend {consequences}.", { step: saidOf(page, session, about.id), causes, consequences, count: about.consequences });
  find("chosen-text").replaceChildren(make("strong", {}, pinned ? `${phrase("Chosen:")} ` : ""), ...said);
  if (step.row === 0) enable("earlier", false);
  if (step.row === session.log.length - 1) enable("later", false);
  showPreview(page, pinned);
}

// Of a step that is kept chosen, what would go with it.
/**
 * @param {Page} page
 * @param {string} id
 */
async function showPreview(page, id) {
  const host = find("preview");
  const { session, stamp } = page;
  const key = `${stamp} ${id}`;
  if (!id || !session || session.log.length > PREVIEWED || page.past.isOn) {
    host.replaceChildren();
    host.dataset.of = "";
    return;
  }
  if (host.dataset.of === key) return;
  host.dataset.of = key;
  try {
    const without = await withoutStep(session, id);
    if (host.dataset.of !== key || page.session !== session) return;
    const stay = session.log.length - without.count;
    const counts = make("p", {}, make("strong", {}, phrase("{count} step would go, and {stay} stay: | {count} steps would go, and {stay} stay:", { count: without.count, stay })));
    host.replaceChildren(counts, previewList(differences(session.scene, without.scene)));
  } catch (fault) {
    if (!isUnanswered(fault)) throw fault;
  }
}
