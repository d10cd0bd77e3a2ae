// What the page says of replies and states, in plain words.

import { noCommand } from "./elsewhere.js";
import { listedSteps, wordsOf } from "../engine/protocol.js";
import { cycleText, endedText, notDone, wishesText } from "../waiting/sentences.js";
import { Wishes } from "../waiting/waits.js";
import { apart, both, inRow, phrase, phraseKey, translated } from "../phrases.js";

const LONGEST_CYCLE = 4; // goroutines of a cycle that are named in a short sentence
const LOG = 1000000; // steps that a log takes
const NAMED = 6; // goroutines that are named in a sentence; of more, how many more

const ENDS_OF_RUNS = /** @type {{[reason: string]: string}} */ ({
  ended: phraseKey("the program has ended"),
  fault: phraseKey("a panic stopped the program"),
  count: phraseKey("as many as asked"),
  stuck: phraseKey("a deadlock, since no goroutine is ready"),
  full: phraseKey("the log is full: it takes {most} steps"),
  memory: phraseKey("there is no more memory"),
  stopped: phraseKey("stopped by you"),
});

const FATES = {
  end: phraseKey("{goroutine} would end"), wait: phraseKey("{goroutine} would wait for ever"),
  "go on": phraseKey("{goroutine} would still go on"), fault: phraseKey("{goroutine} would stop the program"),
};
const FATES_AT = {
  end: phraseKey("{goroutine} would end at {place}"), wait: phraseKey("{goroutine} would wait for ever at {place}"),
  "go on": phraseKey("{goroutine} would still go on at {place}"), fault: phraseKey("{goroutine} would stop the program at {place}"),
};

const ownLine = (/** @type {number} */ line) => phrase("line {line}", { line: String(line) });

// What a reason for the end of a run says.
/**
 * @param {string} reason
 * @param {(line: number) => string} where
 */
function reasonText(reason, where) {
  if (reason.startsWith("break")) return phrase("stopped at the breakpoint in {place}", { place: where(Number(reason.slice(6))) });
  return phrase(ENDS_OF_RUNS[reason] || reason, { most: LOG });
}

/**
 * @param {number} taken
 * @param {string} reason
 * @param {(line: number) => string} where
 */
export function endOfRun(taken, reason, where = ownLine) {
  if (!taken && reason === "ended") return phrase("The program has ended before: there is no step to take.");
  if (!taken && reason === "fault") return phrase("A panic has stopped the program before: there is no step to take.");
  return phrase("{count} step taken: {end}. | {count} steps taken: {end}.", { count: taken, end: reasonText(reason, where) });
}

export class Words {
  /** @param {Given} given */
  constructor(given) {
    this.given = given;
    this.where = ownLine; // a line of the program that is run stands
  }

  // What a code means, behind the code, or nothing.
  /** @param {string} code */
  meaning(code) {
    const said = this.given.codes[code];
    return said ? `${code}: ${translated(said)}` : "";
  }

  // A refusal in words.
  /** @param {string} code */
  refusal(code) {
    const said = translated(this.given.codes[code] || "");
    return said && phrase("{sentence}.", { sentence: `${said[0].toUpperCase()}${said.slice(1)}` });
  }

  // What a step of this kind did, in words.
  /** @param {string} kind */
  kind(kind) {
    const [first, rest] = kind.split(" ");
    if (first === "pure") return phrase("own statement");
    if (first === "pick") return phrase("took case {number} of its select", { number: rest });
    if (first === "fault") return phrase("panic: {fault}", { fault: this.fault(rest) });
    return translated(this.given.kinds[first] || kind).split(/[:：]/)[0].trim();
  }

  // What a fault means, as `SendOnClosed`. What else has this name is left out.
  /** @param {string} fault */
  fault(fault) {
    return translated((this.given.faults[fault] || fault).replace(/, also .*/, ""));
  }

  // What a reply says.
  /**
   * @param {string} line
   * @param {Reply} reply
   */
  reply(line, reply) {
    const [word] = wordsOf(line);
    const count = listedSteps(reply).length;
    if (reply.words[1] === "B4") return phrase("Not possible: {later} depends on {earlier}, so it cannot come before it.", { later: reply.words[3], earlier: reply.words[2] });
    if (!reply.isOk) return this.refusal(reply.words[1]) || noCommand(line);
    if (word === "step") return phrase("{step}: {kind}.", { step: reply.words[1], kind: this.kind(reply.words.slice(2).join(" ")) });
    if (word === "undo") return phrase("{step} is taken back.", { step: reply.words[1] });
    if (word === "back") return phrase("{count} step taken back: {step}. | {count} steps taken back: {step} and what depended on it.", { count, step: reply.words[2] });
    if (word === "redo") return phrase("{count} step taken again. | {count} steps taken again.", { count });
    if (word === "order") return phrase("The steps stand in the new order. The state is the same.");
    if (word === "run") return endOfRun(Number(reply.words[1]), reply.words.slice(2).join(" "), this.where);
    return "";
  }

  // How the program stands where it goes on no more: a deadlock, a panic, its end and who is not done. Nothing where it goes on. Until it
  // is found who waits for whom, only what each one waits for.
  /**
   * @param {import("../session/session.js").Session} session
   * @param {import("../waiting/standing.js").Standing | null} standing
   * @param {(id: string) => Note | undefined} note
   * @returns {{tone: string, text: string} | null}
   */
  state({ log, scene, program, order }, standing, note) {
    const end = log.end;
    if (end?.kind.startsWith("fault")) return { tone: "stuck", text: `${this.faultText(end, note(end.id), program)}${causeText(order.edges.get(end.id))}` };
    if (end) return this.ended(scene, standing, program);
    if (!scene.isStuck || !log.length) return null;
    const waits = new Wishes(program, scene.goroutines, scene.channels).shown(scene.hidden > 0);
    const texts = waits.map(({ goroutine, line, wishes }) => waitsText(goroutine, wishes, program.where(line || 0)));
    return { tone: "stuck", text: [phrase("Deadlock: no goroutine is ready. {waits}.", { waits: listed(texts, apart) }), ...cycleText(standing?.cycle || [])].join(" ") };
  }

  /**
   * @param {Scene} scene
   * @param {import("../waiting/standing.js").Standing | null} standing
   * @param {import("../waiting/flows.js").Program} program
   */
  ended(scene, standing, program) {
    if (scene.missing) return { tone: "good", text: phrase("The program has ended.") };
    const count = scene.goroutines.filter(({ name, state }) => state !== "done" && name !== "g0").length;
    if (!standing && scene.isPartial) return { tone: "good", text: phrase("The program has ended. Of the first {shown} goroutines, {not_done}; the others are not shown.", { shown: scene.goroutines.length, not_done: notDone(count) }) };
    if (!standing) return { tone: "good", text: count ? phrase("The program has ended. {not_done} when main returned.", { not_done: notDone(count) }) : endedText(0, 0) };
    const { fates } = standing;
    const leaks = fates.filter(({ ending }) => ending === "wait");
    const texts = fates.map(({ goroutine, ending, line }) => phrase((line ? FATES_AT : FATES)[ending], { goroutine, place: line ? program.where(line) : "" }));
    return { tone: leaks.length ? "stuck" : "good", text: `${endedText(fates.length, leaks.length)}${fates.length ? ` ${phrase("{sentence}.", { sentence: listed(texts, inRow) })}` : ""}` };
  }

  /**
   * @param {Step} step
   * @param {Note | undefined} note
   * @param {import("../waiting/flows.js").Program} program
   */
  faultText({ id, kind }, note, program) {
    const fields = { step: id, fault: this.fault(kind.slice("fault ".length)) };
    return note?.line ? phrase("Panic in {step} at {place}: {fault}.", { ...fields, place: program.where(note.line) }) : phrase("Panic in {step}: {fault}.", fields);
  }

  // The deadlock of one goroutine alone.
  /** @param {import("../session/session.js").Session} session */
  loneWait({ scene, program }) {
    const waits = new Wishes(program, scene.goroutines, scene.channels).shown(scene.hidden > 0);
    return phrase("Deadlock: {waits}.", { waits: listed(waits.map(({ goroutine, line, wishes }) => waitsText(goroutine, wishes, program.where(line || 0))), apart) });
  }

  // The same as `state` in one short sentence.
  /**
   * @param {import("../session/session.js").Session} session
   * @param {import("../waiting/standing.js").Standing | null} standing
   * @param {(id: string) => Note | undefined} note
   */
  headline(session, standing, note) {
    const { log, scene, program } = session;
    if (log.end?.kind.startsWith("fault")) return this.faultText(log.end, note(log.end.id), program);
    const { text } = this.state(session, standing, note) || { text: "" };
    if (log.end) return standing ? endedText(standing.fates.length, standing.fates.filter(({ ending }) => ending === "wait").length) : text;
    const cycle = standing?.cycle || [];
    if (cycle.length === 2) return phrase("Deadlock: {goroutines} wait for each other.", { goroutines: both(cycle) });
    if (cycle.length > LONGEST_CYCLE) return phrase("Deadlock: {count} goroutines wait for each other in a cycle.", { count: cycle.length });
    if (cycle.length) return phrase("Deadlock: {first} waits for {chain}.", { first: cycle[0], chain: [...cycle.slice(1), cycle[0]].reduce((left, right) => phrase("{left}, which waits for {right}", { left, right })) });
    const count = scene.goroutines.filter(({ state }) => state === "waiting").length;
    if (count === 1) return this.loneWait(session);
    return count && !scene.isPartial ? phrase("Deadlock: no goroutine is ready, and {count} wait.", { count }) : phrase("Deadlock: no goroutine is ready.");
  }
}

// The step that a panic depends on.
/** @param {Edge[] | undefined} edges */
const causeText = (edges) => (edges?.length ? ` ${phrase("It depends on {step}.", { step: edges[0].from })}` : "");

// What one goroutine waits for, and where.
/**
 * @param {string} goroutine
 * @param {import("../waiting/waits.js").Wish[]} wishes
 * @param {string} place
 */
const waitsText = (goroutine, wishes, place) =>
  wishes.length ? phrase("{goroutine} waits to {wishes} at {place}", { goroutine, wishes: wishesText({ wishes }), place }) : phrase("{goroutine} waits for ever at {place}", { goroutine, place });

/**
 * @param {string[]} texts
 * @param {(texts: string[]) => string} join
 */
function listed(texts, join) {
  const more = texts.length - NAMED;
  return join([...texts.slice(0, NAMED), ...(more > 0 ? [phrase("and {count} more", { count: more })] : [])]);
}
