// Stories and exercises of one's own: recorded, given a text or a goal, given on as a link and as a file, and solved.

import assert from "node:assert/strict";
import { inTurn } from "./parts.mjs";

const LOCKS = `package main

func both(first, second chan bool, done chan bool) {
	first <- true
	n := 1
	second <- true
	<-second
	<-first
	done <- true
}

func main() {
	a, b, done := make(chan bool, 1), make(chan bool, 1), make(chan bool)
	go both(a, b, done)
	go both(b, a, done)
	<-done
	<-done
	println("done")
}
`;
const MENDED = LOCKS.replace("go both(b, a, done)", "go both(a, b, done)");

/** @param {Hands} hands */
async function open(hands) {
  await hands.browser.run("document.getElementById('make-lesson').click()");
  await hands.until("document.getElementById('lesson-dialog').open");
}

/**
 * @param {Hands} hands
 * @param {string} id
 * @param {string} text
 */
const write = (hands, id, text) => hands.browser.run(`(() => { const it = document.getElementById(${JSON.stringify(id)}); it.value = ${JSON.stringify(text)}; (it.oninput || it.onchange)({ target: it }); })()`);

/**
 * @param {Hands} hands
 * @param {string} id
 */
const click = (hands, id) => hands.browser.run(`document.getElementById(${JSON.stringify(id)}).click()`);

// What would be copied, or saved, by a button of the dialog.
/**
 * @param {Hands} hands
 * @param {string} id
 * @returns {Promise<string>}
 */
async function given(hands, id) {
  await hands.browser.run(`window.given = "", navigator.clipboard.writeText = async (text) => { window.given = text; },
    HTMLAnchorElement.prototype.click = function () { if (this.download) fetchedText(this.href, this.download); }, window.fetchedText = () => 0,
    URL.createObjectURL = ((make) => (blob) => { if (blob.type === "text/plain") blob.text().then((text) => (window.given = text)); return make(blob); })(URL.createObjectURL)`);
  await click(hands, id);
  await hands.until("window.given");
  return hands.browser.run("window.given");
}

/**
 * @param {Hands} hands
 * @param {string} address
 */
async function openLink(hands, address) {
  await hands.source("package main\nfunc main() { println(7) }\n");
  await hands.browser.run("document.querySelector('#story [value=lesson]')?.remove()");
  await hands.browser.run(`location.hash = ${JSON.stringify(address.slice(address.indexOf("#")))}`);
  await hands.until("rewind.page.views.stories.own && rewind.page.session.source.includes('package main\\n\\nfunc both')");
  await hands.idle();
}

/**
 * @param {Hands} hands
 * @param {string} text
 */
async function drop({ browser }, text, name = "x.go") {
  await browser.run(`{ const data = new DataTransfer(); data.items.add(new File([${JSON.stringify(text)}], ${JSON.stringify(name)}));
    document.dispatchEvent(new DragEvent("drop", { dataTransfer: data, bubbles: true, cancelable: true })); }`);
}

/** @param {Hands} hands */
async function aStory(hands) {
  const { browser } = hands;
  await hands.source(LOCKS);
  for (const line of ["run 7", "step g0.1", "step g0.2"]) await hands.perform(line);
  const log = await hands.ids();
  await open(hands);
  assert.equal(await hands.text("#lesson-recorded"), "3 commands are recorded.", "the commands of the session are recorded");
  await write(hands, "lesson-name", "Two locks <b>");
  await write(hands, "lesson-shows", "two workers, two locks");
  await browser.run("[...document.querySelectorAll('#lesson-commands input')].forEach((it, at) => { it.value = ['First main goes.', '', 'Now the other one.'][at]; it.oninput({ target: it }); })");
  const [link, file] = [await given(hands, "lesson-link"), await given(hands, "lesson-file")];
  await browser.run("document.getElementById('lesson-dialog').close()");
  for (const [how, opening] of /** @type {[string, () => Promise<void>][]} */ ([["a link", () => openLink(hands, link)], ["a file", () => drop(hands, file)]])) {
    await hands.source("package main\nfunc main() { println(7) }\n");
    await opening();
    await hands.until("rewind.page.session?.source.includes('func both') && rewind.page.views.stories.own");
    await hands.idle();
    assert.deepEqual([(await hands.ids()).length, await browser.run("document.getElementById('story').selectedOptions[0].textContent"), await hands.text("#about-story")], [0, "Two locks <b>", "Two workers, two locks. First main goes."], `${how} opens the story at its start`);
    const told = [];
    while (!(await browser.run("document.getElementById('next').disabled"))) {
      told.push(await hands.text("#about-story"));
      await hands.act("next");
    }
    assert.deepEqual(told.slice(1), ["First main goes.", "Now the other one."], "each sentence is told before its command");
    assert.deepEqual(await hands.ids(), log, "and the commands lead where they were recorded");
  }
}

/** @param {Hands} hands */
async function anExercise(hands) {
  const { browser } = hands;
  await hands.source(LOCKS);
  for (const line of ["run 100", "back g0.2#1", "run 100"]) await hands.perform(line);
  await browser.run("rewind.page.pointing.show('g0#7')");
  await open(hands);
  await click(hands, "lesson-is-exercise");
  assert.deepEqual([await hands.text("#lesson-lack"), await browser.run("document.getElementById('lesson-link').disabled")], ["Choose what solves it.", true], "an exercise needs a goal");
  for (const goal of ["printed", "end", "state"]) await click(hands, `goal-${goal}`);
  assert.ok(/^It begins where it is solved/.test((await click(hands, "lesson-is-exercise"), await write(hands, "lesson-begins", "3"), await hands.text("#lesson-lack"))), "and must begin before it is solved");
  await write(hands, "lesson-begins", "1");
  await write(hands, "lesson-name", "Untie it");
  await write(hands, "lesson-task", "Let both workers come to their end.");
  assert.deepEqual((await hands.texts("#lesson-goals label")).slice(1, 4), ["this print: the console has “done”", "this end: the program has ended", "this step is chosen: g0#7"], "a click takes a goal from the session as it stands");
  const [link, file] = [await given(hands, "lesson-link"), await given(hands, "lesson-file")];
  await browser.run("document.getElementById('lesson-dialog').close()");
  for (const opening of [() => openLink(hands, link), () => drop(hands, file)]) {
    await hands.source("package main\nfunc main() { println(7) }\n");
    await opening();
    await hands.until("rewind.page.views.stories.own && rewind.page.session.log.length > 10");
    await hands.idle();
    const verdict = "Not yet: it has printed nothing, and should have printed “done”, and the program has not come to its end.";
    assert.deepEqual([await hands.text("#task-text"), await hands.text("#task-verdict")], ["Let both workers come to their end.", verdict], "its task is told, and what is missing");
    for (const line of ["back g0.1#1", "step g0.2", "step g0.2", "step g0.2", "run 100"]) await hands.perform(line);
    assert.equal(await hands.text("#task-verdict"), "Solved.", "the session solves it, by another way too");
  }
  assert.deepEqual(await browser.run("(JSON.parse(localStorage.getItem('rewind-settings')).solved || []).includes('lesson')"), false, "it is not taken for one of the menu");
}

// What a pupil saves is opened with the task, and the verdict on it.
/** @param {Hands} hands */
async function handedIn(hands) {
  const text = await given(hands, "save-file");
  assert.ok(/\n\/\/ \/\/ exercise: Untie it\n/.test(text) && /\n\/\/ back g0\.1#1\n/.test(text), "a file of an exercise has its task, and what was done of it");
  await hands.story("deadlock");
  await drop(hands, text);
  await hands.until("rewind.page.views.stories.own && rewind.page.session.log.isOver");
  await hands.idle();
  assert.deepEqual([await hands.text("#task-text"), await hands.text("#task-verdict")], ["Let both workers come to their end.", "Solved."], "and is opened with the verdict");
}

/** @param {Hands} hands */
async function allSchedules(hands) {
  const { browser } = hands;
  await hands.source(`${LOCKS}\n`);
  await open(hands);
  await click(hands, "lesson-is-exercise");
  await click(hands, "goal-safe");
  assert.deepEqual(await browser.run("['state', 'chosen'].map((name) => document.getElementById(`goal-${name}`).disabled)"), [true, true], "steps and states of a program that changes are no goal");
  await write(hands, "lesson-task", "Change the program so that it cannot be stuck.");
  await click(hands, "lesson-try");
  await hands.until("rewind.page.views.stories.own?.goal.safe");
  await hands.idle();
  assert.equal(await hands.text("#task-verdict"), "Not yet: all schedules are not searched: press Search all schedules.");
  await hands.click("#search-whole");
  await hands.idle();
  assert.deepEqual([await hands.text("#task-verdict"), /^A schedule ends badly: \d+ steps from the first step lead to a deadlock\.$/.test(await hands.text("#status"))], ["Not yet: a schedule of this program ends badly.", true], "the page searches all schedules");
  await hands.source(MENDED);
  assert.deepEqual([await hands.text("#task-text"), await hands.text("#task-verdict")], ["Change the program so that it cannot be stuck.", "Not yet: all schedules are not searched: press Search all schedules."], "the task stays where the source is changed, and its answer does not");
  await hands.perform("run 10");
  await hands.click("#search-whole");
  await hands.idle();
  assert.equal(await hands.text("#task-verdict"), "Solved.", "a program of which no schedule ends badly solves it");
  await new Promise((go) => setTimeout(go, 400));
  await reload(hands);
  assert.deepEqual([await browser.run("rewind.page.views.editor.text"), await hands.text("#task-text")], [MENDED, "Change the program so that it cannot be stuck."], "the work is there after a reload, with its task");
  await hands.story("deadlock");
}

/** @param {Hands} hands */
async function reload(hands) {
  await hands.browser.call("Page.reload");
  await hands.until("window.started");
  await hands.browser.run("window.started");
  await hands.idle();
}

/** @param {Hands} hands */
async function aDraft(hands) {
  const { browser } = hands;
  await hands.source(`${LOCKS}\n\n`);
  for (const line of ["step g0", "step g0"]) await hands.perform(line);
  await open(hands);
  await write(hands, "lesson-name", "A draft");
  await browser.run("{ const it = document.querySelector('#lesson-commands input'); it.value = 'Look.'; it.oninput({ target: it }); }");
  await new Promise((go) => setTimeout(go, 400));
  await reload(hands);
  await hands.perform("step g0");
  await open(hands);
  const texts = "[...document.querySelectorAll('#lesson-commands input')].map((it) => it.value)";
  assert.deepEqual([await browser.run("document.getElementById('lesson-name').value"), await browser.run(texts)], ["A draft", ["Look.", "", ""]], "a draft is there after a reload, and later commands are recorded besides");
  await click(hands, "lesson-try");
  await hands.until("rewind.page.views.stories.own && rewind.page.session.log.length === 0");
  await hands.idle();
  await open(hands);
  assert.deepEqual([await browser.run(texts), await browser.run("document.getElementById('lesson-anew').hidden")], [["Look.", "", ""], false], "a trial of it loses nothing");
  await click(hands, "lesson-anew");
  assert.equal(await hands.text("#lesson-lack"), "No command is recorded yet: take some steps, and come back.", "one can begin anew");
  await browser.run("document.getElementById('lesson-dialog').close()");
}

/** @param {Hands} hands */
async function byKeys(hands) {
  const { browser } = hands;
  await hands.source(`${LOCKS}\n\n\n`);
  await hands.perform("run 5");
  await browser.run("document.getElementById('share').focus()");
  await browser.key("Enter");
  await browser.run("document.getElementById('make-lesson').focus()");
  await browser.key("Enter");
  await hands.until("document.getElementById('lesson-dialog').open");
  await browser.run("document.getElementById('lesson-name').focus()");
  for (const letter of "sx1") await browser.key(letter);
  assert.deepEqual([await browser.run("document.getElementById('lesson-name').value"), (await hands.ids()).length], ["sx1", 5], "letters are typed, and are no keys of the page");
  await browser.run("document.getElementById('lesson-is-story').focus()");
  await browser.key("ArrowRight");
  assert.equal(await browser.run("document.getElementById('lesson-exercise').hidden"), false, "arrows choose an exercise");
  await browser.run("document.getElementById('goal-printed').focus()");
  await browser.key(" ");
  await hands.until("document.getElementById('goal-printed').checked");
  assert.equal(await browser.run("document.activeElement.id"), "goal-printed", "a blank sets a goal, and the focus stays");
  await browser.key("Escape");
  await hands.until("!document.getElementById('lesson-dialog').open");
  await hands.source(`${LOCKS}\n// changed\n`);
  await browser.run("rewind.page.views.editor.text = 'package main\\nfunc main() {}\\n'");
  await click(hands, "make-lesson");
  assert.equal(await hands.text("#status"), "You changed the source: press Start first, and take the steps of the story or the exercise.", "a session of another text is refused in words");
}

/**
 * @param {TestContext} t
 * @param {TestBrowser} browser
 */
export const ownLessons = (t, browser) =>
  inTurn(t, browser, {
    "a story": aStory,
    "an exercise": anExercise,
    "what is handed in": handedIn,
    "no schedule ends badly": allSchedules,
    "a draft": aDraft,
    "by keys": byKeys,
  });
