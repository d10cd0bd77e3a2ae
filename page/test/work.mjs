// Work is not lost: over a reload, a change of story, a refused text, a busy page. And what a refusal says.

import assert from "node:assert/strict";
import { readFileSync, readdirSync } from "node:fs";
import { inTurn } from "./parts.mjs";

const OWN = "package main\nfunc main() {\n\tprintln(7)\n}\n";

/**
 * @param {TestBrowser} browser
 * @param {Hands} hands
 */
async function reload(browser, hands) {
  await browser.call("Page.reload");
  await hands.until("window.started");
  await browser.run("window.started");
  await hands.idle();
}

/** @param {Hands} hands */
async function overAReload(hands) {
  const { browser } = hands;
  await hands.source(OWN);
  await hands.browser.run("rewind.toggleBreak(rewind.page, 3)");
  await hands.perform("step g0");
  await hands.browser.run("document.getElementById('theme').value = 'dark', document.getElementById('theme').onchange()");
  await new Promise((go) => setTimeout(go, 400));
  await reload(browser, hands);
  assert.deepEqual(await browser.run("rewind.page.views.editor.text"), OWN, "a reload keeps the source");
  assert.deepEqual([await hands.ids(), await hands.texts("#console li")], [["g0#1"], ["7"]], "and the session");
  assert.deepEqual(await browser.run("[[...rewind.page.session.breakpoints], document.documentElement.dataset.theme]"), [[3], "dark"], "and the breakpoint, and the colours");
  await hands.browser.run("rewind.toggleBreak(rewind.page, 3), document.getElementById('theme').value = '', document.getElementById('theme').onchange()");
  await hands.idle();
}

/** @param {Hands} hands */
async function storiesOverAReload(hands) {
  const { browser } = hands;
  await hands.story("deadlock");
  for (let count = 0; count < 3; count++) await hands.act("next");
  await new Promise((go) => setTimeout(go, 400));
  await reload(browser, hands);
  assert.deepEqual(await browser.run("[rewind.page.views.stories.name, rewind.page.views.stories.at > 0, rewind.page.session.log.length]"), ["deadlock", true, 16], "a story goes on after a reload");
  await hands.act("start");
  assert.deepEqual(await browser.run("[rewind.page.views.stories.at, rewind.page.session.log.length]"), [0, 0], "and begins anew with a new start");
}

/** @param {Hands} hands */
async function overAChangeOfStory(hands) {
  await hands.source(OWN);
  await hands.story("deadlock");
  await hands.browser.run("rewind.page.views.editor.editor.undo()");
  assert.deepEqual(await hands.browser.run("rewind.page.views.editor.text"), OWN, "undoing in the editor brings the text before a story back");
}

/** @param {Hands} hands */
async function refusedTexts(hands) {
  await hands.source(OWN);
  await hands.perform("step g0");
  await hands.source(OWN.replace("println(7)", "println(seven)"));
  assert.deepEqual(await hands.ids(), ["g0#1"], "a refused text leaves the session as it is");
  assert.ok(/The session is still that of the text before/.test(await hands.text("#status")), "the page says so");
  assert.ok(/undeclared name: seven/.test(await hands.text(".refusal-note")), "and names what is not declared");
  assert.deepEqual(await hands.texts(".refused-word"), ["seven"], "and marks it");
  assert.deepEqual(await hands.lastReply(), ["The source in the editor is refused (rewind: C1 at 3:2). The session is still that of the text before."], "the commands and replies tell of it last");
  assert.deepEqual(await hands.texts("#editor .at-line"), [], "lines of another text are not marked");
  await hands.source(`package main\nimport "fmt"\nfunc main() {}\n`);
  assert.ok(/import/.test(await hands.text(".refusal-note")) && !/a syntax error/.test(await hands.text(".refusal-note")), "an import is refused in words for students");
  await hands.source("package main\nfunc main() {\n\tx := 1\n\tx = x + true\n}\n");
  assert.equal((await hands.texts(".refused-statement")).join("").replace(/\s/g, ""), "x=x+true", "the whole statement is marked");
  assert.deepEqual(await hands.texts(".refused-word"), ["true"], "and in it what is wrong");
}

/** @param {Hands} hands */
async function keptLines(hands) {
  await hands.source(OWN.replace("println(7)", "for { }"));
  await hands.browser.run("rewind.page.perform('run 400000'), 0");
  await hands.until("rewind.page.session.isRunning");
  await hands.browser.run("document.getElementById('line').value = 'step g0', document.getElementById('ask').onsubmit(new Event('submit'))");
  await hands.browser.run("rewind.page.stop()");
  await hands.idle();
  assert.equal(await hands.browser.run("document.getElementById('line').value"), "step g0", "a line that was typed during a run is kept");
  await hands.browser.run("document.getElementById('line').value = ''");
  assert.ok(/stopped by you/.test(await hands.text("#status")), "a stopped run says so");
}

/** @param {Hands} hands */
async function numbersOfRuns(hands) {
  await hands.source(OWN);
  for (const count of ["0", "1.5", "2000000", "1e3", "ten"]) {
    await hands.browser.run(`document.getElementById('count').value = ${JSON.stringify(count)}`);
    await hands.act("run");
    assert.equal(await hands.text("#status"), "Run takes a whole number of steps, from 1 to 1,000,000.", `a run of ${count} steps is refused in words`);
  }
  await hands.source(OWN.replace("println(7)", "for { }"));
  await hands.browser.run("document.getElementById('count').value = '1,000'");
  await hands.act("run");
  assert.equal(await hands.text("#status"), "1,000 steps taken: as many as asked.", "a run of 1,000 steps may be written so");
  await hands.browser.run("document.getElementById('count').value = '100'");
}

/** @param {Hands} hands */
async function links(hands) {
  const { browser } = hands;
  await browser.run("navigator.clipboard.writeText = async () => {}");
  await hands.act("copy-link");
  assert.ok(/^The link is copied: .* holds the whole session, .* press Save, and send the file/.test(await hands.text("#status")), "a link that is made from disk says what it holds, and how to use it");
  await browser.run("location.hash = '#s=abcdef'");
  await hands.until("/damaged/.test(document.getElementById('status').textContent)");
  await reload(browser, hands);
  assert.equal(await hands.text("#status"), "The link is damaged, and no session can be read of it: ask for it anew.", "a damaged link is told, and stays told");
  await browser.run("history.replaceState(null, '', location.href.split('#')[0])");
}

/** @param {Hands} hands */
async function storyOfAnother(hands) {
  await hands.story("send_on_closed");
  assert.ok(await hands.browser.run("!document.getElementById('next').hidden"), "a story has a next command");
  await hands.source(OWN);
  assert.ok(await hands.browser.run("document.getElementById('next').hidden"), "a program of one's own has none");
  assert.deepEqual(await hands.browser.run("[document.getElementById('about-story').hidden, document.getElementById('story').selectedOptions[0].textContent]"), [true, "your own program"], "nor is a story told of it");
}

const REFUSED = new URL("../../clients/tests/refused/", import.meta.url).pathname;

// Runs in the page: what it says of a refused source.
/** @param {string} source */
async function saidInPage(source) {
  const { Session, program, explain, parseFault, page } = window.rewind;
  const session = await Session.open(program, new TextEncoder().encode(source));
  const refusal = parseFault(session.errors);
  const { line, column, sentence, instead, hint } = explain(page.given.refusals, source, refusal);
  return [line ? `${line}:${column}: ${sentence}` : sentence, ...(instead ? [`write instead: ${instead}`] : []), ...(hint ? [`hint: ${hint}`] : [])];
}

// Refusals come out as the clients have them.
/** @param {Hands} hands */
async function refusalsAsTold(hands) {
  const other = [];
  let same = 0;
  for (const file of readdirSync(REFUSED).filter((name) => name.endsWith(".go"))) {
    const source = readFileSync(REFUSED + file, "utf8");
    if (source.includes("\ufffd")) continue; // it is no text
    const said = await hands.browser.run(`(${saidInPage})(${JSON.stringify(source)})`);
    const [told, ...more] = readFileSync(REFUSED + file.replace(/go$/, "expect"), "utf8").trimEnd().split("\n");
    const all = [told.replace(/^[^:]*: ?/, ""), ...more.filter((line) => /^(?:write instead|hint): /.test(line))];
    if (JSON.stringify(all) === JSON.stringify(said)) same++;
    else other.push(file);
  }
  assert.deepEqual(other, [], "each refusal of a source is told as the clients tell it");
  assert.ok(same > 540, `${same} of them`);
}

// A browser that cannot compile the program.
/** @param {Hands} hands */
async function otherBrowsers(hands) {
  const { browser } = hands;
  const { identifier } = await browser.call("Page.addScriptToEvaluateOnNewDocument", { source: "WebAssembly.compile = () => Promise.reject(new WebAssembly.CompileError('no 64-bit memory'))" });
  await browser.call("Page.reload");
  await hands.until("window.started instanceof Promise");
  assert.equal(await browser.run("window.started"), false, "a browser that cannot run the program starts no session");
  assert.ok((await hands.texts("#story option")).length > 20 && /package main/.test(await browser.run("document.querySelector('.CodeMirror').CodeMirror.getValue()")), "it has the menu and the source");
  assert.ok(/Chrome .*Firefox .*no 64-bit memory/.test(await hands.text("#cannot")), "and is told which browsers work");
  assert.equal(await browser.run("[...document.querySelectorAll('#step, #run, #undo')].every((it) => it.disabled)"), true, "its buttons are off");
  await browser.call("Page.removeScriptToEvaluateOnNewDocument", { identifier });
  await reload(browser, hands);
  assert.ok((await hands.ids()).length >= 0, "another one goes on");
}

const WORKS = {
  "over a reload": overAReload,
  "a story over a reload": storiesOverAReload,
  "over a change of story": overAChangeOfStory,
  "refused texts": refusedTexts,
  "a line that is typed during a run": keptLines,
  "numbers of runs": numbersOfRuns,
  links,
  "a program of one's own": storyOfAnother,
  "refusals as the clients tell them": refusalsAsTold,
  "a browser that cannot run the program": otherBrowsers,
};

/**
 * @param {TestContext} t
 * @param {TestBrowser} browser
 */
export const works = (t, browser) => inTurn(t, browser, WORKS);
