// What is wrong in a source that is refused.

import assert from "node:assert/strict";
import { readFileSync } from "node:fs";
import { test } from "node:test";
import { explain } from "../../src/refused/refusals.js";
import { goTokens, openBrackets } from "../../src/refused/tokens.js";
import { mostLike } from "../../src/refused/similar.js";

const TABLE = JSON.parse(readFileSync(new URL("../../../clients/rewind_client/refusals.json", import.meta.url), "utf8"));
/** @param {string} code */
const refusal = (code, line = 0, column = 0) => ({ code, line, column, text: `rewind: ${code}` });
/** @param {...string} lines */
const inMain = (...lines) => `package main\n\nfunc main() {\n${lines.map((it) => `\t${it}\n`).join("")}}\n`;

// A source, the refusal of it, and what is said: the sentence, the marked word, what to write instead, and a hint.
/** @typedef {[code: string, line: number, column: number]} Refused */
/** @type {[source: string, place: Refused, told: string[] | null][]} */
const CASES = [
  [inMain("x := 1", "y := x + totl", "println(y)"), ["C1", 5, 2], ["undeclared name: totl", "totl", "", "a declaration before it, or a parameter totl"]],
  [inMain("total := 1", "y := 2 + totl", "println(y)"), ["C1", 5, 2], ["undeclared name: totl (did you mean total?)", "totl", "total", ""]],
  [inMain("n := 1", "n += true"), ["C3", 5, 2], ["+= takes a number: true is bool", "true", "", ""]],
  [inMain("x := 1", "if x {", "}"), ["C3", 5, 2], ["the condition of if must be true or false, and x is int", "x", "x != 0", ""]],
  [inMain("break"), ["C8", 4, 2], ["break stands only in a for or a select", "break", "", "return, where the function is to end"]],
  [inMain("c := make(chan<- int)", "println(<-c)"), ["C5", 5, 2], null],
  [inMain("x := 1", "println(x / 0)"), ["C7", 5, 2], null],
  [inMain("x := 9223372036854775807 + 1", "println(x)"), ["C7", 4, 2], null],
  ["package main\n\nfunc one() int {\n}\nfunc main() {\n}\n", ["C6", 4, 1], null],
  ["package main\nimport \"fmt\"\nfunc main() {}\n", ["P2", 2, 1], null],
];

test("sentences of refusals", () => {
  for (const [source, place, told] of CASES) {
    const found = explain(TABLE, source, refusal(...place));
    const word = source.split("\n")[found.line - 1].slice(found.column - 1, found.column - 1 + found.length);
    if (told) assert.deepEqual([found.sentence, word, found.instead, found.hint], told, `a refusal with ${place[0]}`);
    else assert.ok(found.sentence !== TABLE[place[0]].meaning && word, `a form of ${place[0]} is found`);
  }
  const { whole } = explain(TABLE, CASES[2][0], refusal(...CASES[2][1]));
  assert.equal(CASES[2][0].slice(whole?.start, whole?.end), "n += true", "the statement around what is wrong");
  assert.deepEqual(explain(TABLE, "package main\n", refusal("P4")).sentence, TABLE.P4.forms[0].sentence, "a code without a place has one sentence");
  assert.equal(explain(TABLE, "", refusal("Z9", 1, 1)).sentence, "rewind: Z9", "one that is not known gives what the program wrote");
});

// A place that the program would not tell gives a sentence too, and so does a source that ends in the midst.
test("any place is explained", () => {
  const source = readFileSync(new URL("../../../clients/tests/refused/select_send_on_receive_only.go", import.meta.url), "utf8");
  for (const code of ["S1", "S6", "P1", "P2", "C1", "C3", "C4", "C7", "C10"]) {
    /** @type {[string, Refusal][]} */
    const places = [];
    for (let end = 0; end < source.length; end += 7) {
      const lines = source.slice(0, end).split("\n");
      for (const [line, column] of [[1, 1], [lines.length, lines[lines.length - 1].length + 1], [99, 99]]) places.push([source.slice(0, end), refusal(code, line, column)]);
    }
    assert.ok(places.every(([text, place]) => explain(TABLE, text, place).sentence), `any place of a source is explained with ${code}`);
  }
  const long = inMain(`println(${"1 + ".repeat(100000)}true)`);
  assert.ok(explain(TABLE, long, refusal("P3", 4, 1000)).sentence, "and so is a long line");
  assert.ok(explain(TABLE, inMain(`println(${"(".repeat(20000)}1)`), refusal("C3", 4, 2)).sentence, "even where it is too deep to be read");
});

test("tokens, and brackets that are open", () => {
  const kinds = goTokens("x := \"a\" // é\n").map(({ kind, text }) => [kind, text]);
  assert.deepEqual(kinds, [["name", "x"], ["operator", ":="], ["text", '"a"'], ["end", "\n"], ["file", "<end>"]]);
  assert.deepEqual(openBrackets(goTokens("f(a[1], {")).map(({ text }) => text), ["(", "{"]);
});

test("a name that was meant", () => {
  assert.deepEqual([mostLike("totl", ["total", "to", "x"]), mostLike("qqqq", ["total", "x"])], ["total", ""]);
});
