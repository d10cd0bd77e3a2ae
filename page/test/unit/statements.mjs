// The statements of a source, and the same source with each on a line of its own.

import assert from "node:assert/strict";
import { test } from "node:test";
import { Statements } from "../../src/session/statements.js";

const SOURCE = `package main
func f(n int, c chan struct{}) int { if n > 0 { c <- struct{}{}; return f(n-1, c) }; return n } // two
func main() {
	c := make(chan struct{}, 3)
outer:
	for i := 0; i < 2; i++ { println("a;b", i); continue outer }
	select {
	case v, ok := <-c: _, _ = v, ok
	case c <- struct{}{}:
	default: println(f(0, c) == 0 && true)
	}
}
`;

const found = new Statements(SOURCE);

test("the statements with their lines", () => {
  assert.deepEqual(found.all.map(({ line, text }) => `${line} ${text}`), [
    "2 if n > 0", "2 c <- struct{}{}", "2 return f(n-1, c)", "2 return n", "2 }", "4 c := make(chan struct{}, 3)", "6 for i := 0; i < 2; i++",
    '6 println("a;b", i)', "6 continue outer", "7 select", "8 _, _ = v, ok", "10 println(f(0, c) == 0 && true)", "12 }",
  ]);
});

test("each is alone on its line of the expanded source, which differs by new lines only", () => {
  const lines = found.all.map(({ expandedLine }) => expandedLine);
  assert.equal(new Set(lines).size, lines.length);
  assert.ok(found.all.every(({ expandedLine, text }) => found.expanded.split("\n")[expandedLine - 1].includes(text)), "and stands there");
  assert.equal(found.expanded.replaceAll("\n", ""), SOURCE.replaceAll("\n", ""));
});

test("the clauses of a select", () => {
  assert.deepEqual(found.all.find(({ text }) => text === "select")?.clauses, ["v, ok := <-c", "c <- struct{}{}", "default"]);
});

test("lines that have a breakpoint", () => {
  assert.deepEqual([found.snap(1), found.snap(3), found.snap(5), found.snap(99)], [2, 4, 6, 0], "on an empty line it is met at the next statement");
  assert.equal(found.runLines(2).length, 5, "a line of several statements has one on each");
});
