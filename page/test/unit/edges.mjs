// What an edge stands for: a start, a close, a value, or only the order of two steps.

import assert from "node:assert/strict";
import { test } from "node:test";
import { edgeKind } from "../../src/session/edges.js";

test("kinds of edges", () => {
  assert.deepEqual([edgeKind("go", false), edgeKind("close", false), edgeKind("pick 1", true), edgeKind("take", false)], ["start", "close", "message", "order"]);
});
