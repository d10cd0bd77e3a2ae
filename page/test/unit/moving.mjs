// A saved picture that moves.

import assert from "node:assert/strict";
import { test } from "node:test";
import { moving } from "../../src/picture/moving.js";

const SVG = '<svg><style>a{}</style><path class="edge" data-to="g0#2" d="M0 0"/><g class="step" data-mark="g0#1"><circle/></g><g class="step" data-step="g0#2"><text>&#62;</text></g></svg>';

test("each step appears behind the one before", () => {
  const text = moving(SVG, ["g0#1", "g0#2"]);
  assert.deepEqual([...text.matchAll(/animation-delay:([\d.]+)s" class="(\w+)"/g)].map(([, delay, name]) => [name, Number(delay)]), [["edge", 0.9], ["step", 0], ["step", 0.9]]);
  assert.ok(/@keyframes appear.*<\/style>/s.test(text) && /prefers-reduced-motion/.test(text));
});

test("a long run takes a minute", () => {
  const ids = Array.from({ length: 601 }, (_, at) => `g0#${at + 1}`);
  const last = /animation-delay:([\d.]+)s/.exec(moving('<style></style><g data-step="g0#601">', ids)) || [];
  assert.ok(Number(last[1]) > 59 && Number(last[1]) <= 60);
});
