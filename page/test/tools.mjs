// What other tools say of the page: its types and style.

import assert from "node:assert/strict";
import { spawnSync } from "node:child_process";
import { test } from "node:test";

const PAGE = new URL("..", import.meta.url).pathname;

/** @param {...string} words */
function succeeds(...words) {
  const { stdout, stderr, status } = spawnSync(words[0], words.slice(1), { encoding: "utf8", cwd: PAGE });
  assert.equal(status, 0, `${words.join(" ")}: ${stdout || ""}${stderr || "it does not run"}`);
}

test("types and style", () => succeeds("./lint.sh"));
