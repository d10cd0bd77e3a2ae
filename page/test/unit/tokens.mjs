// The tokens: no style has a colour or a size of type of its own, and texts have their contrast on every background.

import assert from "node:assert/strict";
import { readFileSync, readdirSync } from "node:fs";
import { test } from "node:test";
import { paletteRules } from "../../src/tokens.js";
import { PICTURE_RULES } from "../../src/picture/picture.js";

const STYLES = new URL("../../src/style/", import.meta.url).pathname;
const ENOUGH = 4.5;
const TEXTS = ["text", "muted", "cause", "consequence", "stuck", "good", "keyword", "comment"];
const GROUNDS = ["page", "panel", "field"];
// Of each text the grounds of a colour that it stands on too.
const ON = { text: ["cause-wash", "consequence-wash", "stuck-wash", "found", "here"], muted: ["cause-wash", "consequence-wash", "found", "here"], cause: ["cause-wash"], consequence: ["consequence-wash"], stuck: ["stuck-wash", "consequence-wash", "cause-wash"] };

test("colours and sizes of type stand in one file", () => {
  for (const name of readdirSync(STYLES)) {
    const style = readFileSync(STYLES + name, "utf8");
    assert.deepEqual(style.match(/#[0-9a-f]{3,8}\b(?=[;}\s])|\brgba?\(|font-size:(?!var)[^;}]*/g), null, `${name} has colours and sizes by their names`);
  }
  assert.deepEqual(PICTURE_RULES.match(/#[0-9a-f]{3,8}\b|\brgba?\(/g), null, "so has the picture");
});

/** @param {string} colour */
function brightness(colour) {
  const light = [1, 3, 5].map((at) => parseInt(colour.slice(at, at + 2), 16) / 255).map((it) => (it <= 0.03928 ? it / 12.92 : ((it + 0.055) / 1.055) ** 2.4));
  return 0.2126 * light[0] + 0.7152 * light[1] + 0.0722 * light[2];
}

test("texts have a contrast of 4.5 to 1", () => {
  const [, light, dark] = paletteRules(":root").split(/\{(?=--page)/);
  for (const rules of [light, dark]) {
    /** @type {{[name: string]: string}} */
    const colours = Object.fromEntries([...rules.matchAll(/--([\w-]+):(#[0-9a-f]{6})/g)].map(([, name, colour]) => [name, colour]));
    for (const text of TEXTS) {
      for (const ground of [...GROUNDS, .../** @type {{[text: string]: string[]}} */ (ON)[text] || []]) {
        const [one, other] = [brightness(colours[text]), brightness(colours[ground])];
        const contrast = (Math.max(one, other) + 0.05) / (Math.min(one, other) + 0.05);
        assert.ok(contrast >= ENOUGH, `${text} on ${ground} has ${contrast.toFixed(2)}`);
      }
    }
  }
});
