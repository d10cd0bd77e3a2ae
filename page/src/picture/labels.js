// The words of the picture, cut to the length of their column.

/**
 * @param {string} text
 * @param {number} most
 */
export function shortened(text, most) {
  const line = text.replace(/\s+/g, " ");
  if (lettersOf(line) <= most) return line;
  let [kept, left] = ["", most - 1];
  for (const sign of line.slice(0, most)) {
    left -= lettersOf(sign);
    if (left < 0) break;
    kept += sign;
  }
  return `${kept}…`;
}

const WIDE = /[\u1100-\u115f\u2e80-\ua4cf\uac00-\ud7a3\uf900-\ufaff\ufe30-\ufe6f\uff00-\uff60\uffe0-\uffe6]/g;

// The letters that a text takes: a sign of Chinese takes two.
/** @param {string} text */
export const lettersOf = (text) => text.length + (text.match(WIDE)?.length || 0);

/**
 * @param {string[]} lines
 * @param {number} most
 */
export const printedText = (lines, most) => (lines.length ? shortened(lines.map((text) => `“${text}”`).join(" "), most) : "");

// A text that XML may hold, with the signs of XML as escapes.
/** @param {string} text */
export const escaped = (text) =>
  text.replace(/[^\t\n\r\u0020-\ud7ff\ue000-\ufffd\u{10000}-\u{10ffff}]/gu, "\ufffd").replace(/[&<>"]/g, (letter) => `&#${letter.charCodeAt(0)};`);
