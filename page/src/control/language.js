// The language of the page: that of the address, or else the one that was chosen here, or else the browser's.

import { askedBy, inflated } from "./linking.js";
import { addressOf } from "./sharing.js";
import { directionOf, firstOf, SOURCE, speak, translateElements } from "../phrases.js";
import { field, find, make } from "../element.js";
import { keepSettings, settings } from "./keeping.js";

/** @typedef {import("./page.js").Page} Page */

let chosen = ""; // by the address, or here; "" where the browser's wish counts

// What an address says of the language.
export const languageWord = () => (chosen ? `&lang=${chosen}` : "");

// Turns the page to its language, before anything of it is made.
/** @param {{[code: string]: string}} languages */
export async function takeLanguage(languages) {
  const codes = Object.keys(languages);
  chosen = [askedBy(location.hash).language, settings().language].find((it) => codes.includes(it)) || "";
  const code = chosen || firstOf(navigator.languages, codes);
  if (code !== SOURCE && !(await isTaken(code, languages))) chosen = "";
  find("language").append(...codes.map((it) => make("option", { value: it, lang: it }, languages[it])));
  field("language").value = chosen;
}

// Whether the phrases of a language could be read, as they can where the browser inflates.
/**
 * @param {string} code
 * @param {{[code: string]: string}} languages
 */
async function isTaken(code, languages) {
  try {
    speak(code, { languages, phrases: JSON.parse(new TextDecoder().decode(await inflated(find("phrases").textContent || ""))) });
  } catch {
    return false;
  }
  Object.assign(document.documentElement, { lang: code, dir: directionOf(code) });
  translateElements(document.documentElement);
  return true;
}

// Another language is chosen: the page is loaded anew in it, with the session as it stands.
/** @param {Page} page */
export function listenToLanguage(page) {
  find("language").onchange = async () => {
    chosen = field("language").value;
    keepSettings({ language: chosen });
    history.replaceState(null, "", await addressOf(page));
    location.reload();
  };
}
