// The page in a frame of another page: the source, the steps and what is asked, with a link that opens the whole page where the frame
// stands. A frame keeps nothing in the browser's store, so the work of the whole page stays as it is.

import { addressOf } from "./sharing.js";
import { field, find } from "../element.js";

/** @typedef {import("./page.js").Page} Page */

export const isEmbedded = () => document.body.classList.contains("embed");

/** @param {boolean} isOn */
export function embed(isOn) {
  document.body.classList.toggle("embed", isOn);
  find("full").hidden = !isOn;
}

// Keeps the link to the whole page at the session as it stands.
/** @param {Page} page */
export function linkToFull(page) {
  let asked = 0;
  page.listeners.push(async () => {
    if (!isEmbedded()) return;
    const mine = ++asked;
    const address = await addressOf(page);
    if (mine === asked) /** @type {any} */ (field("full")).href = address;
  });
}
