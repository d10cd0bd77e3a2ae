// The tour: three bubbles that tell the idea beside what they are about. It can be left at any moment, and comes by itself but once.

import { find } from "../element.js";
import { openFirst } from "../control/opening.js";
import { keepSettings, settings } from "../control/keeping.js";
import { phrase, phraseKey } from "../phrases.js";

/** @typedef {import("../control/page.js").Page} Page */

const GAP = 10; // pixels between a bubble and what it is about
const TIP = 28; // from the side of a bubble to its tip

// What each bubble says, and beside what it stands.
const BUBBLES = [
  { text: phraseKey("This program ran into a deadlock: each of two goroutines waits for the other. What is red is stuck."), at: "#headline" },
  { text: phraseKey("This step took a lock too early. What goes back with it is orange, and what it is because of is blue. All else stays."), at: "#picture .pointed .kind" },
  { text: phraseKey("Take it back, and the other transfer can go on. Nothing is run anew."), at: "#back" },
];

export class Tour {
  /** @param {Page} page */
  constructor(page) {
    this.page = page;
    this.at = -1;
    this.isWanted = true; // until it is left
    window.addEventListener("resize", () => this.place());
    window.addEventListener("keydown", ({ key }) => key === "Escape" && this.leave());
    page.listeners.push(() => this.at >= 0 && !page.pointing.pinned && this.leave());
  }

  // Begins by itself where it did not before.
  async offer() {
    if (settings().toured) return;
    await this.page.annotating.settled();
    if (this.isPossible && this.isWanted) this.show(0);
  }

  // There is something to tell of: a deadlock, and a step of it that is chosen.
  get isPossible() {
    const { session, pointing } = this.page;
    return Boolean(session?.scene.isStuck && pointing.pinned);
  }

  // Begins once more, with the deadlock that it tells of.
  async begin() {
    this.isWanted = true;
    await openFirst(this.page);
    await this.page.annotating.settled();
    if (this.isPossible && this.isWanted) this.show(0);
  }

  /** @param {number} at */
  show(at) {
    this.at = at;
    keepSettings({ toured: true });
    find("tour").hidden = false;
    find("tour-text").textContent = phrase(BUBBLES[at].text);
    find("tour-at").textContent = phrase("{row} of {count}", { row: at + 1, count: BUBBLES.length });
    find("tour-next").textContent = at + 1 < BUBBLES.length ? phrase("Next ›") : phrase("Done");
    this.place();
  }

  go() {
    if (this.at + 1 < BUBBLES.length) this.show(this.at + 1);
    else this.leave();
  }

  leave() {
    this.at = -1;
    this.isWanted = false;
    find("tour").hidden = true;
  }

  // Puts the bubble below what it is about, or above it where there is no room.
  place() {
    const about = this.at < 0 ? null : document.querySelector(BUBBLES[this.at].at);
    if (!about) return;
    const [box, bubble] = [about.getBoundingClientRect(), find("tour")];
    const middle = (Math.max(0, box.left) + Math.min(window.innerWidth, box.right)) / 2;
    const isBelow = box.bottom + GAP + bubble.offsetHeight < window.innerHeight;
    const left = Math.max(GAP, Math.min(window.innerWidth - bubble.offsetWidth - GAP, middle - TIP));
    bubble.className = isBelow ? "below" : "above";
    bubble.style.left = `${left}px`;
    bubble.style.top = `${isBelow ? box.bottom + GAP : box.top - GAP - bubble.offsetHeight}px`;
    bubble.style.setProperty("--tip", `${Math.max(8, Math.min(bubble.offsetWidth - 20, middle - left - 6))}px`);
  }
}
