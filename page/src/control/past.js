// Looks at a past state: the panes show it, the picture dims what came later, and the session is left as it is.

import { placeOf } from "./finding.js";
import { isUnanswered } from "../engine/remote.js";
import { unshown } from "../session/scene.js";
import { phrase } from "../phrases.js";

const TELLING = 200; // milliseconds between two words on how far the way to a state is done

// A session that is gone shows no state.
/**
 * @param {unknown} fault
 * @returns {null}
 */
function noScene(fault) {
  if (!isUnanswered(fault)) throw fault;
  return null;
}

export class Past {
  /** @param {import("./page.js").Page} page */
  constructor(page) {
    this.page = page;
    this.row = -1; // how many steps were taken, or -1 for the present
    this.found = -1; // the same of the state that the panes show
    this.isMissed = false; // whether it cannot be found
    /** @type {Scene | null} */
    this.scene = null;
    this.asked = 0;
  }

  get isOn() {
    return this.row >= 0;
  }

  // Shows the state after this many steps. Of several that are asked for at once, the last one counts, and the way to the others ends.
  /** @param {number} row */
  async lookAt(row) {
    const { session } = this.page;
    if (!session || session.isRunning || session.gone) return;
    if (row >= session.log.length) return this.back();
    this.row = row;
    this.isMissed = false;
    const asked = ++this.asked;
    const isAsked = () => asked === this.asked && session === this.page.session;
    this.page.views.past.show(this.page);
    const telling = window.setInterval(() => isAsked() && this.page.views.past.show(this.page), TELLING);
    const scene = await session.reader.sceneAt(row, isAsked).catch(noScene).finally(() => clearInterval(telling));
    if (!isAsked()) return;
    this.isMissed = !scene;
    if (scene) return this.show(session, scene);
    this.page.views.past.show(this.page);
    this.page.showScene(unshown(phrase("it cannot be found")), true);
  }

  // Shows the state that was looked for.
  /**
   * @param {import("../session/session.js").Session} session
   * @param {Scene} scene
   */
  show({ log }, scene) {
    const { page, row } = this;
    this.scene = scene;
    this.found = row;
    page.views.past.show(page);
    page.say(phrase("The panes show a past state. A command acts on the present one."));
    page.showScene(scene, true);
    page.pointing.draw();
    if (row) page.views.picture.reveal(log.id(row - 1));
    const stands = row < log.length ? scene.goroutines.find(({ name }) => name === log.columns[row].name) : null;
    const line = page.session && placeOf(page.session, stands);
    if (line) page.views.editor.reveal(line);
  }

  leave() {
    this.asked++;
    this.row = this.found = -1;
    this.scene = null;
    this.page.views.past.show(this.page);
  }

  // Shows the present again.
  back() {
    if (!this.isOn) return;
    this.leave();
    this.page.say(phrase("The panes show the present state."));
    if (this.page.session) this.page.showScene(this.page.session.scene);
    this.page.pointing.draw();
  }
}
