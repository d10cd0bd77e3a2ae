// What of the picture is shown: the lanes of goroutines, the operations of one channel or of all, and arrows of the order of waiting.

import { make } from "../element.js";
import { calledBy, holdersOf } from "./holders.js";
import { phrase } from "../phrases.js";

const MOST = 200; // goroutines, and channels, that can be chosen

/** @typedef {import("../control/page.js").Page} Page */

export class Filter {
  /**
   * @param {HTMLElement} host
   * @param {import("../picture/view.js").PictureView} picture
   * @param {() => Page} later
   */
  constructor(host, picture, later) {
    this.host = host;
    this.picture = picture;
    this.later = later;
    this.shown = "";
  }

  /** @param {Page} page */
  show(page) {
    const { picture } = this;
    const names = page.session?.log.names.slice(0, MOST) || [];
    const holders = holdersOf(page.session?.scene.goroutines || []);
    const channels = (page.session?.log.channels.slice(0, MOST) || []).map((name) => ({ name, called: calledBy(holders, name) }));
    const shown = [...names.map((name) => `${name} ${page.annotating.functionOf.get(name)} ${picture.hidden.has(name)}`), ...channels.map(({ called }) => called), picture.channel, page.annotating.isWhole].join();
    if (this.shown === shown) return;
    this.shown = shown;
    const box = (/** @type {string} */ name) => make("label", {}, make("input", { type: "checkbox", checked: !picture.hidden.has(name), onchange: () => this.toggle(name) }), ` ${name} ${page.annotating.functionOf.get(name) || ""}`);
    const order = make("input", { type: "checkbox", checked: picture.hasOrder, onchange: () => this.toggleOrder() });
    this.host.replaceChildren(make("p", { class: "none" }, phrase("Lanes that are shown")), ...names.map(box), this.menu(channels, page.annotating.isWhole), make("label", {}, order, ` ${phrase("arrows of the order of waiting")}`));
  }

  // The channel whose operations alone are shown. Of a log that is not followed whole, it is not known which these are.
  /**
   * @param {{name: string, called: string}[]} channels
   * @param {boolean} isKnown
   */
  menu(channels, isKnown) {
    const option = ({ name, called } = { name: "", called: phrase("all channels") }) => make("option", { value: name, selected: this.picture.channel === name }, called);
    const menu = /** @type {HTMLSelectElement} */ (make("select", { disabled: !isKnown }, option(), ...channels.map((it) => option(it))));
    menu.addEventListener("change", () => this.choose(menu.value));
    return make("label", {}, `${phrase("Operations of")} `, menu);
  }

  // Shows or hides the lane of a goroutine.
  /** @param {string} name */
  toggle(name) {
    const { hidden } = this.picture;
    if (!hidden.delete(name)) hidden.add(name);
    this.place();
  }

  // Shows the operations of one channel alone, or of all.
  /** @param {string} channel */
  choose(channel) {
    this.picture.channel = channel;
    this.place();
  }

  // Draws the arrows of the order of waiting, or leaves them out.
  toggleOrder() {
    this.picture.hasOrder = !this.picture.hasOrder;
    this.picture.drawSoon();
  }

  place() {
    this.picture.place();
    this.later().views.overview.draw();
  }
}
