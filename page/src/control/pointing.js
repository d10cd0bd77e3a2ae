// The step that is pointed at or chosen: its causes and its consequences get a colour, and it can be taken back or moved.

import { field, find } from "../element.js";
import { NOTHING_POINTED } from "../picture/picture.js";
import { isUnanswered } from "../engine/remote.js";
import { goroutineOf, numberOf } from "../engine/protocol.js";
import { phrase } from "../phrases.js";

const SOON = 20; // milliseconds: a step whose causes are not known by then is marked before they are

export class Pointing {
  /** @param {import("./page.js").Page} page */
  constructor(page) {
    this.page = page;
    this.asked = 0;
    this.isFollowing = false; // whether the pointer is followed just now
    this.isDirect = false; // whether only the direct causes get a colour
    this.pinned = "";
    this.pointed = "";
    /** @type {{id: string, causes: number, consequences: number} | null} */
    this.about = null;
    this.sought = ""; // the step whose causes and consequences are looked for, where that takes its time
    /** @type {string[]} */
    this.forbids = [];
    /** @type {Set<string> | null} */
    this.found = null;
    this.view = NOTHING_POINTED;
  }

  clear() {
    this.pinned = this.pointed = this.sought = "";
    this.about = null;
    this.forbids = [];
    this.view = NOTHING_POINTED;
    this.forgetFound();
    field("search-text").value = "";
  }

  // What was found is of the log as it was.
  forgetFound() {
    this.found = null;
    find("found").textContent = "";
  }

  get log() {
    return this.page.session?.log;
  }

  /** @param {string} id */
  isKept = (id) => (this.log?.row(id) ?? -1) >= 0;

  // Lets go of steps that are no longer kept.
  keepKnown() {
    if (!this.isKept(this.pinned)) this.pinned = "";
    if (!this.isKept(this.pointed)) this.pointed = "";
    this.forbids = this.forbids.every(this.isKept) ? this.forbids : [];
    this.forgetFound();
  }

  get atHand() {
    return this.pinned || this.pointed;
  }

  /** @param {string | null} id */
  point(id) {
    if (!id || this.pointed === id) return;
    this.pointed = id;
    if (this.pinned) return;
    if (!this.isFollowing) void this.follow();
    else if (this.sought) this.seek(id);
  }

  // Colours what is pointed at. While a step is asked for, those that the pointer passes over meanwhile are left out, but for the last.
  async follow() {
    this.isFollowing = true;
    try {
      let id;
      do {
        id = this.pointed;
        await this.color();
      } while (!this.pinned && this.pointed !== id);
    } finally {
      this.isFollowing = false;
    }
  }

  // Keeps a step chosen, or lets it go.
  /** @param {string} id */
  async choose(id, isKept = false) {
    this.pinned = this.pinned === id && !isKept ? "" : id;
    this.pointed = id;
    this.forbids = [];
    await this.color();
    this.page.tell();
  }

  // Chooses a step that was looked for, and brings it into view.
  /** @param {string} id */
  async show(id) {
    await this.choose(id, true);
    this.page.views.picture.reveal(id);
  }

  // The two steps that forbid an order get a ring.
  /** @param {string[]} ids */
  forbid(ids) {
    this.forbids = ids;
    this.draw();
    for (const id of [...ids].reverse()) this.page.views.picture.reveal(id);
  }

  // Asks for causes and consequences of the step at hand, and shows them.
  async color() {
    const [id, session, asked] = [this.atHand, this.page.session, ++this.asked];
    this.sought = "";
    if (!session || !id || session.isRunning) {
      this.about = null;
      return this.draw();
    }
    const marking = window.setTimeout(() => asked === this.asked && session === this.page.session && this.seek(id), SOON);
    try {
      const [causes, consequences] = await session.known.of(id);
      if (asked !== this.asked || session !== this.page.session || (this.sought && this.sought !== id)) return;
      this.sought = "";
      this.about = { id, causes: causes.count - 1, consequences: consequences.count - 1 };
      this.view = { ...NOTHING_POINTED, causes: causes.spans, consequences: consequences.spans };
      this.draw();
    } catch (fault) {
      if (!isUnanswered(fault)) throw fault; // else the step is gone
    } finally {
      clearTimeout(marking);
    }
  }

  // Marks a step while its causes and consequences are looked for.
  /** @param {string} id */
  seek(id) {
    this.about = null;
    this.sought = id;
    this.draw();
  }

  // Shows what is known in picture, source and text. The step may have gone since.
  draw() {
    if (this.about && !this.isKept(this.about.id)) this.about = null;
    if (!this.isKept(this.sought)) this.sought = "";
    const { page, about } = this;
    const note = about ? page.note(about.id) : undefined;
    const isDirect = this.isDirect && Boolean(about);
    const base = about ? { ...this.view, causes: isDirect ? this.directCauses(String(about?.id)) : this.view.causes } : NOTHING_POINTED;
    page.views.picture.mark({
      ...base, pointed: about?.id || this.sought, isKept: Boolean(this.pinned), forbids: this.forbids, count: about && !page.past.isOn ? about.consequences + 1 : 0,
      cycle: page.past.isOn ? [] : page.cycle, stuck: page.past.isOn ? new Set() : page.stuck, found: this.found, last: page.past.isOn ? page.past.row : Infinity, direct: isDirect, at: this.cursor,
    });
    page.views.overview.draw();
    const isOfText = page.session?.source === page.views.editor.text;
    page.views.editor.markChosen(isOfText ? page.session?.origin.noted(note) : undefined, true);
    page.views.chosen.show(page);
  }

  // The row behind which the state stands that is looked at, or played; -1 for the present.
  get cursor() {
    const { past, player } = this.page;
    if (past.isOn) return past.row - 1;
    return player.isOn && this.log ? this.log.length - 1 : -1;
  }

  // The steps that a step depends on directly: the one before it in its goroutine, and those at the tails of its edges.
  /** @param {string} id */
  directCauses(id) {
    /** @type {Map<string, number[]>} */
    const direct = new Map();
    const before = this.log?.before(id);
    const sources = (this.page.session?.order.edges.get(id) || []).map(({ from }) => from);
    for (const it of [...(before ? [before] : []), ...sources]) direct.set(goroutineOf(it), [...(direct.get(goroutineOf(it)) || []), numberOf(it)]);
    return direct;
  }

  async takeBack(id = this.atHand) {
    if (!id) return this.page.say(phrase("Point at a step first."), "bad");
    this.pinned = "";
    return this.page.perform(`back ${id}`);
  }

  // Exchanges a step with those between it and another row.
  /**
   * @param {string} id
   * @param {number} row
   */
  async move(id, row) {
    const { page, log } = this;
    if (!log || row < 0 || row >= log.length) return;
    const reply = await page.perform(log.orderWith(id, row));
    if (reply?.isOk) await this.show(id);
  }

  /** @param {number} by */
  moveBy(by) {
    const id = this.atHand;
    if (id && this.log) return this.move(id, this.log.row(id) + by);
  }
}
