// Tabs: of several parts one is shown. A list of tabs is one stop of the tab key, and arrows go along it.

// Windows in which one part is shown at once, as the style has it.
export const SMALL = window.matchMedia("(max-width:999px),(max-height:479px)");

/**
 * @param {HTMLElement} list
 * @param {(name: string) => void} shown told after each change
 */
function listen(list, shown) {
  const tabs = /** @type {HTMLElement[]} */ ([...list.querySelectorAll("[role=tab]")]);
  for (const tab of tabs) tab.onclick = () => shown(nameOf(tab));
  list.addEventListener("keydown", (event) => {
    const at = tabs.indexOf(/** @type {HTMLElement} */ (event.target));
    const goals = /** @type {{[key: string]: number}} */ ({ ArrowRight: at + 1, ArrowLeft: at - 1, Home: 0, End: tabs.length - 1 });
    if (at < 0 || goals[event.key] === undefined) return;
    event.preventDefault();
    const next = tabs[(goals[event.key] + tabs.length) % tabs.length];
    shown(nameOf(next));
    next.focus();
  });
  return tabs;
}

/** @param {HTMLElement} tab */
const nameOf = ({ id }) => id.slice(id.indexOf("-") + 1);

/**
 * @param {HTMLElement[]} tabs
 * @param {string} name
 */
function select(tabs, name) {
  for (const tab of tabs) {
    const isShown = nameOf(tab) === name;
    tab.setAttribute("aria-selected", String(isShown));
    tab.tabIndex = isShown ? 0 : -1;
  }
}

// The tabs of the panel: `state`, `why`, `back`, `console`, `commands`. What is said of a chosen step comes by itself where the state was
// shown, and goes with it; a tab that a person has chosen stays.
export class Tabs {
  /** @param {HTMLElement} list */
  constructor(list) {
    this.tabs = listen(list, (name) => this.show(name));
    this.name = "";
    this.show("state");
  }

  /** @param {string} name */
  show(name) {
    if (this.name === name) return;
    this.name = name;
    select(this.tabs, name);
    for (const tab of this.tabs) /** @type {HTMLElement} */ (document.getElementById(String(tab.getAttribute("aria-controls")))).hidden = nameOf(tab) !== name;
  }

  // A step is chosen, or none any more.
  /** @param {boolean} isChosen */
  follow(isChosen) {
    if (isChosen && this.name === "state") this.show("back");
    if (!isChosen && this.name === "back") this.show("state");
  }
}

// What a small window shows: the source, the picture, or the panel.
export class Views {
  /**
   * @param {HTMLElement} list
   * @param {() => void} shown
   */
  constructor(list, shown) {
    this.tabs = listen(list, (name) => this.show(name));
    this.shown = shown;
    this.name = "";
    this.show("picture");
  }

  // Where all are shown at once, none need be chosen.
  /** @param {string} name */
  show(name) {
    if (!SMALL.matches && this.name) return;
    this.name = name;
    document.body.dataset.view = name;
    select(this.tabs, name);
    this.shown();
  }
}
