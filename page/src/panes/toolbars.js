// A toolbar is one stop of the tab key; arrows go along its buttons.

/** @param {HTMLElement} bar */
const buttonsOf = (bar) => [...bar.querySelectorAll("button")].filter((it) => !it.disabled && it.getClientRects().length);

// Makes one of the buttons the stop.
/**
 * @param {HTMLElement} bar
 * @param {HTMLElement | undefined} chosen
 */
function setStop(bar, chosen) {
  const buttons = buttonsOf(bar);
  const stop = chosen && buttons.includes(/** @type {HTMLButtonElement} */ (chosen)) ? chosen : buttons[0];
  for (const it of bar.querySelectorAll("button")) it.tabIndex = it === stop ? 0 : -1;
}

/** @param {HTMLElement} bar */
export function makeToolbar(bar) {
  let stop = /** @type {HTMLElement | undefined} */ (undefined);
  bar.addEventListener("keydown", (event) => {
    const buttons = buttonsOf(bar);
    const at = buttons.indexOf(/** @type {HTMLButtonElement} */ (event.target));
    const goals = /** @type {{[key: string]: number}} */ ({ ArrowRight: at + 1, ArrowLeft: at - 1, Home: 0, End: buttons.length - 1 });
    if (at < 0 || goals[event.key] === undefined) return;
    event.preventDefault();
    stop = buttons[(goals[event.key] + buttons.length) % buttons.length];
    setStop(bar, stop);
    stop.focus();
  });
  bar.addEventListener("focusin", (event) => setStop(bar, (stop = /** @type {HTMLElement} */ (event.target))));
  new MutationObserver(() => setStop(bar, stop)).observe(bar, { subtree: true, attributes: true, attributeFilter: ["disabled", "hidden"] });
  setStop(bar, stop);
}
