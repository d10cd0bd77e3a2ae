// Menus: a button shows and hides the parts that it controls. Escape, a click elsewhere, and what a button in it does close a menu.

/** @param {HTMLElement} button */
const menuOf = (button) => /** @type {HTMLElement} */ (document.getElementById(String(button.getAttribute("aria-controls"))));

/**
 * @param {HTMLElement} button
 * @param {boolean} isOpen
 */
function set(button, isOpen) {
  menuOf(button).hidden = !isOpen;
  button.setAttribute("aria-expanded", String(isOpen));
}

/** @param {HTMLElement} button */
function listen(button) {
  const menu = menuOf(button);
  const host = /** @type {HTMLElement} */ (button.parentElement);
  const isStaying = (/** @type {Element} */ target) => target.closest("label, details, [aria-pressed], .row");
  button.addEventListener("click", () => set(button, menu.hidden));
  menu.addEventListener("click", ({ target }) => {
    if (/** @type {Element} */ (target).closest("button") && !isStaying(/** @type {Element} */ (target))) set(button, false);
  });
  document.addEventListener("pointerdown", ({ target }) => host.contains(/** @type {Node} */ (target)) || set(button, false));
  host.addEventListener("focusout", ({ relatedTarget }) => relatedTarget && !host.contains(/** @type {Node} */ (relatedTarget)) && set(button, false));
  host.addEventListener("keydown", (event) => {
    if (event.key !== "Escape" || menu.hidden) return;
    event.stopPropagation();
    set(button, false);
    button.focus();
  });
}

export function makeMenus() {
  for (const button of document.querySelectorAll(".menu-of>button[aria-controls]")) listen(/** @type {HTMLElement} */ (button));
}
