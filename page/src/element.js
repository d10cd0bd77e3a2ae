// Makes and finds elements of a page.

// An element with attributes (`class`, `title`, ..), handlers (`onclick`, ..) and children: elements or texts.
/**
 * @param {string} name
 * @param {{[name: string]: any}} attributes
 * @param {(Node | string)[]} children
 */
export function make(name, attributes = {}, ...children) {
  const made = /** @type {any} */ (document.createElement(name));
  for (const [key, value] of Object.entries(attributes)) {
    if (key.startsWith("on")) made[key] = value;
    else if (value === true) made.setAttribute(key, "");
    else if (value !== false && value !== null && value !== undefined) made.setAttribute(key, value);
  }
  made.append(...children);
  return /** @type {HTMLElement} */ (made);
}

// A button that does something.
/**
 * @param {{[name: string]: any}} attributes
 * @param {(Node | string)[]} children
 */
export const button = (attributes, ...children) => make("button", { type: "button", ...attributes }, ...children);

// A row of a table: its heading, an element of this name with a text in it, and what it says.
/**
 * @param {string} name
 * @param {string} text
 * @param {string} says
 */
export function tableRow(name, text, says) {
  return make("tr", {}, make("th", { scope: "row" }, make(name, {}, text)), make("td", {}, says));
}

// The element of this id. It is there.
/** @param {string} id */
export const find = (id) => /** @type {HTMLElement} */ (document.getElementById(id));

/** @param {string} id */
export const field = (id) => /** @type {HTMLInputElement} */ (document.getElementById(id));

/**
 * @param {string} id
 * @param {boolean} can
 */
export const enable = (id, can) => (field(id).disabled = !can);

// A text as the value of an attribute of HTML.
/** @param {string} text */
export const escapedAttribute = (text) => text.replaceAll("&", "&amp;").replaceAll('"', "&quot;").replaceAll("<", "&lt;");

// Lets the page draw and take clicks.
export const pause = () => new Promise((go) => setTimeout(go, 0));

// Gives a text, or another blob, to the user as a file.
/**
 * @param {Blob} blob
 * @param {string} name
 */
export function download(blob, name) {
  const href = URL.createObjectURL(blob);
  make("a", { href, download: name }).click();
  setTimeout(() => URL.revokeObjectURL(href), 10000);
}
