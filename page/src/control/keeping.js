// What is kept over a reload: the text of the editor, the commands of the session, breakpoints, and how the page is set up.

import { checked } from "./linking.js";

const KEY = "rewind";
const SETTINGS = "rewind-settings";
const MOST = 2000000; // letters
const MOST_OWN = 200000; // letters of a program of one's own that is kept beside the work
const START = `package main

func give(c chan int) {
	c <- 1
}

func main() {
	c := make(chan int)
	go give(c)
	println(<-c)
}
`;

// The store of the browser, or nothing where it gives none to this page.
function store() {
  try {
    return window.localStorage;
  } catch {
    return null;
  }
}

/** @param {import("./linking.js").Shared} work */
export function keep(work) {
  const text = JSON.stringify(work);
  try {
    if (text.length <= MOST) store()?.setItem(KEY, text);
  } catch {
    // a full store keeps what was kept before
  }
}

// What was kept, or nothing.
export function kept() {
  try {
    return checked(JSON.parse(store()?.getItem(KEY) || "null"));
  } catch {
    return null;
  }
}

// The last program of one's own, or a small one to begin with.
export function ownText() {
  const { own } = settings();
  return typeof own === "string" && own.trim() ? own : START;
}

// Keeps a program of one's own, which a story may replace.
/** @param {string} text */
export const keepOwn = (text) => text.length <= MOST_OWN && keepSettings({ own: text });

/** @returns {{[name: string]: any}} */
export function settings() {
  try {
    return JSON.parse(store()?.getItem(SETTINGS) || "{}") || {};
  } catch {
    return {};
  }
}

/** @param {{[name: string]: any}} changed */
export function keepSettings(changed) {
  try {
    store()?.setItem(SETTINGS, JSON.stringify({ ...settings(), ...changed }));
  } catch {
    // without a store the page begins as it always does
  }
}
