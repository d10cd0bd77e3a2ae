// Why the program goes on no more: the sentences with their steps and goroutines as links, a graph of who waits for whom, and the step to
// blame, which can be taken back.

import { button, find, make } from "../element.js";
import { escaped } from "../picture/labels.js";
import { lastOf } from "../control/finding.js";
import { phrase, pieces } from "../phrases.js";
import { waitsFor } from "../waiting/waits.js";
import { withOwnTips } from "../picture/picture.js";
import { wholeRun } from "../control/searching.js";

const NAME = /g\d+(?:\.\d+)*(?:#\d+)?(?!\d|\.\d|#\d|\/c)/g; // of a goroutine or a step, and not of a channel
const MOST = 12; // goroutines of a graph
const [WIDTH, TALL, RADIUS] = [220, 150, 18]; // of the graph, and of a goroutine in it

/** @typedef {import("../control/page.js").Page} Page */
/** @typedef {{id: string, text: string}} Blame the step after which no schedule ends well any more, or "", and what is said of it */

// Goes to a step, or to a goroutine and its last step.
/**
 * @param {Page} page
 * @param {string} name
 */
function goTo(page, name) {
  const { session } = page;
  if (!session || page.hindrance) return page.say(page.hindrance, "bad");
  const id = name.includes("#") ? name : lastOf(session, name);
  if (!name.includes("#")) page.chooseGoroutine(name);
  if (session.log.row(id) < 0) return;
  page.views.windows.show("picture");
  return page.pointing.show(id);
}

/**
 * @param {Page} page
 * @param {string} name
 */
const link = (page, name) => button({ class: "link", title: phrase("Show {step}", { step: name }), onclick: () => void goTo(page, name) }, name);

// A text in which each step and each goroutine is a link.
/**
 * @param {Page} page
 * @param {string} text
 * @returns {(Node | string)[]}
 */
export function withLinks(page, text) {
  const parts = [];
  let at = 0;
  for (const { 0: name, index = 0 } of text.matchAll(NAME)) {
    parts.push(text.slice(at, index), link(page, name));
    at = index + name.length;
  }
  return [...parts, text.slice(at)];
}

// Shows a text with its links, where it is another one than before.
/**
 * @param {Page} page
 * @param {HTMLElement} host
 * @param {string} text
 */
function show(page, host, text) {
  if (host.textContent !== text) host.replaceChildren(...withLinks(page, text));
}

// The arrows of who waits for whom, with the variable of the channel.
/** @param {import("../waiting/standing.js").Standing} standing */
function arrowsOf({ waits, cycle }) {
  const inCycle = (/** @type {string} */ from, /** @type {string} */ to) => cycle.some((name, at) => name === from && cycle[(at + 1) % cycle.length] === to);
  return waits.flatMap((wait) => {
    const named = wait.wishes.map(({ variable, channel }) => variable || channel).filter((it, at, all) => all.indexOf(it) === at).join(" ");
    const servers = wait.wishes.flatMap((wish) => wish.servers.map((it) => it.goroutine));
    const goals = [...new Set([...waitsFor(wait), ...servers])].filter((to) => to !== wait.goroutine);
    return goals.map((to) => ({ from: wait.goroutine, to, named, isCycle: inCycle(wait.goroutine, to) }));
  });
}

// The places of goroutines on an oval.
/** @param {string[]} names */
function placesOf(names) {
  const angle = (/** @type {number} */ at) => (2 * Math.PI * at) / names.length - Math.PI / (names.length === 2 ? 1 : 2);
  const [wide, high] = [WIDTH / 2 - RADIUS - 24, TALL / 2 - RADIUS - 6];
  return new Map(names.map((name, at) => [name, [WIDTH / 2 + wide * Math.cos(angle(at)), TALL / 2 + (names.length === 2 ? 0 : high) * Math.sin(angle(at))]]));
}

/**
 * @param {number[]} from
 * @param {number[]} to
 * @param {{named: string, isCycle: boolean}} of
 */
function arrow([x, y], [toX, toY], { named, isCycle }) {
  const length = Math.hypot(toX - x, toY - y) || 1;
  const [alongX, alongY] = [(toX - x) / length, (toY - y) / length];
  const [midX, midY] = [(x + toX) / 2 - 18 * alongY, (y + toY) / 2 + 18 * alongX]; // so that two arrows between two goroutines bend apart
  const [startX, startY, endX, endY] = [x + RADIUS * alongX, y + RADIUS * alongY, toX - (RADIUS + 3) * alongX, toY - (RADIUS + 3) * alongY];
  const path = `<path class="${isCycle ? "cycle" : "edge"}" marker-end="url(#tip-${isCycle ? "cycle" : "plain"})" d="M${startX} ${startY}Q${midX} ${midY} ${endX} ${endY}"/>`;
  return `${path}<text class="of" x="${midX}" y="${midY + 4}">${escaped(named)}</text>`;
}

// The graph, or "" where nobody waits for anybody.
/** @param {import("../waiting/standing.js").Standing} standing */
export function waitGraph(standing) {
  const arrows = arrowsOf(standing);
  const names = [...new Set(arrows.flatMap(({ from, to }) => [from, to]))];
  if (!arrows.length || names.length > MOST) return "";
  const places = placesOf(names);
  const place = (/** @type {string} */ name) => /** @type {number[]} */ (places.get(name));
  const nodes = names.map((name) => `<circle class="node${standing.cycle.includes(name) ? " in-cycle" : ""}" cx="${place(name)[0]}" cy="${place(name)[1]}" r="${RADIUS}"/><text class="name" x="${place(name)[0]}" y="${place(name)[1] + 4}">${name}</text>`);
  const drawn = arrows.map((it) => arrow(place(it.from), place(it.to), it)).join("");
  const says = escaped(phrase("Who waits for whom"));
  return `<svg class="picture" width="${WIDTH}" height="${TALL}" viewBox="0 0 ${WIDTH} ${TALL}" role="img" aria-label="${says}"><title>${says}</title>${withOwnTips("why", nodes.join("") + drawn)}</svg>`;
}

// Asks the program for the step to blame, and shows it.
/** @param {Page} page */
export async function findBlame(page) {
  const { session } = page;
  if (!session || page.hindrance) return page.say(page.hindrance, "bad");
  const taken = session.steps;
  const found = await page.moving(() => wholeRun(page, session, "--blame", taken));
  if (!found) return;
  const id = found.output.trim();
  page.blame = { id, text: blameText(found.errors) };
  page.showControls();
  if (id) await goTo(page, id);
}

/** @param {string} said */
function blameText(said) {
  if (said.includes("no schedule of the program ends well")) return phrase("No schedule of the program ends well.");
  return said.includes("no step is to blame") ? phrase("No step is to blame: some schedule ends well from here.") : phrase("The step to blame was not found: a limit was met.");
}

/** @param {Page} page */
function showBlame(page, isBad = false) {
  const { blame } = page;
  const key = isBad ? JSON.stringify(blame) : "";
  if (find("blame").dataset.of === key) return;
  find("blame").dataset.of = key;
  find("find-blame").hidden = !isBad || Boolean(blame);
  find("take-blamed").hidden = !isBad || !blame?.id;
  const said = blame?.id ? pieces("{step} is to blame: before it some schedule ends well, and after it none does.", { step: link(page, blame.id) }) : [blame?.text || ""];
  find("blame-text").replaceChildren(...(isBad ? said : []));
}

// All sentences on how the program stands, in a tab of their own.
/**
 * @param {Page} page
 * @param {{tone: string, text: string} | null} state
 */
export function showWhy(page, state) {
  const { standing, session } = page;
  const lines = (state && standing?.lines) || [];
  find("state").hidden = !state;
  find("state").className = state?.tone || "";
  show(page, find("state"), state?.text || "");
  show(page, find("why-lines"), lines.length > 1 ? lines.join("\n") : "");
  const graph = state && standing ? waitGraph(standing) : "";
  if (find("why-graph").dataset.of !== graph) find("why-graph").replaceChildren(...(graph ? [make("div")] : []));
  if (graph && find("why-graph").dataset.of !== graph) /** @type {Element} */ (find("why-graph").firstElementChild).innerHTML = graph;
  find("why-graph").dataset.of = graph;
  const isBad = state?.tone === "stuck" && (!session?.log.end || session.log.end.kind.startsWith("fault"));
  showBlame(page, isBad);
  find("why-none").textContent = state ? "" : phrase("The program can go on. Where it is stuck, or has ended, stands here who waits for whom.");
}
