// What is given to others: a link, a frame for a web page, a file; and what is opened of files.

import { download, escapedAttribute } from "../element.js";
import { fromFiles, isOfSource, toFile } from "./filing.js";
import { languageWord } from "./language.js";
import { toHash } from "./linking.js";
import { openAgain } from "../panes/carrying.js";
import { phrase, phraseKey } from "../phrases.js";

/** @typedef {import("./page.js").Page} Page */

const FRAME = { width: 600, height: 400 };
const OF_DISK = phraseKey("It holds the whole session, but begins with the place of this page on your disk. Who has the page too puts the part from #s= on behind its address. For others press Save, and send the file: the page opens it.");
const AN_EXERCISE = phraseKey("This is an exercise: {title}.");
const A_STORY = phraseKey("This is a story: {title}. Next gives its commands.");

/** @param {Page} page */
export const shared = (page) => ({ ...page.work, chosen: page.pointing.pinned, theme: document.documentElement.dataset.theme || "" });

// The address of this page, without what stands behind its `#`.
export const addressBefore = () => location.href.split("#")[0];

// The address of the session as it stands.
/** @param {Page} page */
export const addressOf = async (page) => addressBefore() + (await toHash(shared(page))) + languageWord();

/** @param {string} address */
export const copiedText = (address) => phrase("The link is copied: {count} letter. | The link is copied: {count} letters.", { count: address.length });

/** @param {Page} page */
export async function copyLink(page) {
  const address = await addressOf(page);
  try {
    await navigator.clipboard.writeText(address);
    page.say(`${copiedText(address)} ${location.protocol === "file:" ? phrase(OF_DISK) : phrase("Whoever opens it sees this session.")}`);
  } catch {
    history.replaceState(null, "", address);
    page.say(phrase("The link stands in the address until the next change: copy it from there."));
  }
}

// What a web page holds to show the session in a frame of its own.
/** @param {Page} page */
export async function frameOf(page) {
  const title = `Rewind: ${page.views.stories.fileName.replaceAll("_", " ")}`;
  return `<iframe src="${escapedAttribute(`${await addressOf(page)}&embed`)}" width="${FRAME.width}" height="${FRAME.height}" title="${escapedAttribute(title)}"></iframe>`;
}

/** @param {Page} page */
export async function copyFrame(page) {
  const text = await frameOf(page);
  const where = location.protocol === "file:" ? ` ${phrase("It names this page on your disk: put the address of the page on your server in its place.")}` : "";
  try {
    await navigator.clipboard.writeText(text);
    page.say(phrase("The frame is copied, as HTML for a web page.") + where);
  } catch {
    page.views.transcript.remark(text);
    page.views.tabs.show("commands");
    page.say(phrase("The frame stands among the commands, as HTML for a web page: copy it from there.") + where);
  }
}

/** @param {Page} page */
export const saveFile = (page) => download(new Blob([toFile(shared(page), page.given.version)], { type: "text/plain" }), `${page.views.stories.fileName}.go`);

// Opens what files hold. Undoing in the editor brings the text before back.
/**
 * @param {Page} page
 * @param {Iterable<File>} files
 */
export async function openFiles(page, files) {
  const read = await Promise.all([...files].map(async (file) => ({ name: file.name, text: await file.text() })));
  const opened = fromFiles(read, page.views.editor.text);
  const { source, commands, lesson } = opened;
  if (source !== null || lesson) {
    page.views.stories.turnTo(lesson ? { lesson } : {});
    page.views.editor.text = source ?? page.views.editor.text;
    if (!(await (commands.length ? openAgain(page) : page.open()))) return;
  }
  await page.replay(commands);
  page.say(await openedText(page, opened));
}

// What is said of files that were opened.
/**
 * @param {Page} page
 * @param {import("./filing.js").Opened} opened
 */
async function openedText({ given, session }, { commands, lesson, version, digest }) {
  const what = lesson ? [phrase(lesson.goal ? AN_EXERCISE : A_STORY, { title: lesson.title })] : [];
  const done = commands.length ? [phrase("{count} command was done. | {count} commands were done.", { count: commands.length })] : [];
  const from = version && version !== given.version ? [phrase("The file was saved by version {other}, and this is {version}.", { other: version, version: given.version })] : [];
  const isOf = await isOfSource(digest, session?.source || "");
  const other = isOf ? [] : [phrase("The script is of another source: its commands may mean something else here.")];
  return [...what, ...done, ...other, ...from].join(" ") || phrase("The program stands before its first step.");
}
