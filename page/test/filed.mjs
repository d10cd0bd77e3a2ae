// Opens files as the page does, and writes them. Standard input has `read`, a list of [name, text], and `write`, a list of sessions;
// standard output gets what was opened, and the files. clients/tests/test_files_of_the_page.py compares these with the shell's.

import { readFileSync } from "node:fs";
import { fromFiles, lessonFile, toFile } from "../src/control/filing.js";

const { version, read, write } = JSON.parse(readFileSync(0, "utf8"));
const opened = read.map((/** @type {string[]} */ [name, text]) => fromFiles([{ name, text }]));
const files = write.map((/** @type {any} */ it) => (it.told ? lessonFile(it, version) : toFile(it, version)));
process.stdout.write(JSON.stringify({ opened, files }));
