// Tells of refused sources what the page says of them. Standard input has a list of [source, code, line, column], and standard output
// gets a list of [line, column, sentence, instead, hint]. clients/tests/test_refusals_of_the_page.py compares these with the clients'.

import { readFileSync } from "node:fs";
import { explain } from "../src/refused/refusals.js";

const TABLE = JSON.parse(readFileSync(new URL("../../clients/rewind_client/refusals.json", import.meta.url), "utf8"));

const told = JSON.parse(readFileSync(0, "utf8")).map((/** @type {any[]} */ [source, code, line, column]) => {
  const said = explain(TABLE, source, { code, line, column, text: "" });
  return [said.line, said.column, said.sentence, said.instead, said.hint];
});
process.stdout.write(JSON.stringify(told));
