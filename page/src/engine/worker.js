// A worker that holds one session of the program: it opens it, and answers commands in the shape that is asked for. Or it runs the
// program once, with other words.

import { CLIENT, DEBUG, Session, wholeRun } from "./engine.js";
import { encoder } from "./protocol.js";
import { shaped, shapedAnswers } from "./shapes.js";

/** @type {Session} */
let session;
let isClient = false; // whether the session answers by the protocol of clients

/** @param {{program: WebAssembly.Module, source: Uint8Array, suspends: boolean, isClient: boolean}} given */
async function open({ program, source, suspends, ...given }) {
  isClient = given.isClient;
  session = await Session.open(program, source, suspends, isClient ? CLIENT : DEBUG);
}

/** @param {{commands: string[], shape: string}} asked */
async function answer({ commands, shape }) {
  const bytes = await session.exchange(encoder.encode(commands.join("\n") + "\n"));
  return isClient ? shapedAnswers(bytes, shape) : shaped(bytes, shape);
}

self.addEventListener("message", async ({ data }) => {
  const reply = { id: data.id, answers: /** @type {any[]} */ ([]), fault: "" };
  try {
    if (data.words) reply.answers = [await wholeRun(data.program, data.words, data.source, data.input)];
    else if (data.program) await open(data);
    else reply.answers = await answer(data);
  } catch (fault) {
    reply.fault = String(fault);
  }
  const { status = -1, errors = "", fault = "" } = session || {};
  self.postMessage({ ...reply, status, errors, fault: reply.fault || fault });
});
