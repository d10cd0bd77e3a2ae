#!/usr/bin/env node
// Rewind VERSION as WebAssembly, under Node 18 or newer: the same commands and replies as the program for Linux. It starts no workers.
import { openSync, readSync, writeSync } from "node:fs";
import { gunzipSync } from "node:zlib";

const MODULE = "BASE64";
const WORDS = 4; // the descriptor of the words of the command line, each with a nul behind it
const FIRST_FILE = 5;
const [FAILED, NO_SUCH_FILE] = [-1n, -2n];
const PAUSE = 5; // milliseconds between two tries to read or write where the system has nothing yet

let words = Buffer.from(["rewind", ...process.argv.slice(2)].map((word) => `${word}\0`).join(""));
let memory;

const bytes = (from, count) => new Uint8Array(memory.buffer, Number(from), Number(count));
const pause = () => Atomics.wait(new Int32Array(new SharedArrayBuffer(4)), 0, 0, PAUSE);

// What a call of the system answers: again, where it has nothing yet, and `ended` at the end of a stream, which Windows tells as a fault.
function answered(call, ended) {
  for (;;) {
    try {
      return BigInt(call());
    } catch (fault) {
      if (fault.code === "EOF") return ended;
      if (fault.code !== "EAGAIN") return FAILED;
      pause();
    }
  }
}

function readWords(to, most) {
  const piece = words.subarray(0, Number(most));
  bytes(to, piece.length).set(piece);
  words = words.subarray(piece.length);
  return BigInt(piece.length);
}

function open(path, length) {
  try {
    return BigInt(openSync(Buffer.from(bytes(path, length)).toString(), "r") + FIRST_FILE);
  } catch {
    return NO_SUCH_FILE;
  }
}

function read(descriptor, to, most) {
  if (descriptor === WORDS) return readWords(to, most);
  const file = descriptor < WORDS ? descriptor : descriptor - FIRST_FILE;
  return answered(() => readSync(file, bytes(to, most)), 0n);
}

const write = (descriptor, from, count) => answered(() => writeSync(descriptor, bytes(from, count)), FAILED);
const exit = (status) => process.exit(status);

const module = new WebAssembly.Module(gunzipSync(Buffer.from(MODULE, "base64")));
const { exports } = new WebAssembly.Instance(module, { host: { open, read, write, exit } });
memory = exports.memory;
process.exit(exports.program_main());
