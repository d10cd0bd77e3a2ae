// Runs the commands of the extension for VS Code in a stub of VS Code, whose session is the real adapter.
//
//     node extension.js EXTENSION ADAPTER PROGRAM COMMAND..      (COMMAND may be NAME=PICK, where the user picks what begins so)
//
// It writes a line of JSON for each command: what came to the console, the errors that were shown, and the steps of the log.
'use strict';

const { spawn } = require('child_process');
const Module = require('module');
const path = require('path');

const [folder, adapter, program, ...wanted] = process.argv.slice(2);
const child = spawn(adapter, ['--rewind', process.env.REWIND], { stdio: ['pipe', 'pipe', 'inherit'] });
const waiting = new Map();
let seq = 0, unread = Buffer.alloc(0), stopped = () => {};

child.stdout.on('data', part => {
  unread = Buffer.concat([unread, part]);
  for (;;) {
    const end = unread.indexOf('\r\n\r\n');
    if (end < 0) return;
    const length = Number(/\d+/.exec(unread.toString('utf8', 0, end))[0]);
    if (unread.length < end + 4 + length) return;
    const message = JSON.parse(unread.toString('utf8', end + 4, end + 4 + length));
    unread = unread.subarray(end + 4 + length);
    if (message.type === 'response') {
      const { resolve, reject } = waiting.get(message.request_seq);
      if (message.success) resolve(message.body); else reject(new Error(message.message));
    } else if (message.event === 'stopped') stopped();
  }
});

function ask(command, args) {
  const body = JSON.stringify({ seq: ++seq, type: 'request', command, arguments: args });
  child.stdin.write(`Content-Length: ${Buffer.byteLength(body)}\r\n\r\n${body}`);
  return new Promise((resolve, reject) => waiting.set(seq, { resolve, reject }));
}

function untilStopped() {
  return new Promise(resolve => { stopped = resolve; });
}

const commands = {}, said = [];
let pick = '';
const vscode = {
  commands: { registerCommand: (name, command) => { commands[name] = command; return {}; } },
  debug: {
    activeDebugSession: { type: 'rewind', customRequest: ask },
    activeDebugConsole: { appendLine: text => said.push(text) },
  },
  window: {
    showQuickPick: async items => items.find(item => item.label.startsWith(pick)),
    showErrorMessage: text => said.push(text),
  },
};
const load = Module._load;
Module._load = (name, ...rest) => (name === 'vscode' ? vscode : load(name, ...rest));

async function main() {
  require(path.join(folder, 'extension.js')).activate({ subscriptions: [] });
  await ask('initialize', { adapterID: 'rewind' });
  await ask('launch', { program });
  let halt = untilStopped();
  await ask('configurationDone');
  await halt;
  halt = untilStopped();
  await ask('continue', { threadId: 1 });
  await halt;
  for (const one of wanted) {
    const [name, picked = ''] = one.split('=');
    pick = picked;
    await commands[name]();
    const { steps } = await ask('rewind/log', {});
    console.log(JSON.stringify({ name, said: said.splice(0), steps: steps.map(step => step.step) }));
  }
  await ask('disconnect');
  child.stdin.end();
}

main().catch(fault => { console.error(fault); process.exit(1); });
