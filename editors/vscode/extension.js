// Commands for what Rewind can do beyond other debuggers. The adapter does it; here are the menus.
'use strict';

const vscode = require('vscode');

/** @typedef {{threadId?: string}} Item what a menu was opened on */

// The session of Rewind that is looked at; without one the user is told so.
function session() {
  const active = vscode.debug.activeDebugSession;
  if (active && active.type === 'rewind') return active;
  throw new Error('no program is debugged by Rewind');
}

// The number of the thread that a menu names, that is looked at, or that the user picks.
/** @param {Item | undefined} item */
async function threadOf(item) {
  const named = /(\d+)$/.exec((item && item.threadId) || '');
  if (named) return Number(named[1]);
  const looked = vscode.debug.activeStackItem;
  if (looked && looked.threadId) return looked.threadId;
  /** @type {{threads: {id: number, name: string}[]}} */
  const { threads } = await session().customRequest('threads');
  const picked = await vscode.window.showQuickPick(threads.map(one => ({ label: one.name, id: one.id })));
  return picked && picked.id;
}

// A step that the user picks from the log, the last one first.
async function pickedStep() {
  /** @type {{steps: {step: string, kind: string}[]}} */
  const { steps } = await session().customRequest('rewind/log', {});
  const listed = steps.reverse().map(one => ({ label: one.step, description: one.kind }));
  const picked = await vscode.window.showQuickPick(listed, { placeHolder: 'a step, the last one first' });
  return picked && picked.label;
}

/** @param {string} text */
function write(text) {
  vscode.debug.activeDebugConsole.appendLine(text);
}

/** @param {Item} [item] */
async function takeBackLast(item) {
  const threadId = await threadOf(item);
  if (threadId) await session().customRequest('rewind/back', { threadId });
}

async function takeBack() {
  const step = await pickedStep();
  if (step) await session().customRequest('rewind/back', { step });
}

async function redo() {
  await session().customRequest('rewind/redo');
}

/**
 * @param {string} request
 * @param {string} words
 */
async function related(request, words) {
  const step = await pickedStep();
  if (!step) return;
  const { steps } = await session().customRequest(request, { step });
  write(`${words} ${step}: ${steps.join(' ')}`);
}

async function why() {
  const { result } = await session().customRequest('evaluate', { expression: 'why', context: 'repl' });
  write(result);
}

const COMMANDS = {
  'rewind.takeBackLast': takeBackLast,
  'rewind.takeBack': takeBack,
  'rewind.redo': redo,
  'rewind.causes': () => related('rewind/causes', 'The causes of'),
  'rewind.dependents': () => related('rewind/dependents', 'What depends on'),
  'rewind.why': why,
};

// A command whose failure is told in words.
/** @param {(item?: Item) => Promise<void>} command */
function told(command) {
  return async (/** @type {Item | undefined} */ item) => {
    try {
      await command(item);
    } catch (fault) {
      vscode.window.showErrorMessage(`Rewind: ${/** @type {Error} */ (fault).message}`);
    }
  };
}

/** @param {import('vscode').ExtensionContext} context */
function activate(context) {
  for (const [name, command] of Object.entries(COMMANDS)) {
    context.subscriptions.push(vscode.commands.registerCommand(name, told(command)));
  }
}

module.exports = { activate };
