// Words of the shell that are typed as commands here: where the page has what they tell.

import { phrase, phraseKey } from "../phrases.js";

const PANES = phraseKey("the tab State shows it");
const MOVES = phraseKey("the buttons below the picture do it: Step, Run, and the menu beside them");
const BACK = phraseKey("press Undo, or choose a step and take it back");
const PLACES = /** @type {{[word: string]: string}} */ ({
  why: phraseKey("the tab Why says who waits for whom"),
  history: phraseKey("the picture shows each step with its line and its values"),
  direct: phraseKey("choose a step, and press 'Only direct causes' in the menu View"),
  preview: phraseKey("choose a step: the tab 'If you take it back' tells what would go with it"),
  goroutine: PANES, goroutines: PANES, channels: PANES, bt: PANES, print: phraseKey("a click on a variable shows its values"),
  list: phraseKey("the source marks where each goroutine stands"),
  next: MOVES, finish: MOVES, until: MOVES, continue: MOVES,
  "reverse-next": BACK, "reverse-continue": BACK,
  save: phraseKey("press 'Save as a file' in the menu Share"), load: phraseKey("press 'Open a file…' in the menu Share"), restart: phraseKey("press Restart in the menu beside Run"), help: phraseKey("press 'Keys and help' in the menu ⋯"),
});

// What is said of a line that is no command.
/** @param {string} line */
export function noCommand(line) {
  const [word] = line.trim().split(/\s+/);
  if (PLACES[word]) return phrase("'{word}' is a word of the shell. Here {place}.", { word, place: phrase(PLACES[word]) });
  if (word === "hunt") return phrase("The hunt is a program of its own: 'rewind-hunt FILE'.");
  if (/\d[,_]\d/.test(line)) return phrase("This line is no command: numbers are written in digits alone, as in 'run 1000'.");
  return phrase("This line is no command: the help lists them.");
}
