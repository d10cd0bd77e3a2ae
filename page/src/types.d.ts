// The shapes of what the modules hand to each other, for the check of types.

interface Reply { lines: string[]; last: string; words: string[]; isOk: boolean }
interface Refusal { code: string; line: number; column: number; text: string }
interface Variable { name: string; value: string }
interface Frame { name: string; variables: Variable[] }
interface StackFrame { depth: number; variables: Variable[] } // the innermost frame, and how many there are
interface Goroutine { name: string; state: string; steps: number; line: number | null; frames: Frame[]; statement?: Statement | null; doing?: string }
interface Channel { name: string; capacity: number; isClosed: boolean; items: string[]; senders: string[]; receivers: string[] }
interface Tail { isOk: boolean; count: number; lines: string[]; last?: string }
interface Listed { isOk: boolean; count: number; spans: Map<string, number[]>; last: string }
interface LogColumns { isOk: boolean; names: string[]; kinds: string[]; of: Int32Array; kindOf: Int32Array }

// What the program tells of a kept step, as docs/PROTOCOL.md has it.
interface About {
  id: string; kind: string; at: {function: string; line: number} | null; channel: {name: string; operation: string} | null;
  given: string[]; made: string | null; prints: boolean; reached: string[]; sources: Source[];
}
interface Source { object: string; of: string; slot: number | null; step: string | null; wrote: boolean }

interface Step { id: string; goroutine: string; number: number; kind: string; row: number }
interface Edge { from: string; to: string; kind: string }
interface Note {
  line: number; statement: Statement | null; printed: string[];
  before: StackFrame | null; after: StackFrame | null; isValued: boolean; // the frames that tell values, where these were read
  woke: string[]; channels: string[]; // the waits that it ended, and the channels that it made or worked on
  started: string; made: string; // the goroutine and the channel that it gave a name, or ""
  over: Operation; // what it does over a channel
  received: string; part: string; turn: number; // what it received, by which part of its statement, after so many others
  taken: string; cases: Operation[]; // the case that its select took, and those that it waits with
}
interface Operation { text: string; isSend: boolean; channel: string; sent: string }

interface Token { text: string; at: number; line: number; column: number }
interface Statement { line: number; column: number; start: number; end: number; text: string; expandedLine: number; clauses: string[]; func: string; shown?: string }

// What the panes show: the session at one moment.
// Of many goroutines some are not shown: then `isPartial`, and whether none is ready is asked of all of them.
interface Scene {
  goroutines: Goroutine[]; channels: Channel[]; console: Tail; hidden: number; isPartial: boolean; isStuck: boolean; clauses: Map<string, Clause[]>;
  missing: string; // why it cannot be shown, or ""
}
interface Clause { number: number; text: string }

interface Story { name: string; title: string; source: string; script: string; shows: string; level?: string; told: Told[] }
interface Told { text: string; command: string }
interface Exercise { name: string; title: string; level: number; source: string; task: string; hint: string; goal: Goal; before: string[] }
// `state`: how goroutines and channels stand; `safe`: no schedule of the program ends badly.
interface Goal { printed?: string; end?: string; most?: number; only?: string; kept?: string[]; without?: string[]; chosen?: string; state?: string[]; safe?: boolean }
// Of one's own: a story, or where there is a goal an exercise.
interface Lesson { title: string; source: string; shows: string; told: Told[]; task: string; hint: string; before: string[]; goal: Goal | null }
// What a search of all schedules of a source came to: 0 none ends badly, 4 one does, 5 it is not finished.
interface SearchedWhole { source: string; status: number; sentence: string }
interface Given {
  codes: {[code: string]: string}; kinds: {[kind: string]: string}; faults: {[fault: string]: string}; go: {[fault: string]: string}; commands: string[][];
  stories: Story[]; exercises: Exercise[]; refusals: {[code: string]: RefusalTable}; licence: string; version: string; languages: {[code: string]: string};
}
interface RefusalTable { meaning: string; forms: RefusalForm[] }
interface RefusalForm {
  form: string; sentence: string; instead?: string; hint?: string; put?: string; of?: string; names?: string[];
  at?: string; before?: string; inside?: string; column?: number; words?: number[];
}

// A source that was refused, as it is read to say what is wrong in it.
type GoConstant = bigint | boolean | null;
interface GoToken { kind: string; text: string; line: number; column: number; offset: number }
interface GoValue { kind: string; own: string; first: number; last: number; constant: GoConstant }
interface GoFunction { name: string; parameters: [string, string][]; result: string | null; line: number; heading: string }
type GoNames = Map<string, Map<string, string>>;
type Fields = {[name: string]: string};
// Where the groups of a match are, which the check of types does not know.
interface RegExpExecArray { indices?: {groups?: {[name: string]: [number, number]}} }
interface FormFault { form: string; first: number; last: number; fields: Fields }

interface PointedView {
  pointed: string; causes: Map<string, number[]>; consequences: Map<string, number[]>; forbids: string[]; count: number;
  cycle: string[]; stuck: Set<string>; found: Set<string> | null; last: number; direct: boolean; isKept: boolean;
  at: number; // the row of the last step of a state that is shown or played, or -1
}

interface Machine { program: WebAssembly.Module; script: string; suspends: boolean }
interface Window { CodeMirror: any; rewind: any; started: Promise<boolean> }
declare var CompressionStream: any;
declare var DecompressionStream: any;
