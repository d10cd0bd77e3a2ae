// Shapes of what the tests hand to each other, for the check of types.

type Hands = import("./hands.mjs").Hands;

// A browser with one page, as tests use it. `call` is of its own protocol.
interface TestBrowser {
  faults: string[];
  run(expression: string): Promise<any>;
  call(command: string, params?: object): Promise<any>;
  load(file: string, hash?: string): Promise<void>;
  size(width: number, height: number, scheme?: string): Promise<void>;
  key(key: string, modifiers?: number): Promise<void>;
  mouse(type: string, x: number, y: number, buttons?: number): Promise<void>;
  click(x: number, y: number): Promise<void>;
  shot(file: string, whole?: boolean): Promise<void>;
  takeFaults(): Promise<void>;
  close(): Promise<void>;
}

// What is done with the page, one after another, by name.
interface Acts { [name: string]: (hands: Hands, t: TestContext) => unknown }

// A part of the test: what it does, the part of the address behind `#`, and what it lacks of the machine.
interface Part {
  name: string;
  part: (t: TestContext, browser: TestBrowser) => Promise<void>;
  hash?: string;
  missing?: () => string;
  open?: () => Promise<TestBrowser>;
}

interface Window { narrow: WebAssembly.Module; wide: WebAssembly.Module; faultsSeen: string[] }
