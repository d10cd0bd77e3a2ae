// What the tests use of Node, for the check of types.

declare module "node:assert/strict" {
  function ok(value: unknown, message?: string): asserts value;
  function equal(actual: unknown, expected: unknown, message?: string): void;
  function deepEqual(actual: unknown, expected: unknown, message?: string): void;
  function rejects(promise: Promise<unknown>, expected?: unknown, message?: string): Promise<void>;
  const assert: { ok: typeof ok; equal: typeof equal; deepEqual: typeof deepEqual; rejects: typeof rejects };
  export default assert;
}

interface TestContext {
  test(name: string, act: (t: TestContext) => unknown): Promise<void>;
  diagnostic(message: string): void;
  skip(message?: string): void;
}

declare module "node:test" {
  function test(name: string, act: (t: TestContext) => unknown): Promise<void>;
}

declare module "node:fs" {
  function existsSync(path: string): boolean;
  function mkdtempSync(prefix: string): string;
  function readdirSync(path: string): string[];
  function readFileSync(path: string | URL | number, encoding: "utf8"): string;
  function readFileSync(path: string | URL | number): Buffer;
  function rmSync(path: string, how?: { recursive?: boolean; force?: boolean; maxRetries?: number }): void;
  function writeFileSync(path: string, content: string | Uint8Array): void;
}

declare module "node:child_process" {
  interface Stream {
    on(event: string, listener: (...given: any[]) => void): Stream;
    once(event: string, listener: (...given: any[]) => void): Stream;
    setEncoding(encoding: string): Stream;
    write(text: string): boolean;
    end(): void;
  }
  interface ChildProcess {
    stdin: Stream;
    stdout: Stream;
    stderr: Stream;
    stdio: Stream[];
    on(event: string, listener: (...given: any[]) => void): ChildProcess;
    kill(signal?: string): void;
  }
  function spawn(program: string, words: string[], how?: { stdio?: string | string[]; env?: { [name: string]: string | undefined } }): ChildProcess;
  function spawnSync(program: string, words: string[], how?: { encoding?: string; cwd?: string }): { stdout: string; stderr: string; status: number | null };
}

declare module "node:os" {
  function tmpdir(): string;
}

declare module "node:path" {
  function basename(path: string, ending?: string): string;
  function join(...parts: string[]): string;
}

declare module "node:net" {
  interface Socket {
    on(event: string, listener: (...given: any[]) => void): Socket;
    once(event: string, listener: (...given: any[]) => void): Socket;
    write(text: string): boolean;
  }
  function connect(port: number, host: string): Socket;
  function createServer(): { listen(port: number, host: string, ready: () => void): void; address(): { port: number }; close(closed: () => void): void };
}

declare module "node:readline" {
  function createInterface(how: { input: unknown }): AsyncIterable<string>;
}

interface Buffer extends Uint8Array {
  indexOf(value: number | string, from?: number): number;
  subarray(start: number, end?: number): Buffer;
  toString(encoding?: string): string;
}
declare var Buffer: {
  alloc(size: number): Buffer;
  byteLength(text: string): number;
  concat(parts: Uint8Array[]): Buffer;
  from(content: string | Uint8Array, encoding?: string): Buffer;
};
declare var process: {
  argv: string[];
  env: { [name: string]: string | undefined };
  execPath: string;
  stdin: unknown;
  stdout: { write(text: string): boolean };
  exit(status: number): never;
  on(event: string, listener: () => void): void;
};
