// What the extension uses of VS Code, for the check of types.

declare module 'vscode' {
  interface DebugSession { type: string; customRequest(command: string, args?: object): Promise<any> }
  interface Picked { label: string; id?: number; description?: string }
  interface ExtensionContext { subscriptions: object[] }

  const debug: {
    activeDebugSession?: DebugSession;
    activeStackItem?: { threadId?: number };
    activeDebugConsole: { appendLine(text: string): void };
  };
  const window: {
    showQuickPick(items: Picked[], options?: { placeHolder: string }): Promise<Picked | undefined>;
    showErrorMessage(message: string): void;
  };
  const commands: { registerCommand(name: string, command: (item?: { threadId?: string }) => unknown): object };
}

declare function require(name: 'vscode'): typeof import('vscode');
declare const module: { exports: object };
