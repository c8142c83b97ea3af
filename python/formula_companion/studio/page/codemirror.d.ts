/** What the page uses of CodeMirror 5, which its Debian package has no types for. */

interface Place { line: number; ch: number }
interface Mark { clear(): void; find(): { from: Place; to: Place } | undefined }
interface Stream {
  string: string; pos: number; start: number; eatSpace(): boolean; skipToEnd(): void; sol(): boolean; eol(): boolean;
}
interface Hint { text: string; displayText?: string; render?: (item: HTMLElement, data: object, hint: Hint) => void }
interface Hints { list: Hint[]; from: Place; to: Place }
interface Editor {
  getValue(): string; setValue(text: string): void; getCursor(): Place; setCursor(place: Place): void;
  getLine(line: number): string; focus(): void; refresh(): void; clearHistory(): void;
  on(what: string, listener: (...given: any[]) => void): void; execCommand(name: string): void;
  markText(from: Place, to: Place, options: object): Mark; setGutterMarker(line: number, gutter: string, mark: HTMLElement | null): void;
  lineInfo(line: number): { gutterMarkers?: { [gutter: string]: HTMLElement } };
  clearGutter(gutter: string): void; operation(work: () => void): void; showHint(options?: object): void;
  scrollIntoView(place: Place, margin?: number): void; getInputField(): HTMLElement; setOption(name: string, value: unknown): void;
  setSelection(from: Place, to: Place): void; lineCount(): number; getWrapperElement(): HTMLElement;
  replaceRange(text: string, from: Place, to?: Place): void; foldCode(place: Place, options?: object): void; isFolded(place: Place): boolean;
}
declare const CodeMirror: {
  (place: HTMLElement, options: object): Editor;
  defineMode(name: string, make: () => object): void;
  registerHelper(kind: string, name: string, helper: unknown): void;
  fold: { brace: unknown };
  Pass: unknown;
};
