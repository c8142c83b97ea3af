// The text: colours, folded blocks, brackets, completion, and what is refused or hardly meant, underlined.

/** @typedef {{line: number, character: number}} Position */
/** @typedef {[[number, number], [number, number]]} Span */
/** @typedef {{title: string, edits: {range: Span, new: string}[]}} Change */
/** @typedef {{severity: "error" | "warning" | "remark", rule: string, what: string, cure: string, said: string,
 *   range: Span, changes: Change[]}} Problem */
/** @typedef {{label: string, text: string, detail: string}} Item */

/** @param {[number, number]} position @returns {Place} */
const place = ([line, ch]) => ({ line, ch });

/** How each is underlined, and its sign. */
const LOOKS = { error: ["refused", "!"], warning: ["warned", "▲"], remark: ["remarked", "●"] };
/** So many are listed below the text; all have their signs beside it. */
const LISTED = 100;

export class Writing {
  /** @param {HTMLElement} home @param {HTMLElement} told where a refusal is told @param {HTMLElement} list where all
   * else is @param {(what: string, more: object) => Promise<any>} ask @param {() => void} save */
  constructor(home, told, list, ask, save) {
    this.told = told;
    this.isPython = false;
    this.list = list;
    /** @type {Mark[]} */
    this.marks = [];
    const complete = { hint: () => this.hints(ask), completeSingle: false };
    this.editor = CodeMirror(home, {
      mode: "formula", theme: "studio", lineNumbers: true, lineSeparator: "\n", lineWrapping: false, matchBrackets: true,
      autoCloseBrackets: true, foldGutter: true, indentUnit: 2, inputStyle: "contenteditable", spellcheck: false,
      specialChars: /[\u0000-\u0008\u000b\u000c\u000e-\u001f\u007f\u200b-\u200f\u2028\u2029\ufeff]/,
      gutters: ["CodeMirror-linenumbers", "refusals", "CodeMirror-foldgutter"], screenReaderLabel: "Score text",
      extraKeys: {
        "Ctrl-S": save, "Cmd-S": save, "Ctrl-Space": () => this.isPython || this.editor.showHint(complete), "Ctrl-/": "toggleComment",
        "Alt-F": (/** @type {Editor} */ editor) => editor.foldCode(editor.getCursor()),
        // the keyboard has to get out of the text
        "Tab": false, "Shift-Tab": false,
      },
    });
    const input = this.editor.getInputField();
    const described = `${told.id} ${list.id}`;
    for (const [name, value] of [["role", "textbox"], ["aria-multiline", "true"], ["aria-describedby", described]]) {
      input.setAttribute(name, value);
    }
  }

  get text() { return this.editor.getValue(); }

  /** Shows another text, which nothing goes back behind.
   * @param {string} text @param {boolean} isPython */
  open(text, isPython) {
    this.isPython = isPython;
    for (const [name, value] of [["mode", isPython ? "python" : "formula"], ["indentUnit", isPython ? 4 : 2]]) {
      this.editor.setOption(/** @type {string} */ (name), value);
    }
    this.editor.setValue(text);
    this.editor.clearHistory();
    this.editor.setCursor({ line: 0, ch: 0 });
  }

  /** Takes a refusal away, which holds no longer; all else stays until it is found anew. */
  accept() { if (this.told.firstChild) this.show([]); }

  /** Underlines what is found, and tells it: a refusal, which comes alone, in full.
   * @param {Problem[]} problems */
  show(problems) {
    this.editor.operation(() => {
      for (const mark of this.marks) mark.clear();
      this.editor.clearGutter("refusals");
      this.marks = problems.map((problem) => this.marked(problem));
    });
    this.told.replaceChildren(...problems.filter(isRefusal).flatMap((problem) => this.refusal(problem)));
    const others = problems.filter((problem) => !isRefusal(problem));
    this.list.replaceChildren(...others.slice(0, LISTED).map((problem) => this.row(problem)));
    if (others.length > LISTED) this.list.append(element("li", `and ${others.length - LISTED} more`));
  }

  /** @param {Problem} problem */
  marked(problem) {
    const [from, to] = problem.range.map(place), [look, sign] = LOOKS[problem.severity];
    const before = this.editor.lineInfo(from.line).gutterMarkers?.refusals;
    if (!before || problem.severity === "warning") {
      const shown = element("span", sign, `problem-sign ${look}-sign`);
      shown.title = problem.what;
      this.editor.setGutterMarker(from.line, "refusals", shown);
    }
    return this.editor.markText(from, to, { className: look, attributes: {
      title: `${problem.what}\n${problem.cure || problem.rule}`, "aria-invalid": String(isRefusal(problem)) } });
  }

  /** @param {Problem} problem */
  row(problem) {
    const row = element("li", "", `${LOOKS[problem.severity][0]}-row`);
    row.append(this.goes(problem), ` ${problem.severity}: ${problem.what} `, element("small", problem.rule), " ",
      ...this.buttons(problem));
    return row;
  }

  /** @param {Problem} problem */
  refusal(problem) {
    const [, ...lines] = problem.said.split("\n");
    const shown = lines.slice(0, lines.length - (problem.cure ? problem.cure.split("\n").length : 0));
    const heading = element("p", ` ${problem.what}`, "heading");
    heading.prepend(this.goes(problem));
    return [heading, element("pre", shown.join("\n")), element("p", problem.cure, "cure"), ...this.buttons(problem)];
  }

  /** @param {Problem} problem */
  goes(problem) {
    const [from] = problem.range.map(place);
    return button(`line ${from.line + 1}`, () => this.go(from.line, from.ch));
  }

  /** @param {Problem} problem */
  buttons(problem) {
    return problem.changes.map(({ title, edits }) => button(title, () => this.editor.operation(() => {
      for (const edit of [...edits].reverse()) {
        const [begin, end] = edit.range.map(place);
        this.editor.replaceRange(edit.new, begin, end);
      }
    })));
  }

  /** Puts the cursor at a place.
   * @param {number} line @param {number} ch */
  go(line, ch) {
    this.editor.setCursor({ line, ch });
    this.editor.scrollIntoView({ line, ch }, 80);
    this.editor.focus();
  }

  /** @param {(what: string, more: object) => Promise<any>} ask @returns {Promise<Hints>} */
  async hints(ask) {
    const { line, ch } = this.editor.getCursor();
    const { range, items } = await ask("complete", { position: [line, ch] });
    return { from: place(range[0]), to: place(range[1]), list: items.map((/** @type {Item} */ item) => ({
      text: item.text, displayText: item.label,
      render: (/** @type {HTMLElement} */ home) => home.append(item.label, element("small", item.detail)),
    })) };
  }
}

const isRefusal = (/** @type {Problem} */ problem) => problem.severity === "error";

/** @param {string} words @param {() => void} act */
function button(words, act) {
  const made = document.createElement("button");
  made.type = "button";
  made.textContent = words;
  made.onclick = act;
  return made;
}

/** @param {string} name @param {string} text @param {string} [kind] */
export function element(name, text, kind = "") {
  const made = document.createElement(name);
  made.textContent = text;
  if (kind) made.className = kind;
  return made;
}
