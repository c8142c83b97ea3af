// Files: opening, saving with its conflicts, examples as copies, exports.
import { element } from "./editor.js";
import { address } from "./session.js";

/** @typedef {{folder: string, opened: string, readOnly: boolean, files: string[], only: boolean,
 *   python: boolean, examples: {folder: string, name: string, about: string}[], folders: {[folder: string]: string}}} About */

/** @template {HTMLElement} T @param {string} id @param {new () => T} kind @returns {T} */
export function byId(id, kind) {
  const found = document.getElementById(id);
  if (!(found instanceof kind)) throw new Error(`there is no ${id}`);
  return found;
}

export class Files {
  /** @param {About} about @param {{text: () => string, show: (text: string) => void, tell: (words: string) => void,
   *   saved: () => void}} page */
  constructor(about, page) {
    this.about = about;
    this.page = page;
    this.name = "";
    /** What the file had when it was read; null for a text that has no file.
     * @type {string | null} */
    this.version = null;
    this.saved = "";
    this.isWhole = true;
    /** The score that a Python file made last. */
    this.made = "";
    byId("open", HTMLButtonElement).onclick = () => this.choose();
    byId("save", HTMLButtonElement).onclick = () => this.save();
    byId("save-as", HTMLButtonElement).onclick = () => this.saveAs();
    addEventListener("beforeunload", (event) => { if (this.isChanged) event.preventDefault(); });
  }

  get isPython() { return this.name.endsWith(".py"); }

  get isChanged() { return this.page.text() !== this.saved; }

  get maySave() { return !this.about.readOnly && this.isWhole; }

  /** Says what is open, and whether it is saved. */
  told() {
    const state = this.about.readOnly ? "read only" : !this.isWhole ? "no UTF-8: shown, and not saved"
      : this.version === null ? "not saved yet" : this.isChanged ? "changed" : "saved";
    byId("name", HTMLHeadingElement).textContent = this.name || "a new score";
    byId("saved", HTMLSpanElement).textContent = state;
    byId("save", HTMLButtonElement).disabled = byId("save-as", HTMLButtonElement).disabled = !this.maySave;
    document.title = `${this.isChanged ? "• " : ""}${this.name || "a new score"} – studio`;
  }

  /** @param {string} name @param {string} text @param {string | null} version @param {boolean} [isWhole] */
  take(name, text, version, isWhole = true) {
    this.name = name;
    this.version = version;
    this.saved = version === null ? "" : text;
    this.isWhole = isWhole;
    this.made = "";
    this.page.show(text);
    this.told();
    this.page.saved();
  }

  /** The list of what can be opened. */
  choose() {
    const home = byId("files", HTMLDivElement), dialog = byId("opening", HTMLDialogElement);
    const file = (/** @type {string} */ name) => this.entry(name, "", () => this.open(name));
    home.replaceChildren(element("h3", `In ${this.about.folder}`), this.list(this.about.files.map(file)));
    for (const [folder, title] of Object.entries(this.about.folders)) {
      const entries = this.about.examples.filter((example) => example.folder === folder).map((example) =>
        this.entry(example.name, example.about, () => this.copy(folder, example.name)));
      home.append(element("h3", `${title}, as a copy`), entries.length ? this.list(entries)
        : element("p", "the examples are not installed here"));
    }
    dialog.showModal();
  }

  /** @param {HTMLElement[]} entries */
  list(entries) {
    const made = document.createElement("ul");
    made.append(...entries);
    return made;
  }

  /** @param {string} name @param {string} about @param {() => void} act */
  entry(name, about, act) {
    const item = document.createElement("li"), button = element("button", name);
    button.onclick = () => {
      if (this.isChanged && !confirm(`${this.name || "The text"} is not saved. Leave it?`)) return;
      byId("opening", HTMLDialogElement).close();
      act();
    };
    item.append(button);
    if (about) item.append(element("small", about));
    return item;
  }

  /** @param {string} name */
  async open(name) {
    const answer = await fetch(address("files/", name));
    if (!answer.ok) {
      // a score that was named and is not there is a new one
      if (answer.status === 404 && this.about.only) {
        return this.take(name, name.endsWith(".py") ? "from formula_score import *\n" : "formula 1;\n", null);
      }
      return this.page.tell(await answer.text());
    }
    const { text, version, whole } = await answer.json();
    this.take(name, text, version, whole);
  }

  /** @param {string} folder @param {string} name */
  async copy(folder, name) {
    const { text } = await (await fetch(address("examples/", `${folder}/${name}`))).json();
    this.take(this.free(name), text, null);
    this.page.tell(`a copy of ${name}: it is not saved yet`);
  }

  /** A name that no file has.
   * @param {string} name */
  free(name) {
    for (let number = 1; ; number++) {
      const made = number === 1 ? name : name.replace(/(\.score)?$/, `_${number}.score`);
      if (!this.about.files.includes(made)) return made;
    }
  }

  async save() {
    if (!this.maySave) return this.page.tell(this.about.readOnly ? "the studio is read only" : "this text is no UTF-8");
    if (!this.name) return this.saveAs();
    await this.put(this.version);
  }

  /** @param {string | null} version */
  async put(version) {
    const text = this.page.text();
    const answer = await fetch(address("files/", this.name), { method: "PUT", body: JSON.stringify({ text, version }) });
    if (answer.status === 409) return this.settle(await answer.json(), text);
    if (!answer.ok) return this.page.tell(await answer.text());
    this.version = (await answer.json()).version;
    this.saved = text;
    if (!this.about.files.includes(this.name)) this.about.files = [...this.about.files, this.name].sort();
    this.told();
    this.page.tell(`${this.name} is saved`);
    this.page.saved();
  }

  /** Shows both texts, and does what is chosen.
   * @param {{why: string, text: string | null, version: string | null}} found
   * @param {string} text */
  async settle(found, text) {
    const dialog = byId("conflict", HTMLDialogElement);
    byId("conflict-head", HTMLHeadingElement).textContent = `${this.name}: ${found.why}`;
    byId("theirs", HTMLPreElement).replaceChildren(...marked(found.text ?? "(there is no file)", text));
    byId("ours", HTMLPreElement).replaceChildren(...marked(text, found.text ?? ""));
    const choice = await asked(dialog);
    if (choice === "ours") await this.put(found.version);
    else if (choice === "theirs" && found.text !== null) this.take(this.name, found.text, found.version);
    else this.page.tell(`${this.name} is not saved: ${found.why}`);
  }

  async saveAs() {
    const dialog = byId("naming", HTMLDialogElement), name = byId("new-name", HTMLInputElement);
    name.value = this.name || "new.score";
    byId("naming-why", HTMLParagraphElement).textContent = "";
    if (await asked(dialog) !== "save" || !name.value) return;
    const before = this.name, version = this.version;
    const ending = this.isPython ? ".py" : ".score", wanted = name.value.endsWith(ending) ? name.value : name.value + ending;
    this.name = wanted;
    await this.put(wanted === before ? version : null);
    if (this.saved !== this.page.text()) this.name = before;
    this.told();
  }

  /** Makes a file of the text, and hands it to the browser.
   * @param {string} kind @param {object} more */
  async export(kind, more) {
    if (this.isPython && !this.made) return this.page.tell("there is no score yet: save the file, so that it is run");
    this.page.tell("the file is made ..");
    const answer = await fetch(`export/${kind}`, { method: "POST", body: JSON.stringify({ text: this.isPython ? this.made : this.page.text(), ...more }) });
    if (!answer.ok) return this.page.tell(await answer.text());
    const link = document.createElement("a"), stem = (this.name || "new.score").replace(/^.*\//, "").replace(/\.(score|py)$/, "");
    const ending = /** @type {{[kind: string]: string}} */ ({ midi: ".mid", parts: "_parts.mid", excerpt: "_bars.mid",
      svg: ".svg", wav: ".wav" })[kind];
    link.href = URL.createObjectURL(await answer.blob());
    link.download = stem + ending;
    link.click();
    setTimeout(() => URL.revokeObjectURL(link.href), 10000);
    this.page.tell(`${link.download} is made`);
  }
}

/** Shows a dialog, and gives the value of the button that closes it.
 * @param {HTMLDialogElement} dialog @returns {Promise<string>} */
function asked(dialog) {
  dialog.returnValue = "";
  dialog.showModal();
  return new Promise((done) => { dialog.onclose = () => done(dialog.returnValue); });
}

/** The lines of a text; those that the other has not are marked.
 * @param {string} text @param {string} other */
function marked(text, other) {
  const lines = new Set(other.split("\n"));
  return text.split("\n").flatMap((line) => [lines.has(line) ? document.createTextNode(line) : element("mark", line), "\n"]);
}
