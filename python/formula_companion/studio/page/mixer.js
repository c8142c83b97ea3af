// Which channels and processes are heard: mute and solo of each.

export class Mixer {
  /** @param {HTMLElement} home @param {() => void} changed */
  constructor(home, changed) {
    this.home = home;
    this.changed = changed;
    /** @type {Set<string>} */ this.muted = new Set();
    /** @type {Set<string>} */ this.solo = new Set();
  }

  get isWhole() { return !this.muted.size && !this.solo.size; }

  /** What tells one choice from another. */
  get state() { return `${[...this.muted].sort()}/${[...this.solo].sort()}`; }

  /** Whether an event of a channel and a process is heard.
   * @param {number} channel @param {number} process */
  hears(channel, process) {
    const names = [`channel ${channel}`, `process ${process}`];
    if (names.some((name) => this.muted.has(name))) return false;
    return !this.solo.size || names.some((name) => this.solo.has(name));
  }

  /** Rows for the channels of a piece, and for the process that is chosen.
   * @param {string[]} names */
  show(names) {
    const kept = new Set([...names, ...this.muted, ...this.solo]);
    const focused = document.activeElement instanceof HTMLElement ? document.activeElement.dataset.mixer : undefined;
    this.home.replaceChildren(...[...kept].flatMap((name) => this.row(name)));
    if (focused) /** @type {HTMLElement | null} */ (this.home.querySelector(`[data-mixer="${focused}"]`))?.focus();
    this.names = names;
  }

  /** @type {string[]} */ names = [];

  /** @param {string} name */
  row(name) {
    const label = document.createElement("span");
    label.textContent = name;
    return [label, this.button(name, "Mute", this.muted), this.button(name, "Solo", this.solo)];
  }

  /** @param {string} name @param {string} what @param {Set<string>} set */
  button(name, what, set) {
    const made = document.createElement("button");
    made.type = "button";
    made.textContent = what;
    made.setAttribute("aria-label", `${what} ${name}`);
    made.setAttribute("aria-pressed", String(set.has(name)));
    made.dataset.mixer = `${what} ${name}`;
    made.onclick = () => this.toggle(name, set);
    return made;
  }

  /** @param {string} name @param {Set<string>} set */
  toggle(name, set) {
    if (!set.delete(name)) set.add(name);
    this.show(this.names);
    this.changed();
  }
}
