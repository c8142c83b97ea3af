// A lane for each process, from its start to its end, with a line from each process that it waits for.
import { LEFT } from "./axis.js";
import { Pictures } from "./canvas.js";

/** @typedef {{begin: number, end: number, waits: number[], name: string, levels: number}} Process */

const ROW = 17;

export class Lanes {
  /** @param {HTMLElement} home @param {import("./axis.js").Axis} axis @param {import("./palette.js").Palette} palette
   * @param {(process: number) => void} chose @param {() => boolean} areColoured */
  constructor(home, axis, palette, chose, areColoured) {
    this.home = home;
    this.axis = axis;
    this.palette = palette;
    this.chose = chose;
    this.areColoured = areColoured;
    this.pictures = new Pictures(home, 1);
    /** @type {Process[]} */
    this.processes = [];
    this.chosen = -1;
    home.addEventListener("scroll", () => this.draw());
    home.addEventListener("keydown", (event) => this.keyed(event));
    home.addEventListener("pointerdown", (event) => {
      const row = Math.floor((event.clientY - home.getBoundingClientRect().top + home.scrollTop) / ROW);
      if (row >= 0 && row < this.processes.length) this.choose(row);
    });
    axis.listeners.push(() => this.draw());
  }

  /** @param {Process[]} processes */
  show(processes) {
    this.processes = processes;
    if (!processes.length) {
      this.chosen = -1;
      this.home.setAttribute("aria-label", "Processes: not known");
      this.draw();
      return;
    }
    // one that lasts is more to see than one that stands before all
    const longest = processes.reduce((best, each, at) =>
      each.end - each.begin > processes[best].end - processes[best].begin ? at : best, 0);
    const kept = processes[this.chosen];
    this.choose(kept && kept.end > kept.begin ? this.chosen : longest);
    this.draw();
  }

  /** @param {number} process */
  choose(process) {
    this.chosen = process;
    const top = process * ROW, { scrollTop, clientHeight } = this.home;
    if (top < scrollTop || top + ROW > scrollTop + clientHeight) this.home.scrollTop = top - clientHeight / 2;
    this.draw();
    this.home.setAttribute("aria-label", `Processes: ${this.processes.length}. Chosen: ${this.words}`);
    this.chose(process);
  }

  /** The process that is chosen, in words. */
  get words() {
    const process = this.processes[this.chosen];
    if (!process) return "none";
    const waits = process.waits.length ? `waits for ${process.waits.join(", ")}` : "waits for none";
    return `${process.name}, tick ${process.begin} to ${process.end}, ${waits}`;
  }

  draw() {
    this.pictures.resize();
    this.pictures.make(1, this.processes.length * ROW);
    const pen = this.pictures.clear(0), inks = this.palette.inks, { width, height } = this.pictures;
    pen.fillStyle = inks.ground;
    pen.fillRect(0, 0, width, height);
    const first = Math.max(0, Math.floor(this.home.scrollTop / ROW));
    const last = Math.min(this.processes.length, Math.ceil((this.home.scrollTop + height) / ROW) + 1);
    for (let at = first; at < last; at++) this.drawLane(pen, inks, at);
    for (let at = first; at < last; at++) this.drawWaits(pen, inks, at);
    pen.fillStyle = inks.ground;
    pen.fillRect(0, 0, LEFT - 1, height);
    pen.textAlign = "right";
    for (let at = first; at < last; at++) {
      pen.fillStyle = at === this.chosen ? inks.ink : inks.quiet;
      pen.fillText(`process ${at}`, LEFT - 5, this.y(at) + ROW / 2);
    }
  }

  /** @param {number} process */
  y(process) { return process * ROW - this.home.scrollTop; }

  /** @param {CanvasRenderingContext2D} pen @param {import("./palette.js").Inks} inks @param {number} at */
  drawLane(pen, inks, at) {
    const { begin, end, name } = this.processes[at], y = this.y(at), x = this.axis.x(begin);
    if (at === this.chosen) {
      pen.fillStyle = inks.chosen;
      pen.fillRect(0, y, this.pictures.width, ROW);
    }
    const length = Math.max(2, (end - begin) * this.axis.scale);
    pen.fillStyle = this.areColoured() ? this.palette.paint(pen, at) : inks.quiet;
    pen.fillRect(x, y + ROW - 6, length, 3);
    pen.fillRect(x, y + 3, 2, ROW - 6);
    pen.textAlign = "left";
    pen.fillStyle = inks.ink;
    const label = name.replace(/^process \d+ \((.*)\)$/, "$1");
    const room = pen.measureText(label).width;
    const from = Math.min(Math.max(x + 5, LEFT + 4), this.pictures.width - room - 6);
    if (x + length > LEFT && x < this.pictures.width) pen.fillText(label, from, y + ROW / 2 - 2);
  }

  /** @param {CanvasRenderingContext2D} pen @param {import("./palette.js").Inks} inks @param {number} at */
  drawWaits(pen, inks, at) {
    const { begin, waits } = this.processes[at], x = Math.round(this.axis.x(begin)) + 0.5;
    pen.lineWidth = 1;
    pen.strokeStyle = at === this.chosen ? inks.line : inks.strong;
    for (const before of waits) {
      const end = Math.round(this.axis.x(this.processes[before].end)) + 0.5;
      pen.beginPath();
      pen.moveTo(end, this.y(before) + ROW - 4);
      pen.lineTo(x - 0, this.y(at) + 3);
      pen.stroke();
    }
  }

  /** @param {KeyboardEvent} event */
  keyed(event) {
    const steps = /** @type {{[key: string]: number}} */ ({ ArrowDown: this.chosen + 1, ArrowUp: this.chosen - 1, Home: 0,
      End: this.processes.length - 1 });
    if (!(event.key in steps) || !this.processes.length) return;
    event.preventDefault();
    this.choose(Math.max(0, Math.min(steps[event.key], this.processes.length - 1)));
  }
}
