// The piano roll: notes on a canvas over bars and keys, the bars that are selected, and the line where the sound is.
import { LEFT } from "./axis.js";
import { Pictures } from "./canvas.js";

/** @typedef {import("./midi.js").Piece} Piece */
/** @typedef {{bars: [number, number][], beats: number[], first: number, last: number}} Bars */

const TOP = 20, FOOT = 14;
const NAMES = "c cs d eb e f fs g ab a bb b".split(" ");

/** The name of a key as scores write it.
 * @param {number} key */
export function nameOf(key) {
  return key < 11 ? `key ${key}` : key === 11 ? "cb0" : `${NAMES[key % 12]}${Math.floor(key / 12) - 1}`;
}

/** The first place of a rising list at which `holds` is true.
 * @param {number} length @param {(at: number) => boolean} holds */
export function firstWhere(length, holds) {
  let low = 0, high = length;
  while (low < high) {
    const middle = (low + high) >> 1;
    if (holds(middle)) high = middle; else low = middle + 1;
  }
  return low;
}

export class Roll {
  /** @param {HTMLElement} home @param {import("./axis.js").Axis} axis @param {import("./palette.js").Palette} palette
   * @param {{pointed: (note: number) => void, chosen: (note: number) => void, selected: (from: number, to: number) => void,
   *   seek: (tick: number) => void, key: (key: string) => boolean, isFaint: (event: number) => boolean}} told */
  constructor(home, axis, palette, told) {
    Object.assign(this, { home, axis, palette, told });
    this.pictures = new Pictures(home, 2);
    home.addEventListener("scroll", () => this.scrolled());
    home.addEventListener("wheel", (event) => this.wheel(event), { passive: false });
    home.addEventListener("keydown", (event) => this.keyed(event));
    home.addEventListener("pointerdown", (event) => this.down(event));
    home.addEventListener("pointermove", (event) => this.moved(event));
    home.addEventListener("pointerup", () => { this.dragged = null; });
    axis.listeners.push(() => this.follow());
  }

  /** @type {HTMLElement} */ home = /** @type {any} */ (null);
  /** @type {import("./axis.js").Axis} */ axis = /** @type {any} */ (null);
  /** @type {import("./palette.js").Palette} */ palette = /** @type {any} */ (null);
  /** @type {any} */ told = null;
  /** @type {Piece | null} */ piece = null;
  /** @type {Bars | null} */ bars = null;
  /** @type {Int32Array | null} */ processes = null;
  /** @type {{from: number, to: number} | null} */ selection = null;
  /** @type {number | null} */ dragged = null;
  byProcess = false;
  chosen = -1;
  row = 10;
  line = 0;

  // ---- where things are

  get keys() { return this.piece ? [Math.max(0, this.piece.low - 1), Math.min(127, this.piece.high + 1)] : [59, 61]; }

  /** @param {number} key */
  y(key) { return TOP + (this.keys[1] - key) * this.row - this.home.scrollTop; }

  /** @param {number} y */
  keyAt(y) { return this.keys[1] - Math.floor((y + this.home.scrollTop - TOP) / this.row); }

  /** What a note is painted with.
   * @param {number} event */
  number(event) {
    if (this.byProcess && this.processes) return this.processes[event];
    return /** @type {Piece} */ (this.piece).messages[3 * event] & 15;
  }

  // ---- what is shown

  /** @param {Piece} piece */
  show(piece) {
    this.piece = piece;
    this.chosen = -1;
    this.layout();
  }

  layout() {
    this.pictures.resize();
    const { width, height } = this.pictures, [low, high] = this.keys;
    this.row = Math.max(5, Math.min(16, Math.floor((height - TOP - FOOT) / (high - low + 1))));
    this.axis.fit(this.piece ? this.piece.end : 1, width);
  }

  /** Lets the box scroll to where the axis is, and draws. */
  follow() {
    const [low, high] = this.keys;
    this.pictures.make(this.axis.room, TOP + (high - low + 1) * this.row + FOOT);
    const left = this.axis.begin * this.axis.scale;
    if (Math.abs(this.home.scrollLeft - left) > 1) this.home.scrollLeft = left;
    this.draw();
  }

  scrolled() {
    const left = this.axis.begin * this.axis.scale;
    if (Math.abs(this.home.scrollLeft - left) > 1) this.axis.set(this.home.scrollLeft / this.axis.scale, this.axis.scale);
    else this.draw();
  }

  draw() {
    const pen = this.pictures.clear(0), inks = this.palette.inks;
    const { width, height } = this.pictures;
    pen.fillStyle = inks.ground;
    pen.fillRect(0, 0, width, height);
    this.drawKeys(pen, inks);
    if (this.selection) {
      pen.fillStyle = inks.chosen;
      const from = this.axis.x(this.selection.from);
      pen.fillRect(from, 0, this.axis.x(this.selection.to) - from, height);
    }
    this.drawBars(pen, inks);
    if (this.piece) this.drawNotes(pen, inks, this.piece);
    this.drawNames(pen, inks);
    this.drawLine(this.line);
  }

  /** @param {CanvasRenderingContext2D} pen @param {import("./palette.js").Inks} inks */
  drawKeys(pen, inks) {
    const [low, high] = this.keys;
    pen.fillStyle = inks.blackKey;
    for (let key = low; key <= high; key++) {
      if ([1, 3, 6, 8, 10].includes(key % 12)) pen.fillRect(LEFT, this.y(key), this.pictures.width, this.row);
    }
  }

  /** @param {CanvasRenderingContext2D} pen @param {import("./palette.js").Inks} inks */
  drawNames(pen, inks) {
    const [low, high] = this.keys;
    pen.fillStyle = inks.ground;
    pen.fillRect(0, 0, LEFT - 1, this.pictures.height);
    pen.textAlign = "right";
    for (let key = low; key <= high; key++) {
      const isWhite = ![1, 3, 6, 8, 10].includes(key % 12);
      if (this.row < 10 && key % 12 && !(this.row >= 7 && isWhite)) continue;
      pen.fillStyle = key % 12 ? inks.quiet : inks.ink;
      pen.fillText(nameOf(key), LEFT - 5, this.y(key) + this.row / 2);
    }
    pen.fillStyle = inks.ground;
    pen.fillRect(0, 0, LEFT - 1, TOP);
    pen.fillStyle = inks.quiet;
    pen.fillText("bar", LEFT - 5, TOP / 2);
  }

  /** @param {CanvasRenderingContext2D} pen @param {import("./palette.js").Inks} inks */
  drawBars(pen, inks) {
    if (!this.bars) return;
    const { axis, bars: { bars, beats } } = this, height = this.pictures.height;
    pen.fillStyle = inks.weak;
    const first = firstWhere(beats.length, (at) => beats[at] >= axis.begin);
    if (beats.length > 1 && (beats[beats.length - 1] / beats.length) * axis.scale > 7) {
      for (let at = first; at < beats.length && beats[at] <= axis.until; at++) {
        pen.fillRect(Math.round(axis.x(beats[at])), TOP, 1, height);
      }
    }
    pen.textAlign = "left";
    let free = LEFT - 20;
    for (const [tick, bar] of bars) {
      const x = Math.round(axis.x(tick));
      if (x < LEFT || x > this.pictures.width) continue;
      const isLabelled = x >= free + 12;
      if (isLabelled || bars.length * 4 < this.pictures.width) {
        pen.fillStyle = inks.strong;
        pen.fillRect(x, isLabelled ? 0 : TOP, 1, height);
      }
      if (isLabelled && bar <= this.bars.last) {
        pen.fillStyle = inks.ink;
        pen.fillText(String(bar), x + 2, TOP / 2);
        free = x + pen.measureText(String(bar)).width;
      }
    }
  }

  /** @param {CanvasRenderingContext2D} pen @param {import("./palette.js").Inks} inks @param {Piece} piece */
  drawNotes(pen, inks, piece) {
    const { axis } = this, { notes, ends, ticks, messages } = piece, until = axis.until;
    const first = firstWhere(notes.length, (at) => ticks[notes[at]] >= axis.begin - piece.longest);
    const covered = new Float64Array(128).fill(-1);  // where the last note of each key ends, for very many
    pen.save();
    pen.beginPath();
    pen.rect(LEFT, TOP, this.pictures.width, this.pictures.height);
    pen.clip();
    const isNear = (until - axis.begin) / Math.max(1, notes.length - first) * axis.scale > 0.5;
    for (let at = first; at < notes.length && ticks[notes[at]] <= until; at++) {
      if (ends[at] < axis.begin) continue;
      const event = notes[at], key = messages[3 * event + 1];
      const x = axis.x(ticks[event]), width = Math.max(1, (ends[at] - ticks[event]) * axis.scale);
      if (x + width <= covered[key] + 0.5) continue;
      covered[key] = x + width;
      pen.globalAlpha = this.told.isFaint(event) ? 0.2 : 1;
      pen.fillStyle = this.palette.paint(pen, this.number(event));
      // a gap tells notes of one key apart
      pen.fillRect(x, this.y(key) + 1, isNear && width > 3 ? width - 1 : width, this.row - 2);
    }
    pen.globalAlpha = 1;
    this.drawMarks(pen, piece);
    if (this.chosen >= 0) this.drawChosen(pen, inks, piece);
    pen.restore();
  }

  /** Messages that are no notes, in the row at the foot.
   * @param {CanvasRenderingContext2D} pen @param {Piece} piece */
  drawMarks(pen, piece) {
    const { ticks, messages } = piece, foot = this.pictures.height - FOOT;
    let last = -1;
    for (let event = firstWhere(ticks.length, (at) => ticks[at] >= this.axis.begin);
      event < ticks.length && ticks[event] <= this.axis.until; event++) {
      const kind = messages[3 * event] >> 4, x = Math.round(this.axis.x(ticks[event]));
      if (kind === 8 || kind === 9 || x === last) continue;
      last = x;
      pen.fillStyle = this.palette.colour(messages[3 * event] & 15);
      pen.fillRect(x, foot + 2, 2, FOOT - 4);
    }
  }

  /** @param {CanvasRenderingContext2D} pen @param {import("./palette.js").Inks} inks @param {Piece} piece */
  drawChosen(pen, inks, piece) {
    const event = piece.notes[this.chosen];
    const x = this.axis.x(piece.ticks[event]), y = this.y(piece.messages[3 * event + 1]);
    pen.lineWidth = 2;
    pen.strokeStyle = inks.line;
    pen.strokeRect(x - 2, y - 1, Math.max(1, (piece.ends[this.chosen] - piece.ticks[event]) * this.axis.scale) + 4,
      this.row + 2);
  }

  /** The line where the sound is.
   * @param {number} tick */
  drawLine(tick) {
    this.line = tick;
    const pen = this.pictures.clear(1), x = this.axis.x(tick);
    if (x < LEFT || x > this.pictures.width) return;
    pen.fillStyle = this.palette.inks.line;
    pen.fillRect(x - 0.75, 0, 1.5, this.pictures.height);
  }

  // ---- what is done

  /** The note at a point of the picture; -1 where none is.
   * @param {number} x @param {number} y */
  noteAt(x, y) {
    if (!this.piece || x < LEFT || y < TOP) return -1;
    const { notes, ends, ticks, messages, longest } = this.piece;
    const tick = this.axis.tick(x), key = this.keyAt(y), near = 3 / this.axis.scale;
    for (let at = firstWhere(notes.length, (place) => ticks[notes[place]] > tick) - 1; at >= 0; at--) {
      if (ticks[notes[at]] < tick - longest - near) return -1;
      if (messages[3 * notes[at] + 1] === key && ends[at] + near >= tick) return at;
    }
    return -1;
  }

  /** @param {number} note */
  choose(note) {
    if (!this.piece || !this.piece.notes.length) return;
    this.chosen = Math.max(0, Math.min(note, this.piece.notes.length - 1));
    const event = this.piece.notes[this.chosen], y = this.y(this.piece.messages[3 * event + 1]);
    if (y < TOP || y > this.pictures.height - FOOT - this.row) this.home.scrollTop += y - this.pictures.height / 2;
    this.axis.reveal(this.piece.ticks[event]);
    this.draw();
    this.told.chosen(this.chosen);
  }

  /** @param {PointerEvent | WheelEvent} event */
  point(event) {
    const box = this.home.getBoundingClientRect();
    return { x: event.clientX - box.left - this.home.clientLeft, y: event.clientY - box.top - this.home.clientTop };
  }

  /** @param {PointerEvent} event */
  down(event) {
    const { x, y } = this.point(event);
    if (x < LEFT || x > this.pictures.width || y > this.pictures.height) return;
    const note = this.noteAt(x, y);
    if (y < TOP) {
      this.dragged = this.axis.tick(x);
      this.select(this.dragged, this.dragged);
    } else if (note >= 0) this.choose(note);
    else this.told.seek(this.axis.tick(x));
  }

  /** @param {PointerEvent} event */
  moved(event) {
    const { x, y } = this.point(event);
    if (this.dragged !== null) this.select(this.dragged, this.axis.tick(x));
    else this.told.pointed(this.noteAt(x, y));
  }

  /** Selects the bars between two ticks.
   * @param {number} one @param {number} other */
  select(one, other) {
    if (!this.bars || this.bars.bars.length < 2) return;
    const { bars } = this.bars;
    const bar = (/** @type {number} */ tick) =>
      bars[Math.max(0, Math.min(bars.length - 2, firstWhere(bars.length, (at) => bars[at][0] > tick) - 1))][1];
    this.told.selected(bar(Math.min(one, other)), bar(Math.max(one, other)));
  }

  /** @param {WheelEvent} event */
  wheel(event) {
    if (!event.ctrlKey && !event.metaKey) return;
    event.preventDefault();
    this.axis.zoom(Math.exp(-event.deltaY / 300), this.axis.tick(this.point(event).x));
  }

  /** @param {KeyboardEvent} event */
  keyed(event) {
    if (event.ctrlKey || event.metaKey || event.altKey) return;
    const notes = this.piece ? this.piece.notes.length : 0;
    const steps = /** @type {{[key: string]: () => void}} */ ({
      ArrowRight: () => this.choose(this.chosen + 1), ArrowLeft: () => this.choose(Math.max(0, this.chosen - 1)),
      ArrowUp: () => this.home.scrollBy(0, -3 * this.row), ArrowDown: () => this.home.scrollBy(0, 3 * this.row),
      Home: () => this.choose(0), End: () => this.choose(notes - 1), "+": () => this.axis.zoom(1.4),
      "=": () => this.axis.zoom(1.4), "-": () => this.axis.zoom(1 / 1.4), "0": () => this.axis.whole(),
    });
    if (event.key in steps) steps[event.key]();
    else if (!this.told.key(event.key)) return;
    event.preventDefault();
  }

  /** In words, for a screen reader. */
  get words() {
    if (!this.piece) return "Piano roll, empty";
    const { notes, low, high, channels } = this.piece;
    const bars = this.bars ? `, bars ${this.bars.first} to ${this.bars.last}` : "";
    return `Piano roll: ${notes.length} notes from ${nameOf(low)} to ${nameOf(high)}, channel${channels.length === 1 ? "" : "s"} ${channels.join(", ")}${bars}. `
      + "Arrow keys go from note to note, plus and minus zoom, Space plays, Enter goes to the text.";
  }
}
