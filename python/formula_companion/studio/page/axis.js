// The axis of time that roll, lanes and tempo share: which tick is where.

/** The width of what stands before the first tick, in pixels: names of keys and of processes. */
export const LEFT = 60;
const RIGHT = 24;
/** The widest that a browser lets a page be, in pixels, with some reserve. */
const WIDEST = 3e7;

export class Axis {
  constructor() {
    this.begin = 0;      // the tick at the left
    this.scale = 0.1;    // pixels of a tick
    this.end = 1;        // the last tick
    this.width = 600;    // of the pictures, in pixels
    this.isWhole = true; // all of the piece is shown, as long as nobody zooms
    /** @type {(() => void)[]} */
    this.listeners = [];
  }

  /** @param {number} tick */
  x(tick) { return LEFT + (tick - this.begin) * this.scale; }

  /** @param {number} x */
  tick(x) { return Math.max(0, this.begin + (x - LEFT) / this.scale); }

  /** The width of the whole piece. */
  get room() { return LEFT + this.end * this.scale + RIGHT; }

  /** The tick at the right. */
  get until() { return this.tick(this.width); }

  /** @param {number} end @param {number} width */
  fit(end, width) {
    this.end = Math.max(1, end);
    this.width = width;
    if (this.isWhole) this.whole();
    else this.set(this.begin, this.scale);
  }

  whole() {
    this.isWhole = true;
    this.set(0, this.least);
  }

  get least() { return Math.max(1, this.width - LEFT - RIGHT) / this.end; }

  /** @param {number} factor @param {number} [tick] stays where it is */
  zoom(factor, tick = this.tick(LEFT + (this.width - LEFT) / 2)) {
    const x = this.x(tick), scale = this.scale * factor;
    this.isWhole = scale <= this.least;
    const bounded = Math.max(this.least, Math.min(4, WIDEST / this.end, scale));
    this.set(tick - (x - LEFT) / bounded, bounded);
  }

  /** @param {number} begin @param {number} scale */
  set(begin, scale) {
    const most = Math.max(0, this.end - (this.width - LEFT - RIGHT) / scale);
    this.begin = Math.max(0, Math.min(begin, most));
    this.scale = scale;
    this.listeners.forEach((listener) => listener());
  }

  /** Moves so far that a tick is seen.
   * @param {number} tick */
  reveal(tick) {
    const x = this.x(tick);
    if (x < LEFT || x > this.width - RIGHT) this.set(tick - (this.width - LEFT) / 10 / this.scale, this.scale);
  }
}
