// The deformations of the process that is chosen: positions as written against ticks as played, level by level. Each
// point is an answer of the program.
import { LEFT } from "./axis.js";
import { Pictures } from "./canvas.js";

/** @typedef {{levels: string[], points: number[][]}} Curve */

const DASHES = [[], [6, 3], [2, 3], [8, 3, 2, 3]];

export class Tempo {
  /** @param {HTMLElement} home @param {import("./axis.js").Axis} axis @param {import("./palette.js").Palette} palette */
  constructor(home, axis, palette) {
    this.home = home;
    this.axis = axis;
    this.palette = palette;
    this.pictures = new Pictures(home, 1);
    /** @type {Curve[]} */
    this.curves = [];
    this.process = -1;
    this.isAsking = false;
    axis.listeners.push(() => this.draw());
  }

  /** @param {number} process @param {Curve[] | null} curves null while they are asked for */
  show(process, curves) {
    this.isAsking = curves === null;
    if (curves || process !== this.process) this.curves = curves || [];
    this.process = process;
    this.home.setAttribute("aria-label", this.words);
    this.draw();
  }

  get words() {
    if (!this.curves.length) return `Process ${this.process} is in no deformation of time`;
    return this.curves.map(({ levels, points }) => {
      const [tick, ...positions] = points[points.length - 1] || [0];
      return `Process ${this.process} in ${levels.join(", in it ")}: tick ${tick} is at `
        + positions.map((position, level) => `${position} of level ${level + 1}`).join(", ");
    }).join(". ");
  }

  draw() {
    this.pictures.resize();
    const pen = this.pictures.clear(0), inks = this.palette.inks, { width, height } = this.pictures;
    pen.fillStyle = inks.ground;
    pen.fillRect(0, 0, width, height);
    pen.save();
    pen.beginPath();
    pen.rect(LEFT, 0, width, height);
    pen.clip();
    if (this.isAsking) pen.globalAlpha = 0.4;
    for (const curve of this.curves) this.drawCurve(pen, inks, curve);
    pen.restore();
    pen.fillStyle = inks.quiet;
    pen.textAlign = "right";
    pen.fillText("as written", LEFT - 5, 9);
    if (!this.curves.length && this.process >= 0 && !this.isAsking) {
      pen.textAlign = "left";
      pen.fillText(this.words, LEFT + 6, height / 2);
    }
  }

  /** @param {CanvasRenderingContext2D} pen @param {import("./palette.js").Inks} inks @param {Curve} curve */
  drawCurve(pen, inks, { levels, points }) {
    if (points.length < 2) return;
    const height = this.pictures.height, begin = points[0][0];
    const most = Math.max(1, points[points.length - 1][0] - begin,
      ...levels.map((_, level) => points[points.length - 1][level + 1] - points[0][level + 1]));
    const y = (/** @type {number} */ position) => height - 5 - position / most * (height - 12);
    pen.lineWidth = 1;
    pen.strokeStyle = inks.weak;
    pen.setLineDash([]);
    pen.beginPath();  // what no deformation would make
    pen.moveTo(this.axis.x(begin), y(0));
    pen.lineTo(this.axis.x(points[points.length - 1][0]), y(points[points.length - 1][0] - begin));
    pen.stroke();
    levels.forEach((name, level) => {
      pen.strokeStyle = this.palette.colour(level + 2);
      pen.lineWidth = 1.6;
      pen.setLineDash(DASHES[level % DASHES.length]);
      pen.beginPath();
      for (const [tick, ...positions] of points) pen.lineTo(this.axis.x(tick), y(positions[level] - points[0][level + 1]));
      pen.stroke();
      pen.fillStyle = inks.ink;
      pen.textAlign = "left";
      pen.fillText(`${level + 1}: ${name}`, Math.max(LEFT, this.axis.x(begin)) + 6 + 150 * level, 9);
    });
  }
}
