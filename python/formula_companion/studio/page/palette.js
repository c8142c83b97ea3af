// The colours of the pictures, light or dark, and the hatches of channels from 8 on.

/** @typedef {{ground: string, ink: string, quiet: string, edge: string, blackKey: string, strong: string, weak: string,
 *   chosen: string, line: string, accent: string}} Inks */

export class Palette {
  /** @param {string[]} light the colours of the first channels @param {{[light: string]: string}} darker */
  constructor(light, darker) {
    this.light = light;
    this.darker = darker;
    this.isDark = matchMedia("(prefers-color-scheme: dark)");
    /** @type {Map<string, CanvasPattern>} */
    this.hatches = new Map();
  }

  /** @returns {Inks} */
  get inks() {
    const style = getComputedStyle(document.documentElement);
    const ink = (/** @type {string} */ name) => style.getPropertyValue(`--${name}`).trim();
    return { ground: ink("ground"), ink: ink("ink"), quiet: ink("quiet"), edge: ink("edge"), blackKey: ink("black-key"),
      strong: ink("strong"), weak: ink("weak"), chosen: ink("chosen"), line: ink("line"), accent: ink("accent") };
  }

  /** The plain colour of a channel or process.
   * @param {number} number */
  colour(number) {
    const light = this.light[number % this.light.length];
    return this.isDark.matches ? this.darker[light] || light : light;
  }

  /** What a channel or process is painted with: from the ninth on hatched.
   * @param {CanvasRenderingContext2D} pen @param {number} number @returns {string | CanvasPattern} */
  paint(pen, number) {
    const colour = this.colour(number);
    if (number % (2 * this.light.length) < this.light.length) return colour;
    const known = this.hatches.get(colour);
    if (known) return known;
    const tile = document.createElement("canvas");
    tile.width = tile.height = 6;
    const brush = /** @type {CanvasRenderingContext2D} */ (tile.getContext("2d"));
    brush.fillStyle = this.isDark.matches ? "#0d1117" : "#ffffff";
    brush.fillRect(0, 0, 6, 6);
    brush.strokeStyle = colour;
    brush.lineWidth = 2;
    for (const at of [-6, 0, 6]) {
      brush.moveTo(at - 1, 7);
      brush.lineTo(at + 7, -1);
    }
    brush.stroke();
    const made = /** @type {CanvasPattern} */ (pen.createPattern(tile, "repeat"));
    this.hatches.set(colour, made);
    return made;
  }
}
