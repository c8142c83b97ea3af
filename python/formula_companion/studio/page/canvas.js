// A box that scrolls, with pictures that stay where they are while it does: one that changes seldom, one on top.

export class Pictures {
  /** @param {HTMLElement} home @param {number} layers */
  constructor(home, layers) {
    this.home = home;
    this.width = this.height = 0;
    this.canvases = Array.from({ length: layers }, () => home.appendChild(document.createElement("canvas")));
    this.canvases.forEach((canvas) => canvas.setAttribute("aria-hidden", "true"));
    this.room = home.appendChild(document.createElement("div"));
    this.room.className = "room";
  }

  /** Takes the size of the box. Whether it has changed. */
  resize() {
    const width = this.home.clientWidth, height = this.home.clientHeight, sharp = window.devicePixelRatio || 1;
    if (width === this.width && height === this.height && sharp === this.sharp) return false;
    Object.assign(this, { width, height, sharp });
    this.canvases.forEach((canvas, layer) => {
      canvas.width = Math.round(width * sharp);
      canvas.height = Math.round(height * sharp);
      canvas.style.width = `${width}px`;
      canvas.style.height = `${height}px`;
      canvas.style.marginTop = layer ? `${-height}px` : "0";
    });
    return true;
  }

  /** How far there is to scroll, in pixels.
   * @param {number} width @param {number} height */
  make(width, height) {
    this.room.style.width = `${Math.max(1, Math.floor(width))}px`;
    this.room.style.height = `${Math.max(1, Math.floor(height))}px`;
  }

  /** An empty layer to draw on.
   * @param {number} layer */
  clear(layer) {
    const pen = /** @type {CanvasRenderingContext2D} */ (this.canvases[layer].getContext("2d"));
    pen.setTransform(this.sharp, 0, 0, this.sharp, 0, 0);
    pen.clearRect(0, 0, this.width, this.height);
    pen.textBaseline = "middle";
    pen.font = "11px sans-serif";
    return pen;
  }

  /** @type {number} */
  sharp = 1;
}
