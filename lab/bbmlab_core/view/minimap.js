/** A small picture of the whole layout with a frame about what the large one shows. A press goes there. */
import * as painting from "./painting.js";

const MAP_SIDE_PIXELS = 150;

class Minimap {
  stage;
  canvas;

  /** @param {Stage} stage @param {HTMLCanvasElement} canvas */
  constructor(stage, canvas) {
    this.stage = stage;
    this.canvas = canvas;
    const go = (event) => { if (event.buttons & 1) this.centreAt(event.offsetX, event.offsetY); };
    canvas.addEventListener("pointerdown", (event) => {
      canvas.setPointerCapture(event.pointerId);
      go(event);
    });
    canvas.addEventListener("pointermove", go);
  }

  /** The pixels of a cell. */
  get scale() { return MAP_SIDE_PIXELS / Math.max(this.stage.layout.width, this.stage.layout.height); }

  /** Puts a place of the small picture into the middle of the large one. */
  centreAt(x, y) {
    this.stage.centreOn(x / this.scale, y / this.scale, this.stage.scale);
    this.stage.noteViewMoved();
  }

  /** Draws it, if the large picture does not show everything. */
  paintMinimap() {
    const { stage, canvas, scale } = this, { layout } = stage, [x0, y0, x1, y1] = stage.seenRange();
    canvas.hidden = x0 <= 0 && y0 <= 0 && x1 >= layout.width && y1 >= layout.height;
    if (canvas.hidden) return;
    const wide = `${Math.ceil(layout.width * scale)}px`, high = `${Math.ceil(layout.height * scale)}px`;
    // A style that is written, even its own, has the page laid out again.
    if (canvas.style.width !== wide || canvas.style.height !== high) Object.assign(canvas.style, { width: wide,
      height: high });
    const place = painting.clearCanvasForPainting(canvas, scale, 0, 0), { pen, inks } = place;
    stage.tiles.paintShownTiles(place);
    pen.strokeStyle = inks.box;
    pen.lineWidth = 2;
    pen.strokeRect(x0 * scale, y0 * scale, Math.max(4, (x1 - x0) * scale), Math.max(4, (y1 - y0) * scale));
  }
}

export { Minimap };
