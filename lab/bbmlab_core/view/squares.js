/**
 * Draws many small squares. Each one adds its part of each pixel, as a canvas's 2D context does: 61,440 outlines take
 * the context 100 ms, and a loop over pixels 5 ms.
 */

// Fewer squares than this are drawn by the pen.
const MANY_SQUARES = 2000;

// An image of the size of the canvas that was drawn on last, its bytes and its words.
let board = null;

/** Whether a pen has pixels, and the squares are so many that they are drawn into these. */
const needsPixelDrawing = (pen, count) => pen.canvas !== undefined && count > MANY_SQUARES;

/** Returns the image for a canvas of a size. */
function imageForCanvas({ width, height }) {
  if (board?.canvas.width === width && board.canvas.height === height) return board;
  const canvas = Object.assign(document.createElement("canvas"), { width, height });
  const pen = canvas.getContext("2d"), image = pen.createImageData(width, height);
  board = { canvas, pen, image, bytes: image.data, words: new Uint32Array(image.data.buffer) };
  return board;
}

/** Adds a square of some pixels to an image. */
function addSquare({ bytes, canvas: { width, height } }, x, y, side) {
  const right = Math.min(width, Math.ceil(x + side)), bottom = Math.min(height, Math.ceil(y + side));
  for (let v = Math.max(0, Math.floor(y)); v < bottom; v += 1) {
    const high = Math.min(y + side, v + 1) - Math.max(y, v);
    for (let u = Math.max(0, Math.floor(x)); u < right; u += 1) {
      const wide = Math.min(x + side, u + 1) - Math.max(x, u), at = (v * width + u << 2) + 3;
      if (bytes[at] < 255) bytes[at] += wide * high * (255 - bytes[at]);
    }
  }
}

/**
 * Draws a square at each cell.
 * @param {Place} place its pen has a canvas
 * @param {number[]} cells x, y, x, y…
 * @param {string} ink
 * @param {{side: number, shift?: number, isWhole?: boolean}} look the side in pixels, how far the squares lie to the
 * right of and below the corners of their cells, and whether they begin at whole pixels
 */
function paintSquares({ pen, scale, left, top }, cells, ink, { side, shift = 0, isWhole = false }) {
  const found = imageForCanvas(pen.canvas), ratio = pen.getTransform().a, unit = scale * ratio, off = shift * ratio;
  found.pen.fillStyle = ink;
  // A pen returns its colour as #rrggbb. In a word of an image red is the lowest byte, and there is no opacity yet.
  const value = Number.parseInt(found.pen.fillStyle.slice(1), 16);
  found.words.fill(value >> 16 & 0xff | value & 0xff00 | (value & 0xff) << 16);
  for (let index = 0; index < cells.length; index += 2) {
    const x = (cells[index] - left) * unit + off, y = (cells[index + 1] - top) * unit + off;
    addSquare(found, isWhole ? Math.floor(x) : x, isWhole ? Math.floor(y) : y, side * ratio);
  }
  found.pen.putImageData(found.image, 0, 0);
  pen.save();
  pen.setTransform(1, 0, 0, 1, 0, 0);
  pen.drawImage(found.canvas, 0, 0);
  pen.restore();
}

export { needsPixelDrawing, paintSquares };
