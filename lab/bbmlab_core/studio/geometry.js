/**
 * Mirrors that stay, directions of balls, and turned, reflected and moved parts. It needs no page.
 *
 * @typedef {{kind: string, name: ?string, box: number[], line: number}} Part a line of a layout; `box` is x, y, width
 * and height
 */

// The number of a cell that is at most two outside a layout.
const cellKey = (x, y) => (y + 2) * 8192 + x + 2;

/**
 * Whether a mirror by itself stays as it is: its sides are even, and its upper left cell has exactly one odd
 * coordinate.
 */
const isStable = ([x, y, w, h]) => w % 2 === 0 && h % 2 === 0 && (x + y) % 2 === 1;

/** Says why a mirror by itself falls apart, or returns null. */
function instabilityReason([x, y, w, h]) {
  if (w % 2 || h % 2) return `its sides are ${w} and ${h}: both must be even`;
  if ((x + y) % 2 === 0) return `its upper left cell is (${x}, ${y}): exactly one of the two numbers must be odd`;
  return null;
}

/** Returns the nearest box that stays, within a layout. Sides grow to even numbers. */
function nearestStableBox([x, y, w, h], width, height) {
  const wide = Math.min(w + w % 2, width), high = Math.min(h + h % 2, height);
  const left = Math.max(0, Math.min(x, width - wide)), top = Math.max(0, Math.min(y, height - high));
  const places = [[0, 0], [1, 0], [-1, 0], [0, 1], [0, -1]].map(([dx, dy]) => [left + dx, top + dy, wide, high]);
  return places.find((box) => isStable(box) && box[0] >= 0 && box[1] >= 0 && box[0] + wide <= width
    && box[1] + high <= height) || null;
}

/** Returns the directions in which a ball cell flies at a time: 1 is right or down (Margolus 1984, block rule). */
const flightDirection = (x, y, time) => [(x + time) % 2 === 0 ? 1 : -1, (y + time) % 2 === 0 ? 1 : -1];

/** Returns the two cells of a ball whose lead is at a cell at a time. */
function twoBallCells([x, y], time) {
  const [dx, dy] = flightDirection(x, y, time);
  return [[x, y], [x - 2 * dx, y - 2 * dy]];
}

/** Returns the cells of mirrors as a set of keys. */
function mirrorCellKeys(mirrors) {
  const keys = new Set();
  for (const [x, y, w, h] of mirrors) for (let v = y; v < y + h; v += 1) for (let u = x; u < x + w; u += 1)
      keys.add(cellKey(u, v));
  return keys;
}

/** Whether a block of a partition has one live cell, or two on a diagonal. */
function isMovingBlock(keys, x, y) {
  const [a, b, c, d] = [[0, 0], [1, 0], [0, 1], [1, 1]].map(([dx, dy]) => keys.has(cellKey(x + dx, y + dy)));
  const count = a + b + c + d;
  return count === 1 || count === 2 && a === d;
}

/** Returns a corner cell of a mirror that a step moves, with all mirrors of the layout, or null. */
function unstableCorner([x, y, w, h], keys) {
  for (const odd of [0, 1]) {
    for (const [u, v] of [[x, y], [x + w - 1, y], [x, y + h - 1], [x + w - 1, y + h - 1]]) {
      if (isMovingBlock(keys, u - (u + odd) % 2, v - (v + odd) % 2)) return [u, v];
    }
  }
  return null;
}

/**
 * Returns the mirrors that fall apart, each with a cell that moves. Mirrors that touch others are looked at with them.
 */
function unstableMirrors(mirrors) {
  if (mirrors.every(isStable)) return [];
  const keys = mirrorCellKeys(mirrors);
  return mirrors.filter((box) => !isStable(box)).map((box) => ({ box, cell: unstableCorner(box, keys) }))
    .filter(({ cell }) => cell !== null);
}

/** Returns the smallest box of even corners that holds some boxes: turned about it, even blocks stay even blocks. */
function evenBoundingBox(boxes) {
  const left = Math.min(...boxes.map(([x]) => x)), top = Math.min(...boxes.map(([, y]) => y));
  const x = left - left % 2, y = top - top % 2;
  const right = Math.max(...boxes.map(([u, , w]) => u + w)), bottom = Math.max(...boxes.map(([, v, , h]) => v + h));
  return [x, y, right + right % 2 - x, bottom + bottom % 2 - y];
}

const BOX_TRANSFORMS = {
  "rotate": ([x, y, w, h], [left, top, , high]) => [left + top + high - y - h, top + x - left, h, w],
  "flip-x": ([x, y, w, h], [left, , wide]) => [2 * left + wide - x - w, y, w, h],
  "flip-y": ([x, y, w, h], [, top, , high]) => [x, 2 * top + high - y - h, w, h],
};

/** Returns parts rotated by a quarter to the right ("rotate") or reflected ("flip-x", "flip-y") about their frame. */
function rotatedOrFlippedParts(parts, how) {
  const frame = evenBoundingBox(parts.map(({ box }) => box));
  return parts.map((part) => ({ ...part, box: BOX_TRANSFORMS[how](part.box, frame) }));
}

/** Returns parts that are moved by some cells. */
const shiftedParts = (parts, dx, dy) =>
  parts.map((part) => ({ ...part, box: [part.box[0] + dx, part.box[1] + dy, part.box[2], part.box[3]] }));

/**
 * Returns the nearest move that keeps the behaviour of parts: any for one cell, one that keeps a mirror in place for
 * one mirror, and whole blocks for several parts.
 */
function nearestSafeShift(parts, dx, dy) {
  const even = (value) => 2 * Math.round(value / 2);
  if (parts.length !== 1) return [even(dx), even(dy)];
  if (parts[0].kind !== "mirror" || !isStable(parts[0].box) || (dx + dy) % 2 === 0) return [dx, dy];
  return Math.abs(dx) >= Math.abs(dy) ? [dx, even(dy) + (dx % 2 ? 1 : 0)] : [even(dx) + (dy % 2 ? 1 : 0), dy];
}

/** Returns output and waste cells as they fly on by some steps from a time, without mirrors. */
function flownParts(parts, time, steps) {
  return parts.map((part) => {
    const [x, y] = part.box, [dx, dy] = flightDirection(x, y, time);
    return { ...part, box: [x + dx * steps, y + dy * steps, 1, 1] };
  });
}

export {
  isStable, instabilityReason, nearestStableBox, flightDirection, twoBallCells, unstableMirrors, evenBoundingBox,
  rotatedOrFlippedParts, shiftedParts, nearestSafeShift, flownParts,
};
