/**
 * Finds places for the names of ports, off other ports and off each other, by the rules of `label_places.py`.
 *
 * @typedef {{x: number, y: number, width: number, height: number}} Rect
 * @typedef {{cell: Rect, width: number, height: number, isAbove: boolean}} Name
 * @typedef {{box: Rect, away: number}} NamePlace
 */

const COVERING_COST = 100, MAX_LINES_AWAY = 6, BUCKET = 64;

/** Returns the area that two rectangles share. @type {(one: Rect, other: Rect) => number} */
function sharedArea(one, other) {
  const wide = Math.min(one.x + one.width, other.x + other.width) - Math.max(one.x, other.x);
  const high = Math.min(one.y + one.height, other.y + other.height) - Math.max(one.y, other.y);
  return wide > 0 && high > 0 ? wide * high : 0;
}

/** Rectangles with the cost of covering them, filed by squares of the picture. */
class Obstacles {
  filed = new Map();
  rects = [];

  /** Calls an action with each square that a rectangle touches. */
  visitSquares(rect, action) {
    for (let row = Math.floor(rect.y / BUCKET); row <= Math.floor((rect.y + rect.height) / BUCKET); row += 1) {
      const last = Math.floor((rect.x + rect.width) / BUCKET);
      for (let column = Math.floor(rect.x / BUCKET); column <= last; column += 1) action(row * 65536 + column);
    }
  }

  add(rect, cost) {
    this.visitSquares(rect, (square) => {
      if (!this.filed.has(square)) this.filed.set(square, []);
      this.filed.get(square).push(this.rects.length);
    });
    this.rects.push([rect, cost]);
  }

  /** Returns what it costs to cover what lies below a rectangle. */
  coveringCost(rect) {
    const near = new Set();
    this.visitSquares(rect, (square) => { for (const number of this.filed.get(square) || []) near.add(number); });
    let sum = 0;
    for (const number of near) sum += this.rects[number][1] * sharedArea(rect, this.rects[number][0]);
    return sum;
  }
}

/**
 * Yields the places for a name, the best first: above or below, at the sides, at the corners, and then further away.
 */
function* candidatePlaces({ cell, width, height, isAbove }) {
  const x = cell.x + cell.width / 2, y = cell.y + cell.height / 2, first = isAbove ? -1 : 1, half = width / 2;
  for (let away = 0; away <= MAX_LINES_AWAY; away += 1) {
    const lift = first * (cell.height / 2 + height / 2 + 1 + away * height);
    const shift = cell.width / 2 + half + 2 + away * height;
    const offsets = [[0, lift], [0, -lift], [shift, 0], [-shift, 0], [half, lift], [-half, lift], [half, -lift],
      [-half, -lift],
      [shift, lift], [-shift, lift], [shift, -lift], [-shift, -lift]];
    for (const [dx, dy] of offsets) {
      yield { box: { x: x + dx - half, y: y + dy - height / 2, width, height }, away };
    }
  }
}

/** Returns the place of a name that costs least. */
function bestPlace(name, obstacles) {
  let best = null, least = Infinity;
  for (const place of candidatePlaces(name)) {
    const base = place.away * name.height;
    if (base >= least) break;
    const cost = base + obstacles.coveringCost(place.box);
    if (cost < least) {
      best = place;
      least = cost;
    }
  }
  return best;
}

/**
 * Returns a place for each name.
 * @param {Name[]} names
 * @param {Rect[]} signs what a name should leave free if it can
 * @param {Rect[]} ports cells of ports that have no name of their own
 * @returns {NamePlace[]}
 */
function chooseNamePlaces(names, signs, ports) {
  const obstacles = new Obstacles();
  for (const rect of signs) obstacles.add(rect, 1);
  for (const rect of [...ports, ...names.map((name) => name.cell)]) obstacles.add(rect, COVERING_COST);
  return names.map((name) => {
    const place = bestPlace(name, obstacles);
    obstacles.add(place.box, COVERING_COST);
    return place;
  });
}

export { chooseNamePlaces, sharedArea };
