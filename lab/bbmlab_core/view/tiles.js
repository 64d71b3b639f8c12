/**
 * Pictures of a layout's still parts at several scales, in square tiles that are made when they are first seen. So a
 * frame of a large layout only copies a few tiles.
 */

// The side of a tile in pixels, the finest scale, how many tiles are kept, and how long a frame may make tiles, in
// milliseconds.
const TILE_SIDE_PIXELS = 512, FINEST = 2, MAX_TILES = 96, BUDGET = 7;
const BUCKET_BITS = 7, COLUMNS = 64;

/** Rectangles, cells and diagonals of a layout, filed by squares of 128 cells. */
class SquareIndex {
  filed = new Map();
  count = 0;
  seen = new Uint32Array(0);
  look = 0;

  /** Files a number under a square. */
  addToSquare(column, row, number) {
    const square = row * COLUMNS + column;
    if (!this.filed.has(square)) this.filed.set(square, []);
    const list = this.filed.get(square);
    if (list.at(-1) !== number) list.push(number);
  }

  /** Files a rectangle under the next number. */
  addBox(x, y, w, h) {
    for (let row = y >> BUCKET_BITS; row <= (y + h - 1) >> BUCKET_BITS; row += 1) {
      for (let column = x >> BUCKET_BITS; column <= (x + w - 1) >> BUCKET_BITS; column += 1) {
        this.addToSquare(column, row, this.count);
      }
    }
    this.count += 1;
  }

  /** Files a piece of a way, along a diagonal or of one step to the side, under the next number. */
  addPiece(x, y, u, v) {
    const far = Math.max(Math.abs(u - x), Math.abs(v - y)), dx = Math.sign(u - x), dy = Math.sign(v - y);
    const edge = 1 << BUCKET_BITS;
    for (let at = 0; ; ) {
      const column = (x + dx * at) >> BUCKET_BITS, row = (y + dy * at) >> BUCKET_BITS;
      this.addToSquare(column, row, this.count);
      // The steps until the piece leaves this square.
      const leave = (step, place, square) => (step > 0 ? ((square + 1) * edge) - place
        : step < 0 ? place - square * edge + 1 : Infinity);
      at += Math.min(leave(dx, x + dx * at, column), leave(dy, y + dy * at, row));
      if (!(at <= far)) break;
    }
    this.count += 1;
  }

  /** Calls an action with each number that was filed under a square of a range of cells, once. */
  visitRange([x0, y0, x1, y1], action) {
    if (this.seen.length < this.count) this.seen = new Uint32Array(this.count);
    this.look += 1;
    for (let row = Math.max(0, y0) >> BUCKET_BITS; row <= y1 >> BUCKET_BITS; row += 1) {
      for (let column = Math.max(0, x0) >> BUCKET_BITS; column <= x1 >> BUCKET_BITS && column < COLUMNS; column += 1) {
        for (const number of this.filed.get(row * COLUMNS + column) || []) {
          if (this.seen[number] === this.look) continue;
          this.seen[number] = this.look;
          action(number);
        }
      }
    }
  }
}

// The boxes of modules and the cells of ports that were filed, by their lists.
const moduleIndexByList = new WeakMap(), filedPorts = new WeakMap();

/** Returns the boxes of modules by squares, filed once, and the longest of their short sides. */
function moduleIndex(modules) {
  if (!moduleIndexByList.has(modules)) {
    const filed = new SquareIndex();
    let widest = 0;
    for (const { box: [x, y, w, h] } of modules) {
      filed.addBox(x, y, w, h);
      widest = Math.max(widest, Math.min(w, h));
    }
    moduleIndexByList.set(modules, { filed, widest });
  }
  return moduleIndexByList.get(modules);
}

/**
 * Calls an action with the number and the box of each module near a range of cells: a look at all of 42,257 modules
 * takes 5 ms.
 */
const visitModules = (modules, range, action) =>
  moduleIndex(modules).filed.visitRange(range, (number) => action(number, modules[number].box));

/** Returns the longest of the short sides of modules. */
const maxModuleShortSide = (modules) => moduleIndex(modules).widest;

/** Calls an action with the number and the cell of each port near a range of cells. */
function visitPorts(ports, range, action) {
  if (!filedPorts.has(ports)) {
    const filed = new SquareIndex();
    for (const { cell: [x, y] } of ports) filed.addBox(x, y, 1, 1);
    filedPorts.set(ports, filed);
  }
  filedPorts.get(ports).visitRange(range, (number) => action(number, ports[number].cell));
}

/** Returns the squares by which cells are filed that a range touches: x, y, x, y, the ends included. */
function squaresInRange([x0, y0, x1, y1]) {
  const found = [], side = 1 << BUCKET_BITS;
  for (let y = Math.max(0, y0) >> BUCKET_BITS << BUCKET_BITS; y <= y1; y += side) {
    for (let x = Math.max(0, x0) >> BUCKET_BITS << BUCKET_BITS; x <= x1; x += side) found.push([x, y, x + side - 1,
      y + side - 1]);
  }
  return found;
}

/**
 * Returns the places in two flat lists of the groups of numbers that are only in one of them. A group has at most five
 * numbers below 8192.
 */
function changedIndexes(old, fresh, size) {
  const keysOf = (list) => {
    const keys = new Map();
    for (let at = 0; at < list.length; at += size) {
      let key = 0;
      for (let index = 0; index < Math.min(4, size); index += 1) key = key * 8192 + list[at + index];
      // Four numbers fill what a number can hold: the fifth one tells apart what is at one place.
      keys.set(size > 4 ? `${key} ${list[at + 4]}` : key, at);
    }
    return keys;
  };
  const before = keysOf(old), after = keysOf(fresh);
  return { gone: [...before].filter(([key]) => !after.has(key)).map(([, at]) => at),
    added: [...after].filter(([key]) => !before.has(key)).map(([, at]) => at) };
}

/** Writes the number of a tile. */
const tileName = (level, column, row) => `${level} ${column} ${row}`;

class Tiles {
  width;
  height;
  draw;
  made = new Map();
  coarsest;

  /**
   * @param {{width: number, height: number}} size that of the layout
   * @param {(place: Place, range: number[]) => void} draw draws a range of cells on a place
   */
  constructor({ width, height }, draw) {
    this.width = width;
    this.height = height;
    this.draw = draw;
    this.coarsest = Math.min(FINEST, Math.floor(Math.log2(TILE_SIDE_PIXELS / Math.max(width, height))));
  }

  /** Forgets all tiles: what they show has changed. */
  clear() { this.made.clear(); }

  /** Calls an action with the name, the canvas and the place of each tile that shows something of what is filed. */
  visitTouchedTiles(changed, action) {
    for (const [name, canvas] of [...this.made]) {
      const [level, column, row] = name.split(" ").map(Number), scale = 2 ** level, cells = TILE_SIDE_PIXELS / scale;
      const x = column * cells, y = row * cells;
      let isTouched = false;
      changed.visitRange([x, y, x + cells - 1, y + cells - 1], () => { isTouched = true; });
      if (isTouched) action(name, canvas, { scale, left: x, top: y, wide: TILE_SIDE_PIXELS, high: TILE_SIDE_PIXELS });
    }
  }

  /** Forgets the tiles that show something of what is filed. @param {SquareIndex} changed */
  forget(changed) { this.visitTouchedTiles(changed, (name) => this.made.delete(name)); }

  /**
   * Draws what was added over the tiles that show something of it.
   * @param {SquareIndex} added
   * @param {(place: Place) => void} draw
   */
  add(added, draw) {
    this.visitTouchedTiles(added, (_, canvas, place) => draw({ ...place, pen: canvas.getContext("2d") }));
  }

  /** Returns the level whose scale is the next at or above one. */
  levelOf(scale) { return Math.max(this.coarsest, Math.min(FINEST, Math.ceil(Math.log2(scale)))); }

  /** Makes a tile. */
  makeTile(level, column, row) {
    const scale = 2 ** level, cells = TILE_SIDE_PIXELS / scale, x = column * cells, y = row * cells;
    const canvas = document.createElement("canvas");
    canvas.width = canvas.height = TILE_SIDE_PIXELS;
    this.draw({ pen: canvas.getContext("2d"), scale, left: x, top: y, wide: TILE_SIDE_PIXELS, high: TILE_SIDE_PIXELS },
      [x - 2, y - 2, x + cells + 2, y + cells + 2]);
    this.made.set(tileName(level, column, row), canvas);
    // A map lists what was set first: the tile that was not used for the longest time.
    if (this.made.size > MAX_TILES) this.made.delete(this.made.keys().next().value);
    return canvas;
  }

  /** Returns a tile that is made, or undefined. It counts as used. */
  findMadeTile(level, column, row) {
    const name = tileName(level, column, row), found = this.made.get(name);
    if (found) {
      this.made.delete(name);
      this.made.set(name, found);
    }
    return found;
  }

  /** Returns the tiles of a level that a place shows, those in the middle first. */
  shownTiles({ left, top, wide, high, scale }, level) {
    const cells = TILE_SIDE_PIXELS / 2 ** level, found = [], last = (size) => Math.ceil(size / cells) - 1;
    const x0 = Math.max(0, Math.floor(left / cells));
    const x1 = Math.min(last(this.width), Math.floor((left + wide / scale) / cells));
    const y0 = Math.max(0, Math.floor(top / cells));
    const y1 = Math.min(last(this.height), Math.floor((top + high / scale) / cells));
    for (let row = y0; row <= y1; row += 1) for (let column = x0; column <= x1; column += 1) found.push([column, row]);
    const far = ([column, row]) => Math.abs(column - (x0 + x1) / 2) + Math.abs(row - (y0 + y1) / 2);
    return found.sort((one, other) => far(one) - far(other));
  }

  /** Copies a tile, or the part of a coarser one that is made, to its place. */
  copyTile({ pen, left, top, scale }, level, column, row) {
    const cells = TILE_SIDE_PIXELS / 2 ** level, x = (column * cells - left) * scale, y = (row * cells - top) * scale;
    const side = cells * scale;
    for (let up = 0; level - up >= this.coarsest; up += 1) {
      const part = TILE_SIDE_PIXELS / 2 ** up, canvas = this.findMadeTile(level - up, column >> up, row >> up);
      if (!canvas) continue;
      pen.drawImage(canvas, (column - (column >> up << up)) * part, (row - (row >> up << up)) * part, part, part, x, y,
        side, side);
      return;
    }
  }

  /** Draws what a place shows, with the tiles that there is time to make. Returns whether none is missing. */
  paintShownTiles(place, ratio = 1) {
    const level = this.levelOf(place.scale * ratio), wanted = this.shownTiles(place, level);
    const until = performance.now() + BUDGET;
    for (const [column, row] of this.shownTiles(place, this.coarsest)) if (!this.findMadeTile(this.coarsest, column,
        row)) this.makeTile(this.coarsest, column, row);
    let missing = 0;
    for (const [column, row] of wanted) {
      if (this.findMadeTile(level, column, row)) continue;
      if (performance.now() < until) this.makeTile(level, column, row);
      else missing += 1;
    }
    for (const [column, row] of wanted) this.copyTile(place, level, column, row);
    return missing === 0;
  }
}

export { Tiles, SquareIndex, changedIndexes, visitModules, visitPorts, maxModuleShortSide, squaresInRange };
