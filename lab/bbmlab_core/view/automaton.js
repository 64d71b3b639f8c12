/**
 * The automaton, circuits and runs of modules, without a page. Node runs this file too, in lab/tests.
 *
 * @typedef {[number, number]} Cell
 * @typedef {{name: string, cell: Cell}} Port
 * @typedef {{width: number, height: number, steps: number, mirrors: number[][], balls: Cell[], ins: Port[], outs:
 * Port[], wastes: Cell[]}} Layout
 * @typedef {{gate: string, parameter: ?number, ins: string[], outs: string[]}} Gate
 * @typedef {{inputs: string[], gates: Gate[], outputs: string[]}} Circuit
 * @typedef {[?number, number, number, string]} BorderLine time (null is every odd time), x, y, signal
 * @typedef {{box: number[], cuts: string[], uses: number[], edges: BorderLine[], halos: BorderLine[], stops: Array}}
 * Module
 * @typedef {{layout: Layout, circuit: ?Circuit, certificate: ?{version: number, modules: Module[]}}} Data
 */

/**
 * The numbers of the cells of a layout and of those next to it, such that a block's other cells are 1, `row` and `row`
 * + 1 further.
 */
class CellNumbering {
  bits;
  width;
  height;
  row;
  count;

  /** @param {{width: number, height: number}} size that of the layout */
  constructor({ width, height }) {
    // The least power of two from 1024: a short row of numbers makes runs fast.
    this.bits = Math.max(10, 32 - Math.clz32(width + 7));
    this.width = width;
    this.height = height;
    this.row = 1 << this.bits;
    this.count = (height + 8) << this.bits;
  }

  /** @type {(x: number, y: number) => number} */
  keyOf(x, y) { return ((y + 2) << this.bits) + x + 2; }

  /** @type {(key: number) => number} */
  xOf(key) { return (key & this.row - 1) - 2; }

  /** @type {(key: number) => number} */
  yOf(key) { return (key >> this.bits) - 2; }

  /** Returns a cell. @type {(key: number) => Cell} */
  cellOf(key) { return [this.xOf(key), this.yOf(key)]; }

  /** Returns the upper left cell of the block that has a cell. Even steps take even blocks. */
  blockOf(key, odd) { return key - ((key ^ odd) & 1) - ((((key >> this.bits) ^ odd) & 1) << this.bits); }
}

/**
 * A set of cells of a layout with a byte for each possible cell: a step of many balls is several times faster than with
 * a Set.
 */
class CellSet {
  numbering;
  bytes;

  /** @param {Iterable<number>} keys @param {CellNumbering} numbering */
  constructor(keys, numbering) {
    this.numbering = numbering;
    this.bytes = new Uint8Array(numbering.count);
    for (const key of keys) this.bytes[key] = 1;
  }

  /** @returns {CellSet} */
  copy() {
    const same = new CellSet([], this.numbering);
    same.bytes.set(this.bytes);
    return same;
  }

  /** @type {(key: number) => boolean} */
  has(key) { return this.bytes[key] === 1; }

  /** @type {(key: number) => void} */
  add(key) { this.bytes[key] = 1; }

  /** @type {(key: number) => void} */
  delete(key) { this.bytes[key] = 0; }

  /** Returns the cells in order of y and then x. @returns {number[]} */
  keys() {
    const found = [];
    for (let key = this.bytes.indexOf(1); key >= 0; key = this.bytes.indexOf(1, key + 1)) found.push(key);
    return found;
  }

  [Symbol.iterator]() { return this.keys()[Symbol.iterator](); }
}

// The number of the pass in which each block was last looked at.
let lastPassOfBlock = new Int32Array(0), pass = 0;

/**
 * Applies the block rule to the block at `a`. One ball crosses the block; two on a diagonal go to the other diagonal;
 * everything else stays (Margolus 1984, block rule).
 */
function applyBlockRule(bytes, row, a, changed) {
  const b = a + 1, c = a + row, d = c + 1, one = bytes[a] + bytes[d], other = bytes[b] + bytes[c], both = one + other;
  if (both !== 1 && (both !== 2 || one === 1)) return;
  if (both === 2 || one === 1) {
    bytes[a] ^= 1;
    bytes[d] ^= 1;
    changed.push(a, d);
  }
  if (both === 2 || other === 1) {
    bytes[b] ^= 1;
    bytes[c] ^= 1;
    changed.push(b, c);
  }
}

/**
 * Applies the block rule to the blocks of some cells, and returns the cells that changed.
 * @param {CellSet} live
 * @param {number[][]} lists
 * @param {number} odd
 * @returns {number[]}
 */
function applyBlockRules(live, lists, odd) {
  const changed = [], { bytes, numbering } = live, { row } = numbering;
  if (lastPassOfBlock.length < bytes.length) lastPassOfBlock = new Int32Array(bytes.length);
  pass = pass === 0x7fffffff ? (lastPassOfBlock.fill(0), 1) : pass + 1;
  for (const cells of lists) {
    for (let index = 0; index < cells.length; index += 1) {
      const block = numbering.blockOf(cells[index], odd);
      if (lastPassOfBlock[block] === pass) continue;
      lastPassOfBlock[block] = pass;
      applyBlockRule(bytes, row, block, changed);
    }
  }
  return changed;
}

/**
 * Returns the cells that are live at the start.
 * @param {Layout} layout
 * @param {(name: string) => boolean} isOn whether a wire is true
 * @param {CellNumbering} numbering
 * @returns {number[]}
 */
function startKeys(layout, isOn, numbering) {
  const keys = [];
  for (const [x, y, w, h] of layout.mirrors) {
    for (let v = y; v < y + h; v += 1) for (let u = x; u < x + w; u += 1) keys.push(numbering.keyOf(u, v));
  }
  for (const [x, y] of layout.balls) keys.push(numbering.keyOf(x, y));
  for (const port of layout.ins) if (isOn(port.name)) keys.push(numbering.keyOf(...port.cell));
  return keys;
}

// The cells of the mirrors of layouts, and those that cannot stay as they are by themselves. Runs of one layout share
// them, and do not change them.
const mirrorCellsByLayout = new WeakMap();

/**
 * Returns the cells of a layout's mirrors, and the cells of the blocks in which mirrors alone change.
 * @returns {{cells: CellSet, restless: number[]}}
 */
function mirrorAndRestlessCells(layout) {
  if (!mirrorCellsByLayout.has(layout)) {
    const numbering = new CellNumbering(layout);
    const keys = startKeys({ mirrors: layout.mirrors, balls: [], ins: [] }, () => false, numbering);
    const cells = new CellSet(keys, numbering);
    const copy = cells.copy(), restless = [0, 1].flatMap((odd) => {
      const found = applyBlockRules(copy, [keys], odd);
      for (const key of found) copy.bytes[key] ^= 1;
      return found;
    });
    mirrorCellsByLayout.set(layout, { cells, restless });
  }
  return mirrorCellsByLayout.get(layout);
}

/** Returns the cells that differ in two sets of one numbering. */
function differingCells(one, other) {
  const found = [], { buffer } = one.bytes, words = buffer.byteLength >> 2, left = new Uint32Array(buffer, 0, words);
  const right = new Uint32Array(other.bytes.buffer, 0, words);
  for (let word = 0; word < words; word += 1) {
    if (left[word] === right[word]) continue;
    for (let key = word << 2; key < (word + 1) << 2; key += 1) if (one.bytes[key] !== other.bytes[key]) found.push(key);
  }
  return found;
}

// How many changes a run notes between two looks at what differs from the mirrors. Above it a look compares all cells.
const MAX_PENDING_CHANGES = 100000;

/** Returns how many steps lie between two snapshots. */
const snapshotSpacing = (steps) => Math.max(64, Math.ceil(steps / 64));

/** A run of a whole layout. The rule undoes itself on each block, so steps go back as well as forward. */
class WholeRun {
  layout;
  numbering;
  mirrors;
  restless;
  live;
  time;
  direction;
  every;
  snapshots;
  leftAt;
  moves;
  recent;
  differ;
  pending;
  pendingCount;

  /** @param {Layout} layout @param {Set<string>} on the inputs that are true */
  constructor(layout, on) {
    const { cells, restless } = mirrorAndRestlessCells(layout);
    const keys = startKeys({ ...layout, mirrors: [] }, (name) => on.has(name), cells.numbering);
    this.layout = layout;
    this.numbering = cells.numbering;
    this.mirrors = cells;
    this.restless = restless;
    this.live = cells.copy();
    for (const key of keys) this.live.add(key);
    this.time = 0;
    this.direction = 1;
    this.every = snapshotSpacing(layout.steps);
    // Snapshots are the cells that differ from the mirrors.
    this.snapshots = new Map([[0, Int32Array.from(new Set(keys.filter((key) => !cells.has(key))))]]);
    this.setCellsUnlikeMirrors(this.snapshots.get(0));
    this.leftAt = null;
    // The moves of some steps, which `lastMoves` notes.
    this.moves = new Map();
  }

  /** Returns a run that goes its own way from here. The snapshots are shared. @returns {WholeRun} */
  copy() {
    return Object.assign(Object.create(WholeRun.prototype), this,
      { live: this.live.copy(), recent: [...this.recent], differ: null, pending: null });
  }

  /**
   * Takes the cells that differ from the mirrors now, without the steps before: balls, and cells of mirrors that fell
   * apart, are among them.
   */
  setCellsUnlikeMirrors(keys) {
    const first = [...keys, ...this.restless];
    this.recent = [first, first];
    this.differ = new Set(keys);
    this.pending = [];
    this.pendingCount = 0;
  }

  /**
   * Returns the cells that differ from the mirrors: live ones that are no mirror's, and dead ones of mirrors.
   * @returns {Set<number>}
   */
  cellsUnlikeMirrors() {
    if (this.pending === null) this.differ = new Set(differingCells(this.live, this.mirrors));
    else for (const changed of this.pending) for (const key of changed)
      if (!this.differ.delete(key)) this.differ.add(key);
    this.pending = [];
    this.pendingCount = 0;
    return this.differ;
  }

  /** Whether a cell lies in the rectangle. */
  isInside(key) {
    const x = this.numbering.xOf(key), y = this.numbering.yOf(key);
    return x >= 0 && y >= 0 && x < this.layout.width && y < this.layout.height;
  }

  /** Makes one step in a direction. Only blocks in which one of the last two steps changed a cell can change. */
  takeStep(odd, direction) {
    if (this.direction !== direction) this.recent = [this.recent[1], this.recent[0]];
    this.direction = direction;
    const changed = applyBlockRules(this.live, this.recent, odd);
    this.recent = [this.recent[1], changed];
    if (this.pending === null) return;
    this.pending.push(changed);
    this.pendingCount += changed.length;
    if (this.pendingCount > MAX_PENDING_CHANGES) {
      this.pending = null;
      this.differ = null;
    }
  }

  /** Makes the next step, and returns whether there is one and it stays in the rectangle. */
  stepForward() {
    if (this.time === this.layout.steps || this.leftAt === this.time + 1) return false;
    this.takeStep(this.time % 2, 1);
    this.time += 1;
    for (const key of this.recent[1]) {
      if (this.live.has(key) && !this.isInside(key)) {
        this.leftAt = this.time;
        this.stepBackward();
        return false;
      }
    }
    if (this.time % this.every === 0 && !this.snapshots.has(this.time)) this.snapshots.set(this.time,
        Int32Array.from(this.cellsUnlikeMirrors()));
    return true;
  }

  /** Undoes the last step, and returns whether there was one. */
  stepBackward() {
    if (this.time === 0) return false;
    this.takeStep((this.time - 1) % 2, -1);
    this.time -= 1;
    return true;
  }

  /** Takes the snapshot that is nearest to a time, if it is nearer than the present state. */
  jumpToSnapshot(time) {
    const near = [...this.snapshots.keys()].reduce(
      (best, at) => (Math.abs(at - time) < Math.abs(best - time) ? at : best), this.time);
    if (near === this.time) return;
    const now = this.cellsUnlikeMirrors(), then = new Set(this.snapshots.get(near));
    for (const key of now) if (!then.has(key)) this.live.bytes[key] ^= 1;
    for (const key of then) if (!now.has(key)) this.live.bytes[key] ^= 1;
    this.time = near;
    this.setCellsUnlikeMirrors(then);
  }

  /** Goes to a time, or to the last time before a ball leaves the rectangle. */
  seek(time) {
    this.jumpToSnapshot(time);
    while (this.time < time && this.stepForward());
    while (this.time > time && this.stepBackward());
  }
}

/**
 * Returns the moves of a step, as cells from, to, from, to… A collision goes by the sides of its block.
 * @param {number[]} changed the cells that the step changed, by the diagonals of their blocks
 * @param {CellSet} before the cells that were live before it
 */
function movesOfChanges(changed, before) {
  const moves = [];
  for (let index = 0; index < changed.length; index += 2) {
    const one = changed[index], two = changed[index + 1], isOne = before.has(one);
    if (isOne !== before.has(two)) {
      moves.push(isOne ? one : two, isOne ? two : one);
      continue;
    }
    // Both cells of this diagonal changed, and those of the other one come next.
    const across = [changed[index + 2], changed[index + 3]];
    moves.push(...(isOne ? [one, across[0], two, across[1]] : [across[0], one, across[1], two]));
    index += 2;
  }
  return moves;
}

/**
 * Notes the moves of steps before the present, down to the lowest one of the last `length` steps that is not noted yet.
 * If it is older than those that are, the run goes backwards, and as many steps again are noted for the times to come.
 */
function noteMoves(run, length) {
  const { moves, time } = run;
  const missing = [...Array(Math.min(length, time)).keys()].map((age) => time - 1 - age)
  .filter((step) => !moves.has(step));
  if (missing.length === 0) return;
  const until = moves.has(time - 1) ? Math.max(0, missing.at(-1) - length) : missing.at(-1), past = run.copy();
  while (past.time > until && past.stepBackward()) if (!moves.has(past.time)) moves.set(past.time,
      movesOfChanges(past.recent[1], past.live));
  for (const step of moves.keys()) if (Math.abs(step - time) > 3 * length) moves.delete(step);
}

/**
 * Returns the moves of the step that a run has just made forwards: the cells were live before it if they are not now.
 */
function movesOfLastStep(run) {
  const { live, recent } = run;
  return movesOfChanges(recent[1], { has: (key) => !live.has(key) });
}

/**
 * Returns the moves of the last steps up to the present, the latest step first.
 * @type {(run: WholeRun, length: number) => number[][]}
 */
function lastMoves(run, length) {
  noteMoves(run, length);
  return [...Array(Math.min(length, run.time)).keys()].map((age) => run.moves.get(run.time - 1 - age));
}

/** The rows of the gates: the outputs for some inputs, or null where a gate has none (docs/FORMATS.md). */
const GATE_ROWS = {
  fredkin: ([c, x, y]) => (c ? [c, x, y] : [c, y, x]),
  cswap: ([c, x, y]) => (c ? [c, y, x] : [c, x, y]),
  interact: ([p, q]) => [p && q, !p && q, p && !q, p && q],
  switch: ([c, x]) => [c, c && x, !c && x],
  delay: ([a]) => [a],
  unswitch: ([c, y, z]) => ((c ? z : y) ? null : [c, y || z]),
  uninteract: ([a, b, c, d]) =>
    ({ 0: [false, false], 4: [false, true], 2: [true, false], 9: [true, true] })[a * 8 + b * 4 + c * 2 + d * 1] || null,
};

/**
 * Adds the values that gates give. Behind a gate without a row there are none.
 * @param {Circuit} circuit
 * @param {Iterable<number>} numbers
 * @param {Map<string, boolean>} values
 */
function addGateValues(circuit, numbers, values) {
  for (const number of numbers) {
    const gate = circuit.gates[number];
    const row = gate.gate === "source" ? [gate.parameter === 1]
      : GATE_ROWS[gate.gate](gate.ins.map((name) => Boolean(values.get(name))));
    if (row === null) return values;
    gate.outs.forEach((name, index) => values.set(name, Boolean(row[index])));
  }
  return values;
}

/**
 * Returns the value of each wire where just the inputs `on` are true.
 * @type {(circuit: Circuit, on: Set<string>) => Map<string, boolean>}
 */
const circuitValues = (circuit, on) =>
  addGateValues(circuit, circuit.gates.keys(), new Map(circuit.inputs.map((name) => [name, on.has(name)])));

/**
 * Returns the lines that a module hears: its halo lines, in version 2 the edge lines of others for the cells around its
 * box.
 */
function heardLines(data, number) {
  const modules = data.certificate.modules, [x, y, w, h] = modules[number].box;
  if (data.certificate.version === 1) return modules[number].halos;
  const isNear = (u, v) => u >= x - 1 && v >= y - 1 && u <= x + w && v <= y + h;
  return modules.flatMap((module, other) => (other === number ? [] : module.edges.filter(([, u, v]) => isNear(u, v))));
}

/** The run of a module by itself under one assignment of its cuts: bit i is the value of cut i. */
class ModuleRun {
  data;
  module;
  number;
  assignment;
  numbering;
  values;
  every;
  always;
  timed;
  live;
  time;
  recent;
  snapshots;

  /** @param {Data} data @param {number} number @param {number} assignment */
  constructor(data, number, assignment) {
    const module = data.certificate.modules[number];
    this.data = data;
    this.module = module;
    this.number = number;
    this.assignment = assignment;
    this.numbering = new CellNumbering(data.layout);
    this.values = addGateValues(data.circuit, module.uses,
      new Map(module.cuts.map((name, index) => [name, Boolean(assignment >> index & 1)])));
    this.values.set("1", true);
    this.every = snapshotSpacing(data.layout.steps);
    this.always = [];
    this.timed = new Map();
    for (const line of heardLines(data, number)) if (this.values.get(line[3])) this.addHeardLine(line);
    const keys = startKeys(data.layout, (name) => Boolean(this.values.get(name)), this.numbering);
    this.live = new CellSet(keys.filter((key) => this.isInside(key)), this.numbering);
    this.time = 0;
    this.recent = null;
    this.snapshots = new Map([[0, Int32Array.from(this.live.keys())]]);
  }

  /** Files a line whose signal is true. */
  addHeardLine([time, x, y]) {
    if (time !== null && !this.timed.has(time)) this.timed.set(time, []);
    (time === null ? this.always : this.timed.get(time)).push(this.numbering.keyOf(x, y));
  }

  /** Whether a cell lies in the box. */
  isInside(key) {
    const [x, y, w, h] = this.module.box, u = this.numbering.xOf(key), v = this.numbering.yOf(key);
    return u >= x && v >= y && u < x + w && v < y + h;
  }

  /** Returns the cells around the box that the module is told to be live now. */
  heardCellsNow() {
    if (this.time % 2 === 0 || this.time >= this.data.layout.steps) return [];
    return [...this.always, ...(this.timed.get(this.time) || [])];
  }

  /** Makes the next step: an even one in the box, an odd one with what is heard; then only the box is kept. */
  stepForward() {
    const heard = this.heardCellsNow();
    for (const key of heard) this.live.add(key);
    const lists = this.recent === null ? [this.live.keys()] : [...this.recent, heard];
    const changed = applyBlockRules(this.live, lists, this.time % 2);
    for (const key of [...heard, ...changed]) {
      if (this.isInside(key)) continue;
      this.live.delete(key);
      // What is cut off or heard counts as changed, since it is so for the blocks at the border.
      changed.push(key);
    }
    this.recent = [this.recent === null ? this.live.keys() : this.recent[1], changed];
    this.time += 1;
    if (this.time % this.every === 0 && !this.snapshots.has(this.time)) this.snapshots.set(this.time,
        Int32Array.from(this.live.keys()));
  }

  /** Goes to a time, from the last snapshot before it if that is nearer than the present state. */
  seek(time) {
    const start = Math.max(...[...this.snapshots.keys()].filter((at) => at <= time));
    if (time < this.time || start > this.time) {
      this.live = new CellSet(this.snapshots.get(start), this.numbering);
      this.time = start;
      this.recent = null;
    }
    while (this.time < time) this.stepForward();
  }
}

export { CellNumbering, CellSet, WholeRun, ModuleRun, circuitValues, startKeys, mirrorAndRestlessCells, lastMoves,
  movesOfLastStep };
