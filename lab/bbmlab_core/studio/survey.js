/**
 * Runs a layout under up to 32 choices of its inputs at once: bit i of a cell is its state under choice i. It notes the
 * ways of the balls, where they meet, and what is live at the end. It needs no page.
 *
 * @typedef {Set<string>} Choice the inputs that are true
 */
import { CellNumbering, circuitValues } from "../view/automaton.js";
import * as geometry from "./geometry.js";

const LANE_COUNT = 32;
// Colours: 1 to 250 are wires, and these two are a constant and what is no wire of the circuit.
const CONSTANT_COLOUR = 251, OTHER_COLOUR = 252, MAX_WIRES = 250;

/** Returns all choices of some inputs: bit i of the number of a choice is input i. */
const allChoices = (inputs) =>
  [...Array(2 ** inputs.length).keys()].map((number) => new Set(inputs.filter((_, index) => number >> index & 1)));

/**
 * Returns 32 choices of many inputs: none, all, each of the first alone, and others by a fixed sequence of random
 * numbers.
 */
function sampledChoices(inputs) {
  const choices = [new Set(), new Set(inputs), ...inputs.slice(0, 14).map((name) => new Set([name]))];
  let state = 20201;
  const draw = () => {
    state = state * 1103515245 + 12345 & 0x7fffffff;
    return state >> 16 & 1;
  };
  while (choices.length < LANE_COUNT) choices.push(new Set(inputs.filter(draw)));
  return choices;
}

/**
 * Returns the values of the circuit's wires in some choices, a bit for each choice; without a circuit, of the inputs.
 */
function wireTables(circuit, inputs, choices) {
  const tables = new Map();
  choices.forEach((on, lane) => {
    const values = circuit ? circuitValues(circuit, on) : new Map(inputs.map((name) => [name, on.has(name)]));
    for (const [name, value] of values) tables.set(name, (tables.get(name) || 0) | (value ? 1 << lane : 0));
  });
  return tables;
}

class ManyChoicesRun {
  layout;
  circuit;
  choices;
  inputs;
  time = 0;
  leftAt = null;
  leftLanes = 0;
  isEnded;
  full;
  tables;
  colours;
  numbering;
  noted;
  down;
  up;
  blocks = [];
  sides = [];
  marks = [];
  live;
  passes;
  isMirror;
  now;
  next;
  nowCount;
  nextCount;
  changedAt;
  first;

  /** @param {Layout} layout @param {?Circuit} circuit @param {Choice[]} choices at most 32 */
  constructor(layout, circuit, choices) {
    const inputs = circuit ? circuit.inputs : [...new Set(layout.ins.map(({ name }) => name))];
    this.layout = layout;
    this.circuit = circuit;
    this.choices = choices;
    this.inputs = inputs;
    this.isEnded = layout.steps === 0;
    this.full = choices.length === LANE_COUNT ? -1 : (1 << choices.length) - 1;
    this.tables = wireTables(circuit, inputs, choices);
    this.colours = new Map();
    [...this.tables].slice(0, MAX_WIRES).forEach(([, table], index) => { if (table && !this.colours.has(table))
      this.colours.set(table, index + 1); });
    // Which ways of each block are noted, with the colours of those on its two diagonals; the ways by its sides; marks
    // x, y, kind.
    this.numbering = new CellNumbering(layout);
    const { count } = this.numbering;
    this.noted = new Uint8Array(count);
    this.down = new Uint8Array(count);
    this.up = new Uint8Array(count);
    this.live = new Int32Array(count);
    this.passes = new Int32Array(count);
    // 1 is a cell of a mirror, and 2 one that changed.
    this.isMirror = new Uint8Array(count);
    this.setStartState();
  }

  /** Makes the cells live that are live at the start. */
  setStartState() {
    const { layout, live, full, numbering } = this, { row } = numbering, first = [];
    for (const [x, y, w, h] of layout.mirrors) {
      for (let v = y; v < y + h; v += 1) for (let u = x; u < x + w; u += 1) first.push(numbering.keyOf(u, v));
    }
    // Bit 6 of the note of a block: it contains a cell of a mirror.
    for (const key of first) {
      this.isMirror[key] = 1;
      live[key] = full;
      for (const before of [0, 1, row, row + 1]) this.noted[key - before] |= 64;
    }
    for (const cell of layout.balls) {
      live[numbering.keyOf(...cell)] = full;
      first.push(numbering.keyOf(...cell));
    }
    for (const { name, cell } of layout.ins) {
      live[numbering.keyOf(...cell)] |= this.tables.get(name) || 0;
      first.push(numbering.keyOf(...cell));
    }
    // The cells that the next step looks at, and those that it leaves for the step after it; and at which step a cell
    // changed last.
    const most = first.length + (layout.width + 4) * (layout.height + 4);
    this.now = new Int32Array(most);
    this.next = new Int32Array(most);
    this.nowCount = first.length;
    this.nextCount = 0;
    this.changedAt = 0;
    this.now.set(first);
    this.first = first;
  }

  /** Makes steps for some milliseconds, and returns whether the run is at its end. */
  runForMilliseconds(milliseconds) {
    const until = performance.now() + milliseconds, { steps } = this.layout;
    for (let count = 1; !this.isEnded && (count % 8 || performance.now() < until); count += 1) {
      this.step();
      this.isEnded = this.time === steps || this.time > this.changedAt + 1;
    }
    return this.isEnded;
  }

  /**
   * Makes a step of the blocks in which something may change: those with a cell that the last step changed, or with a
   * ball that it left where it is. At the start these are all blocks, and so they are for the second step.
   */
  step() {
    const odd = this.time & 1, pass = this.time + 1, { passes, now, nowCount, numbering } = this;
    this.nextCount = 0;
    for (let index = 0; index < nowCount; index += 1) {
      const block = numbering.blockOf(now[index], odd);
      if (passes[block] === pass) continue;
      passes[block] = pass;
      this.applyBlockRule(block);
    }
    if (this.time === 0) {
      this.next.set(this.first, this.nextCount);
      this.nextCount += this.first.length;
    }
    this.time += 1;
    this.now = this.next;
    this.nowCount = this.nextCount;
    this.next = now;
    if (this.time <= this.layout.steps) this.removeCellsOutside();
  }

  /**
   * Applies the block rule to a block in all choices at once: one ball crosses the block; two on a diagonal go to the
   * other diagonal; everything else stays (Margolus 1984, block rule).
   */
  applyBlockRule(a) {
    const { live, next } = this, b = a + 1, c = a + this.numbering.row, d = c + 1;
    const la = live[a], lb = live[b], lc = live[c], ld = live[d], any = la | lb | lc | ld;
    if (any === 0) return;
    const one = (la ^ ld) & ~lb & ~lc, other = (lb ^ lc) & ~la & ~ld, both = la & ld & ~lb & ~lc | lb & lc & ~la & ~ld;
    const note = this.noted[a];
    const diagonal = one | both, across = other | both;
    let count = this.nextCount;
    if (diagonal !== 0) {
      live[a] = la ^ diagonal;
      live[d] = ld ^ diagonal;
      next[count] = a;
      next[count + 1] = d;
      count += 2;
    }
    else if ((la | ld) !== 0) count = this.keepForNextStep(a, d, count);
    if (across !== 0) {
      live[b] = lb ^ across;
      live[c] = lc ^ across;
      next[count] = b;
      next[count + 1] = c;
      count += 2;
    }
    else if ((lb | lc) !== 0) count = this.keepForNextStep(b, c, count);
    this.nextCount = count;
    if ((diagonal | across) === 0) {
      if ((note & 72) === 64) this.noteBounce(a, any);
      return;
    }
    this.changedAt = this.time + 1;
    if ((one !== 0 && (note & 1) === 0) || (other !== 0 && (note & 2) === 0)
        || (both !== 0 && (note & 4) === 0)) this.noteBlockWays(a, one, other, both);
    if ((note & 64) === 0) return;
    if (diagonal !== 0) this.noteChangedMirrorCells(a, d);
    if (across !== 0) this.noteChangedMirrorCells(b, c);
    this.noteBrokenMirror(a);
    this.noteBounce(a, any & ~(one | other | both));
  }

  /** Notes which of two cells that changed are of mirrors. */
  noteChangedMirrorCells(one, two) {
    const { isMirror } = this;
    if (isMirror[one] === 1) isMirror[one] = 2;
    if (isMirror[two] === 1) isMirror[two] = 2;
  }

  /**
   * Leaves those of two cells that did not change to the next step that are live, and no mirror or no longer one.
   * Returns how many cells it has.
   */
  keepForNextStep(one, two, count) {
    const { live, isMirror, next } = this;
    if (live[one] !== 0 && isMirror[one] !== 1) {
      next[count] = one;
      count += 1;
    }
    if (live[two] !== 0 && isMirror[two] !== 1) {
      next[count] = two;
      count += 1;
    }
    return count;
  }

  /**
   * Notes the ways through a block, each once: bit 0 of the note is the one diagonal, bit 1 the other, bit 2 a
   * collision.
   */
  noteBlockWays(a, one, other, both) {
    const { noted } = this, bits = noted[a];
    if ((bits & 7) === 0) this.blocks.push(a);
    if (one && !(bits & 1)) this.down[a] = this.colourOf(one);
    if (other && !(bits & 2)) this.up[a] = this.colourOf(other);
    if (both && !(bits & 4)) {
      this.sides.push(a, this.colourOf(both));
      this.marks.push(...this.numbering.cellOf(a), "meet");
    }
    noted[a] = bits | (one ? 1 : 0) | (other ? 2 : 0) | (both ? 4 : 0);
  }

  /** Notes that a step changed a cell of a mirror. */
  noteBrokenMirror(a) {
    if (this.noted[a] & 16) return;
    const { row } = this.numbering;
    const isHit = [a, a + 1, a + row, a + row + 1].some((key) => this.isMirror[key] && this.live[key] !== this.full);
    if (!isHit) return;
    this.noted[a] |= 16;
    this.marks.push(...this.numbering.cellOf(a), "broken");
  }

  /**
   * Notes that a ball is in a block with a mirror that does not let it pass. `bits` are the choices in which something
   * in the block is live.
   */
  noteBounce(a, bits) {
    const { isMirror, live, noted } = this;
    if (noted[a] & 8 || bits === 0) return;
    const { row } = this.numbering, cells = [a, a + 1, a + row, a + row + 1];
    const mirrors = cells.filter((key) => isMirror[key]).length;
    if (mirrors === 0 || mirrors === 4 || !cells.some((key) => !isMirror[key] && live[key])) return;
    noted[a] |= 8;
    this.marks.push(...this.numbering.cellOf(a), "bounce");
  }

  /** Takes away what left the rectangle, and notes the first time. */
  removeCellsOutside() {
    const { width, height } = this.layout, { live, now, nowCount, numbering } = this;
    for (let index = 0; index < nowCount; index += 1) {
      const key = now[index], x = numbering.xOf(key), y = numbering.yOf(key);
      if (x >= 0 && y >= 0 && x < width && y < height || live[key] === 0) continue;
      this.leftLanes |= live[key];
      live[key] = 0;
      if (this.leftAt === null) {
        this.leftAt = this.time;
        this.marks.push(x, y, "left");
      }
    }
  }

  /**
   * Returns the ways as lines: x, y, x, y and a colour for each. The ways of one colour that lie in a row are one line.
   */
  wayLines() {
    const { blocks, sides, down, up, numbering } = this, { row } = numbering, lines = [];
    for (const [colours, on, dx] of [[down, row + 1, 1], [up, row - 1, -1]]) {
      for (const block of blocks) {
        const colour = colours[block];
        if (colour === 0 || colours[block - on] === colour) continue;
        let last = block;
        while (colours[last + on] === colour) last += on;
        const x = numbering.xOf(block) + (dx < 0 ? 1 : 0), y = numbering.yOf(block), far = numbering.yOf(last) - y + 1;
        lines.push(x, y, x + dx * far, y + far, colour);
      }
    }
    for (let index = 0; index < sides.length; index += 2) {
      const x = numbering.xOf(sides[index]), y = numbering.yOf(sides[index]), colour = sides[index + 1];
      lines.push(x, y, x + 1, y, colour, x, y + 1, x + 1, y + 1, colour);
    }
    return lines;
  }

  /**
   * Returns what the page shows of the run, in a form that a worker can send: the names of the wires that have ways, by
   * their colours.
   */
  result() {
    const { live, isMirror, marks, leftAt, tables, inputs, choices } = this, ways = Int16Array.from(this.wayLines());
    const names = [...tables.keys()], wires = new Map();
    for (let index = 4; index < ways.length; index += 5) {
      const colour = ways[index];
      wires.set(colour, colour === CONSTANT_COLOUR ? "1" : colour === OTHER_COLOUR ? null : names[colour - 1]);
    }
    return { ways, marks, live, isMirror, leftAt, tables, wires, inputCount: inputs.length,
      choiceCount: choices.length };
  }

  /** Returns the colour of the wire that has a table, or that of a constant, or that of no wire. */
  colourOf(table) { return table === this.full ? CONSTANT_COLOUR : this.colours.get(table) || OTHER_COLOUR; }
}

/** What the outputs should be and what they are, for all choices of up to eight inputs. */
class TruthTableRun {
  layout;
  circuit;
  choices;
  run = null;
  ends = [];

  /** @param {Layout} layout @param {Circuit} circuit */
  constructor(layout, circuit) {
    // The run of the next choices, and what those before it found: one run takes the memory of a whole layout.
    this.layout = layout;
    this.circuit = circuit;
    this.choices = allChoices(circuit.inputs);
  }

  /** Runs for some milliseconds, and returns whether all choices were run. */
  runForMilliseconds(milliseconds) {
    const until = performance.now() + milliseconds;
    while (this.ends.length * LANE_COUNT < this.choices.length) {
      const first = this.ends.length * LANE_COUNT;
      this.run ||= new ManyChoicesRun(this.layout, this.circuit, this.choices.slice(first, first + LANE_COUNT));
      while (!this.run.isEnded) {
        if (performance.now() >= until) return false;
        this.run.runForMilliseconds(4);
      }
      this.ends.push({ left: this.run.leftLanes,
        states: new Map(this.layout.outs.map((out) => [out, this.run.live[this.run.numbering.keyOf(...out.cell)]])) });
      this.run = null;
    }
    return true;
  }

  /**
   * Returns the rows: the inputs' values, and for each output what is wanted and what was found. `wanted` is null where
   * the circuit has no value. `found` is null where the cells of an output differ, there is none, or a ball leaves.
   */
  rows() {
    const { circuit, layout } = this;
    const cells = new Map(circuit.outputs.map((name) => [name, layout.outs.filter((out) => out.name === name)]));
    // As in textbooks the first input changes last, from row to row. A choice's number has it as the lowest bit.
    const bits = circuit.inputs.length;
    const order = this.choices.map(
    (_, row) => [...Array(bits).keys()].reduce((number, bit) => number | (row >> bit & 1) << bits - 1 - bit, 0));
    return order.map((number) => {
      const on = this.choices[number], { left, states: live } = this.ends[Math.floor(number / LANE_COUNT)];
      const lane = number % LANE_COUNT, values = circuitValues(circuit, on);
      const isLive = (out) => (live.get(out) >>> lane & 1) === 1;
      const outputs = circuit.outputs.map((name) => {
        const states = new Set(cells.get(name).map(isLive));
        // The run of a layout ends where a ball leaves: then nothing is known of the end.
        const isWhole = (left >>> lane & 1) === 0;
        return { name, wanted: values.get(name) ?? null, found: isWhole && states.size === 1 ? [...states][0] : null };
      });
      return { inputs: circuit.inputs.map((name) => on.has(name)), outputs };
    });
  }
}

/** Returns cells as balls: those of two cells first, and then the others. */
function cellsAsBalls(cells, time) {
  const left = new Map(cells.map((cell) => [String(cell), cell])), balls = [];
  for (const cell of cells) {
    const [, tail] = geometry.twoBallCells(cell, time), key = String(tail);
    if (left.has(String(cell)) && left.has(key)) {
      balls.push([cell, tail]);
      left.delete(key);
      left.delete(String(cell));
    }
  }
  return [...balls, ...[...left.values()].map((cell) => [cell])];
}

/**
 * Returns output and waste cells for all cells that balls reach at the end of a survey of all choices: an output where
 * the cell is live if and only if its wire is true, and else waste.
 */
function ballEndParts({ live, isMirror, tables }, outputs, { width, height, steps }) {
  const numbering = new CellNumbering({ width, height }), wires = new Map(), cells = new Map(), parts = [];
  for (const name of outputs) {
    const table = tables.get(name) || 0;
    wires.set(table, [...(wires.get(table) || []), name]);
  }
  for (let y = 0; y < height; y += 1) {
    for (let x = 0; x < width; x += 1) {
      const key = numbering.keyOf(x, y), table = live[key];
      if (table !== 0 && !isMirror[key]) cells.set(table, [...(cells.get(table) || []), [x, y]]);
    }
  }
  for (const [table, found] of cells) {
    const names = wires.get(table) || [null];
    cellsAsBalls(found, steps).forEach((ball, index) => {
      const name = names[Math.min(index, names.length - 1)];
      parts.push(...ball.map((cell) => ({ kind: name ? "out" : "waste", name, box: [...cell, 1, 1], line: -1 })));
    });
  }
  return parts;
}

/**
 * Runs a layout, and returns the ends of its balls as parts, or null if that takes too long, a ball leaves, or not all
 * choices can be run at once.
 */
function runForEndParts(layout, circuit, milliseconds) {
  if (!circuit.isWhole || circuit.inputs.length > 5) return null;
  const run = new ManyChoicesRun(layout, circuit, allChoices(circuit.inputs)), until = performance.now() + milliseconds;
  while (!run.isEnded && performance.now() < until) run.runForMilliseconds(4);
  return run.isEnded && run.leftAt === null ? ballEndParts(run, circuit.outputs, layout) : null;
}

export {
  ManyChoicesRun, TruthTableRun, runForEndParts, allChoices, sampledChoices, ballEndParts, CONSTANT_COLOUR,
  OTHER_COLOUR,
  LANE_COUNT,
};
