/**
 * The ways of the balls by wires: which wire's ball flies at a place and when, and what there is to say of a wire.
 *
 * @typedef {{name: string, equal: string[], level: number, pieces: number[]}} Wire five numbers for each piece: x and y
 * of its first and of its last cell, and the time at the first
 */
import { SquareIndex } from "./tiles.js";

const NUMBERS_PER_PIECE = 5, GROUPS = 8;

/** Returns how a wire is called: that of assignments of no wire has no name. */
const wireTitle = ({ name, equal }) => (name === "" ? "no wire"
  : name === "1" ? "constant" : [name, ...equal].join(", "));

/**
 * Strokes pieces from the middle of their first cell to that of their last one. `size` is how many numbers a piece has.
 */
function strokePieces({ pen, scale, left, top }, pieces, size) {
  if (pieces.length === 0) return;
  pen.beginPath();
  for (let at = 0; at < pieces.length; at += size) {
    pen.moveTo((pieces[at] + 0.5 - left) * scale, (pieces[at + 1] + 0.5 - top) * scale);
    pen.lineTo((pieces[at + 2] + 0.5 - left) * scale, (pieces[at + 3] + 0.5 - top) * scale);
  }
  pen.stroke();
}

class WireWays {
  list;
  sampled;
  circuit;
  filed;
  owners = [];
  starts = [];
  byName;
  span;

  /** @param {?{wires: Wire[], sampled: string}} ways @param {?Circuit} circuit */
  constructor(ways, circuit) {
    this.list = ways ? ways.wires : [];
    this.sampled = ways ? ways.sampled : "";
    this.circuit = circuit;
    this.filed = new SquareIndex();
    for (const wire of this.list) {
      for (let at = 0; at < wire.pieces.length; at += NUMBERS_PER_PIECE) {
        this.filed.addPiece(wire.pieces[at], wire.pieces[at + 1], wire.pieces[at + 2], wire.pieces[at + 3]);
        this.owners.push(wire);
        this.starts.push(at);
      }
    }
    this.byName = new Map(this.list.flatMap((wire) => [wire.name, ...wire.equal].map((name) => [name, wire])));
    const most = Math.max(0, ...this.list.map(({ level }) => level));
    // Levels are shown in at most eight groups.
    this.span = Math.ceil((most + 1) / GROUPS);
  }

  /** Returns the names of the wires that have ways. */
  get names() { return [...this.byName.keys()].filter((name) => name !== "" && name !== "1"); }

  /** Returns the number of the colour of a wire, by its level; 8 for what is no wire's. */
  groupOf({ name, level }) { return name === "" || name === "1" ? GROUPS : Math.floor(level / this.span); }

  /** Calls an action with x, y, x, y, the wire and the time at the first cell of each piece in a range of cells. */
  visitPieces(range, action) {
    this.filed.visitRange(range, (number) => {
      const wire = this.owners[number], at = this.starts[number], { pieces } = wire;
      action(pieces[at], pieces[at + 1], pieces[at + 2], pieces[at + 3], wire, pieces[at + 4]);
    });
  }

  /**
   * Returns the wire whose ball flies nearest to a place, at most some cells away, or null; with the times at which its
   * cells are there.
   * @returns {?{wire: Wire, times: number[]}}
   */
  wireAt(x, y, most) {
    let found = null, least = most;
    this.visitPieces([Math.floor(x - most), Math.floor(y - most), Math.ceil(x + most), Math.ceil(y + most)],
      (x0, y0, x1, y1, wire, time) => {
      const far = Math.max(Math.abs(x1 - x0), Math.abs(y1 - y0)), dx = Math.sign(x1 - x0), dy = Math.sign(y1 - y0);
      const step = Math.max(0, Math.min(far, Math.round(((x - x0) * dx + (y - y0) * dy) / (dx * dx + dy * dy))));
      const away = Math.hypot(x0 + dx * step - x, y0 + dy * step - y);
      // Of two wires that are as near the first one in the list is taken. A ball of two cells comes by twice.
      const isNearer = !found || away < least || away === least
        && this.list.indexOf(wire) < this.list.indexOf(found.wire);
      if (away <= least && found?.wire === wire && away === least) found.times.push(time + step);
      else if (away <= least && isNearer) {
        least = away;
        found = { wire, times: [time + step] };
      }
    });
    found?.times.sort((one, other) => one - other);
    return found;
  }

  /** Returns the box of all pieces of a wire: x, y, width and height. */
  boxOfWire({ pieces }) {
    const box = [Infinity, Infinity, -Infinity, -Infinity];
    for (let at = 0; at < pieces.length; at += NUMBERS_PER_PIECE) {
      box[0] = Math.min(box[0], pieces[at], pieces[at + 2]);
      box[1] = Math.min(box[1], pieces[at + 1], pieces[at + 3]);
      box[2] = Math.max(box[2], pieces[at], pieces[at + 2]);
      box[3] = Math.max(box[3], pieces[at + 1], pieces[at + 3]);
    }
    return [box[0], box[1], box[2] - box[0] + 1, box[3] - box[1] + 1];
  }

  /** Returns the first and the last time at which a ball of a wire flies. */
  firstAndLastTime({ pieces }) {
    let first = Infinity, last = 0;
    for (let at = 0; at < pieces.length; at += NUMBERS_PER_PIECE) {
      first = Math.min(first, pieces[at + 4]);
      last = Math.max(last,
        pieces[at + 4] + Math.max(Math.abs(pieces[at + 2] - pieces[at]), Math.abs(pieces[at + 3] - pieces[at + 1])));
    }
    return [first, last];
  }

  /** Says where a wire comes from and where it goes: "output of switch 3, input of fredkin 7". */
  sourceAndTargetWords({ name, equal }) {
    if (!this.circuit) return "";
    const names = new Set([name, ...equal]), { inputs, gates, outputs } = this.circuit, words = [];
    if (inputs.some((input) => names.has(input))) words.push("an input");
    gates.forEach(({ gate, outs }, number) => { if (outs.some((out) => names.has(out)))
      words.push(`made by ${gate} ${number}`); });
    gates.forEach(({ gate, ins }, number) => { if (ins.some((own) => names.has(own)))
      words.push(`goes to ${gate} ${number}`); });
    if (outputs.some((output) => names.has(output))) words.push("an output");
    return words.join(", ");
  }

  /** Says what is known of a wire: its names, its gates, its level and its times. */
  wireWords(wire) {
    const [first, last] = this.firstAndLastTime(wire);
    const hasGates = wire.name !== "" && wire.name !== "1";
    const makers = hasGates ? `: ${this.sourceAndTargetWords(wire)}, level ${wire.level}` : "";
    return `${wireTitle(wire)}${makers.replace(": , ", ": ")}; flies from time ${first} to ${last}`;
  }

  /** Draws the ways of a range of cells on a place, by groups of levels in some colours. */
  drawWays({ pen, scale, left, top }, range, inks) {
    const found = Array.from({ length: GROUPS + 1 }, () => []);
    this.visitPieces(range, (x, y, u, v, wire) => found[this.groupOf(wire)].push(x, y, u, v));
    pen.lineWidth = Math.max(1, 0.22 * scale);
    pen.globalAlpha = 0.7;
    // What is no wire's lies below.
    for (const group of [GROUPS, ...inks.keys()].slice(0, GROUPS + 1)) {
      pen.strokeStyle = inks[group];
      strokePieces({ pen, scale, left, top }, found[group], 4);
    }
    pen.globalAlpha = 1;
  }

  /** Draws all ways of a wire, so that they stand out. */
  drawWireInFront({ pen, scale, left, top, inks }, wire) {
    for (const [ink, width] of [[inks.plane, 6], [inks.ink, 3]]) {
      pen.strokeStyle = ink;
      pen.lineWidth = Math.max(width, width / 10 * scale);
      strokePieces({ pen, scale, left, top }, wire.pieces, NUMBERS_PER_PIECE);
    }
  }
}

export { WireWays, wireTitle };
