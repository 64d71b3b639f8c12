/**
 * The editing model: a text and its layout, and commands that can be undone without limit. It needs no page.
 *
 * The model keeps the lines of the text as they are, so text, model, text gives the same bytes for every text. A
 * command replaces some lines by others; to undo it puts the old lines back.
 */
import * as limits from "../view/limits.js";
import * as circuitText from "./circuit_text.js";
import * as geometry from "./geometry.js";

const { lineWords, withoutByteOrderMark } = circuitText;
const PART_KINDS = ["mirror", "ball", "in", "out", "waste"];
const NUMBER_COUNT_BY_KIND = { mirror: 4, ball: 2, in: 2, out: 2, waste: 2 };
const NAME_PATTERN = /^[a-z][a-z0-9_]{0,31}$/, NUMBER = /^(0|[1-9][0-9]{0,8})$/;
const LINE_PATTERN = /^(\ufeff?[ \t]*)([^#]*?)([ \t\r]*(?:#.*)?)$/s;

/** A command that cannot be done. The message is for the user. */
class ModelRefusal extends Error {}

/** Does a command. Returns why the model refused it, or null if it was done. */
function refusalAfterTrying(command) {
  try {
    command();
    return null;
  } catch (error) {
    if (!(error instanceof ModelRefusal)) throw error;
    return error.message;
  }
}

/** Returns the first word of a line, without a comment. */
const firstWord = (line) => lineWords(line)[0] ?? "";

// The parts of the lines that were read, since an edit changes few of many lines.
const partsByText = new Map(), MAX_KNOWN = 200000;

/** Returns the part that a line names, or null. A line that was read before is not read again. */
function partOfLine(text, line) {
  let part = partsByText.get(text);
  if (part === undefined) {
    if (partsByText.size >= MAX_KNOWN) partsByText.clear();
    part = parsePart(text);
    partsByText.set(text, part);
  }
  return part && { ...part, line };
}

/** Returns the part that a line names, without its place, or null. */
function parsePart(text) {
  const words = lineWords(text), kind = words[0], hasName = kind === "in" || kind === "out";
  if (!PART_KINDS.includes(kind) || words.length !== 1 + NUMBER_COUNT_BY_KIND[kind] + Number(hasName)) return null;
  const numbers = words.slice(hasName ? 2 : 1);
  if (!numbers.every((word) => NUMBER.test(word)) || hasName && !NAME_PATTERN.test(words[1])) return null;
  const [x, y, w = 1, h = 1] = numbers.map(Number);
  return w < 1 || h < 1 ? null : { kind, name: hasName ? words[1] : null, box: [x, y, w, h], line: -1 };
}

/** Returns the line of a part. */
function partLine({ kind, name, box }) {
  return [kind, ...(name === null || name === undefined ? [] : [name]),
    ...(kind === "mirror" ? box : box.slice(0, 2))].join(" ");
}

/** Returns a line with other words; its indentation and comment stay. */
function lineWithOtherWords(text, words) {
  const [, before, , after] = LINE_PATTERN.exec(text);
  return before + words + after;
}

/** Returns the splice that makes one list of lines of another. */
function spliceBetween(old, fresh) {
  const most = Math.min(old.length, fresh.length);
  let first = 0, last = 0;
  while (first < most && old[first] === fresh[first]) first += 1;
  while (last < most - first && old[old.length - 1 - last] === fresh[fresh.length - 1 - last]) last += 1;
  return { at: first, removed: old.slice(first, old.length - last), added: fresh.slice(first, fresh.length - last) };
}

/** Returns how a part is called in messages. */
const partTitle = ({ kind, name, box }) => `${kind}${name ? ` ${name}` : ""} at (${box[0]}, ${box[1]})`;

/** Files a part under each of its rows. */
function indexPartByRows(rows, part) {
  const [, y, , h] = part.box;
  for (let v = y; v < y + h; v += 1) {
    if (!rows.has(v)) rows.set(v, []);
    rows.get(v).push(part);
  }
}

/**
 * Whether two kinds take cells at one time: at the start mirrors, balls and inputs, at the end mirrors, outputs and
 * waste.
 */
const areRivalKinds = (one, other) => one === "mirror" || other === "mirror"
  || (one === "out" || one === "waste") === (other === "out" || other === "waste");

/** Returns a filed part that takes a cell of a part, or null. */
function conflictingPart({ kind, box: [x, y, w, h] }, rows, gone) {
  for (let v = y; v < y + h; v += 1) {
    for (const other of rows.get(v) || []) {
      if (x < other.box[0] + other.box[2] && other.box[0] < x + w && areRivalKinds(kind, other.kind)
          && !gone.has(other.line)) return other;
    }
  }
  return null;
}

/** Returns the first cell that two parts share. */
const sharedCell = ({ box: [x, y] }, { box: [u, v] }) => [Math.max(x, u), Math.max(y, v)];

class LayoutModel {
  lines;
  past = [];
  future = [];
  listeners = [];
  shift = null;
  joinedLines;
  joined;
  start;
  end;
  after;
  limits;
  parts;
  filed;
  header;
  layout;
  readHead;
  circuit;

  /** @param {string} text */
  constructor(text) {
    this.lines = text.split("\n");
    this.parseLines();
  }

  /** The text, which is made once for each list of lines. */
  get text() {
    if (this.joinedLines !== this.lines) {
      this.joinedLines = this.lines;
      this.joined = this.lines.join("\n");
    }
    return this.joined;
  }

  /** Calls an action after each change. */
  listen(action) { this.listeners.push(action); }

  /**
   * Reads the lines: where the layout begins and ends, its header and its parts, and the circuit. Each time these are
   * new objects.
   */
  parseLines() {
    const start = this.lines.findIndex((line, index) =>
      line.includes("layout") && firstWord(index ? line : withoutByteOrderMark(line)) === "layout");
    const end = start < 0 ? -1
      : this.lines.findIndex((line, index) => index > start && /end|certificate/.test(line)
      && ["end", "certificate"].includes(firstWord(line)));
    const isClosed = end >= 0 && firstWord(this.lines[end]) === "end";
    this.start = start;
    // The line behind the parts, and the first line that is no longer of the layout.
    this.end = start < 0 ? this.lines.length : end < 0 ? this.lines.length - Number(this.lines.at(-1) === "") : end;
    this.after = this.end + Number(isClosed);
    // The first lines of a long text are those of its circuit, so the first line with words is near.
    this.limits = limits.limitsByFirstLine(
      lineWords(withoutByteOrderMark(this.lines.find((line) => lineWords(withoutByteOrderMark(line)).length > 0)
      || "")));
    this.parts = [];
    this.filed = null;
    for (let line = start + 1; start >= 0 && line < this.end; line += 1) {
      const part = partOfLine(this.lines[line], line);
      if (part) this.parts.push(part);
    }
    this.header = this.readHeader();
    this.layout = this.header && this.makeLayout();
    const head = this.headText;
    if (head !== this.readHead) {
      this.readHead = head;
      this.circuit = circuitText.readCircuit(head);
    }
  }

  /** Returns the size and the steps of the layout, or null if they are no numbers within the limits. */
  readHeader() {
    const words = this.start < 0 ? []
      : lineWords(this.start ? this.lines[this.start] : withoutByteOrderMark(this.lines[0]));
    if (words.length !== 4 || !words.slice(1).every((word) => NUMBER.test(word))) return null;
    const [width, height, steps] = words.slice(1).map(Number);
    const isSide = (side) => side % 2 === 0 && side >= 2 && side <= this.limits.maxSide;
    return isSide(width) && isSide(height) && steps <= this.limits.maxSteps ? { width, height, steps } : null;
  }

  /** Returns the layout for the engine, with the parts that lie in the rectangle. */
  makeLayout() {
    const { width, height } = this.header;
    const inside = this.parts.filter(({ box: [x, y, w, h] }) => x + w <= width && y + h <= height);
    const cells = (kind) => inside.filter((part) => part.kind === kind).map(({ box }) => [box[0], box[1]]);
    const ports = (kind) =>
      inside.filter((part) => part.kind === kind).map(({ name, box }) => ({ name, cell: [box[0], box[1]] }));
    return { ...this.header, mirrors: inside.filter(({ kind }) => kind === "mirror").map(({ box }) => box),
      balls: cells("ball"),
      ins: ports("in"), outs: ports("out"), wastes: cells("waste") };
  }

  /**
   * The text of the circuit and the layout as they are drawn, in the one spelling. A verdict is of this picture only if
   * the program read this text. Null if the circuit cannot be read.
   */
  get drawnText() {
    const { layout, circuit } = this;
    if (layout === null || !circuit.isWhole) return null;
    const parts = [...layout.mirrors.map((box) => ["mirror", ...box]), ...layout.balls.map((cell) => ["ball", ...cell]),
      ...layout.ins.map(({ name, cell }) => ["in", name, ...cell]),
      ...layout.outs.map(({ name, cell }) => ["out", name, ...cell]),
        ...layout.wastes.map((cell) => ["waste", ...cell])];
    return [...(this.limits.line ? [this.limits.line] : []), ...circuitText.circuitLines(circuit),
      `layout ${layout.width} ${layout.height} ${layout.steps}`, ...parts.map((words) => words.join(" ")), "end",
      ""].join("\n");
  }

  /** The lines before the layout, which hold the circuit. */
  get headText() { return (this.start < 0 ? this.lines : this.lines.slice(0, this.start)).join("\n"); }

  /** The lines behind the layout, which hold the certificate. */
  get tailText() { return this.lines.slice(this.after).join("\n"); }

  /** Returns the parts of some lines. @param {Iterable<number>} lines */
  partsOfLines(lines) {
    const wanted = new Set(lines);
    return this.parts.filter(({ line }) => wanted.has(line));
  }

  /** Returns the parts that have a cell, the last line first. */
  partsAtCell(x, y) {
    return this.parts.filter(({ box: [u, v, w, h] }) => x >= u && y >= v && x < u + w && y < v + h).reverse();
  }

  /**
   * Returns where lines are after the last change, which is taken into account once. If a change put more or fewer
   * lines in the place of some, these are left out.
   */
  takeNewLineNumbers(lines) {
    const { at, removed, added } = this.shift || { at: 0, removed: 0, added: 0 };
    this.shift = null;
    if (added === removed) return [...lines];
    return [...lines].filter((line) => line < at || line >= at + removed).map(
      (line) => (line < at ? line : line + added - removed));
  }

  // ---- history

  /** Puts other lines in the place of some. */
  applySplice({ at, removed, added }) {
    this.shift = { at, removed: removed.length, added: added.length };
    this.lines = [...this.lines.slice(0, at), ...added, ...this.lines.slice(at + removed.length)];
    this.parseLines();
  }

  /** Takes new lines as a command. Commands with one `merge` word that follow each other are undone together. */
  commit(lines, label, merge = null) {
    const last = this.past.at(-1), splice = spliceBetween(this.lines, lines);
    if (splice.removed.length === 0 && splice.added.length === 0) return;
    if (merge !== null && last && last.merge === merge && this.future.length === 0) {
      this.past.pop();
      const before = [...this.lines.slice(0, last.at), ...last.removed,
        ...this.lines.slice(last.at + last.added.length)];
      this.past.push({ ...spliceBetween(before, lines), label, merge });
    } else {
      this.past.push({ ...splice, label, merge });
    }
    this.future = [];
    this.applySplice(splice);
    this.notify();
  }

  notify() { for (const action of this.listeners) action(); }

  /** Undoes the last command, and returns its name, or null if there is none. */
  undo() {
    const last = this.past.pop();
    if (!last) return null;
    this.future.push(last);
    this.applySplice({ at: last.at, removed: last.added, added: last.removed });
    this.notify();
    return last.label;
  }

  /** Does the command again that was undone last, and returns its name, or null if there is none. */
  redo() {
    const next = this.future.pop();
    if (!next) return null;
    this.past.push(next);
    this.applySplice(next);
    this.notify();
    return next.label;
  }

  /** Ends the merging of commands. */
  closeMerge() { if (this.past.length) this.past.at(-1).merge = null; }

  /**
   * Changes the lines by way of objects `{text}`, and returns the numbers of the lines of the objects that the change
   * returns.
   * @param {string} label @param {(rows: {text: string}[]) => {text: string}[]} change
   */
  editRows(label, change) {
    const rows = this.lines.map((text) => ({ text })), touched = new Set(change(rows));
    this.commit(rows.map(({ text }) => text), label);
    return rows.flatMap((row, line) => (touched.has(row) ? [line] : []));
  }

  // ---- parts

  /**
   * Says why parts cannot be in the layout, or returns null.
   * @param {Part[]} parts
   * @param {Iterable<number>} without lines that go away
   */
  misfitReason(parts, without = []) {
    if (!this.header) return "The text has no layout whose size is allowed.";
    const { width, height } = this.header, gone = new Set(without);
    for (const part of parts) {
      const [x, y, w, h] = part.box;
      if (x < 0 || y < 0 || x + w > width || y + h > height)
          return `${partTitle(part)} is outside the layout of ${width} by ${height} cells.`;
      if (part.name !== null && part.name !== undefined
          && !NAME_PATTERN.test(part.name)) return `\`${part.name}\` is no name of a wire.`;
    }
    const fresh = new Map();
    for (const part of parts) {
      const other = conflictingPart(part, this.partsByRow(), gone);
      if (other) return `Cell (${sharedCell(part, other).join(", ")}) is taken by the ${partTitle(other)}.`;
      const twin = conflictingPart(part, fresh, new Set());
      if (twin) return `Two of the parts take cell (${sharedCell(part, twin).join(", ")}).`;
      indexPartByRows(fresh, part);
    }
    return null;
  }

  /** Returns the parts by the rows that they are in, made once for each text. */
  partsByRow() {
    if (!this.filed) {
      this.filed = new Map();
      for (const part of this.parts) {
        if (part.box[1] + part.box[3] <= this.limits.maxSide) indexPartByRows(this.filed, part);
      }
    }
    return this.filed;
  }

  /** Raises the reason why parts cannot be in the layout. */
  requireFit(parts, without = []) {
    const reason = this.misfitReason(parts, without);
    if (reason) throw new ModelRefusal(reason);
  }

  /** Adds parts, each behind the last part of its kind, and returns the numbers of their lines. */
  addParts(parts, label = "add") {
    this.requireFit(parts);
    return this.editRows(label, (rows) => this.insertPartLines(rows, parts));
  }

  /**
   * Adds balls, ports or waste cells. An input that the circuit does not have becomes one, and so does an output whose
   * wire is not used.
   */
  addBallsOrPorts(parts) {
    this.requireFit(parts);
    const { kind, name } = parts[0], { names, inputs, outputs, spills, gates, isWhole } = this.circuit, lines = [];
    const used = new Set([...outputs, ...spills, ...gates.flatMap(({ ins }) => ins)]);
    const isRead = isWhole || circuitText.linesAndLimits(this.headText).lines.length === 0;
    if (isRead && kind === "in" && !names.has(name)) lines.push(`input ${name}`);
    if (isRead && kind === "out" && names.has(name) && !used.has(name)) lines.push(`output ${name}`);
    if (isRead && kind === "in" && names.has(name)
        && !inputs.includes(name)) throw new ModelRefusal(`\`${name}\` is no input of the circuit.`);
    return this.editRows(kind, (rows) => {
      const added = this.insertPartLines(rows, parts);
      circuitText.joinCircuit(rows, this.start, lines, new Map());
      return added;
    });
  }

  /** Puts other outputs and waste cells in the place of all of them. */
  replaceOutsAndWastes(parts) {
    const old = new Set(this.parts.filter(({ kind }) => kind === "out" || kind === "waste").map(({ line }) => line));
    this.requireFit(parts, old);
    this.editRows("outputs", (rows) => {
      const gone = new Set([...old].map((line) => rows[line]));
      this.insertPartLines(rows, parts);
      rows.splice(0, rows.length, ...rows.filter((row) => !gone.has(row)));
      return [];
    });
  }

  /** Puts rows for parts behind the last part of their kind, or of a kind that comes before it. */
  insertPartLines(rows, parts) {
    const added = [];
    const end = lineWords(this.lines[this.start]).length && this.lines[this.start].endsWith("\r") ? "\r" : "";
    for (const kind of [...PART_KINDS].reverse()) {
      const fresh = parts.filter((part) => part.kind === kind).map((part) => ({ text: partLine(part) + end }));
      const before = this.parts.filter((part) => PART_KINDS.indexOf(part.kind) <= PART_KINDS.indexOf(kind))
        .map(({ line }) => line);
      rows.splice(Math.max(this.start, ...before) + 1, 0, ...fresh);
      added.push(...fresh);
    }
    return added;
  }

  /** Removes the parts of some lines. */
  removeParts(lines) {
    const gone = new Set(this.partsOfLines(lines).map(({ line }) => line));
    this.editRows("remove", (rows) => {
      rows.splice(0, rows.length, ...rows.filter((_, line) => !gone.has(line)));
      return [];
    });
  }

  /**
   * Puts other parts in the place of parts, each on its own line, and returns the numbers of the lines.
   * @param {Part[]} parts
   */
  replaceParts(parts, label = "change") {
    this.requireFit(parts, parts.map(({ line }) => line));
    return this.editRows(label, (rows) => parts.map((part) => {
      rows[part.line].text = lineWithOtherWords(rows[part.line].text, partLine(part));
      return rows[part.line];
    }));
  }

  /** Moves the parts of some lines. */
  move(lines, dx, dy) { return this.replaceParts(geometry.shiftedParts(this.partsOfLines(lines), dx, dy), "move"); }

  /** Rotates or reflects the parts of some lines about their frame. */
  rotateOrFlip(lines, how) {
    return this.replaceParts(geometry.rotatedOrFlippedParts(this.partsOfLines(lines), how), how);
  }

  /** Gives the ports of some lines another wire. */
  renamePorts(lines, name) {
    if (!NAME_PATTERN.test(name)) throw new ModelRefusal(`\`${name}\` is no name of a wire.`);
    const renamed = (part) => (part.name === null ? part : { ...part, name });
    return this.replaceParts(this.partsOfLines(lines).map(renamed), "rename");
  }

  // ---- the layout as a whole

  /** Sets size and steps. If `follows`, outputs and waste cells fly on by the change of the steps. */
  setSizeAndSteps(width, height, steps, follows = false) {
    const { maxSide, maxSteps } = this.limits;
    const isSide = (side) => Number.isInteger(side) && side % 2 === 0 && side >= 2 && side <= maxSide;
    if (this.start < 0) throw new ModelRefusal("The text has no line `layout W H STEPS`.");
    if (!isSide(width) || !isSide(height)) throw new ModelRefusal(
        `Width and height are even numbers from 2 to ${maxSide}.`
          + this.limitsLineHint(Math.max(width, height) > maxSide));
    if (!Number.isInteger(steps) || steps < 0 || steps > maxSteps)
        throw new ModelRefusal(`The steps are a number from 0 to ${maxSteps}.${this.limitsLineHint(steps > maxSteps)}`);
    const flying = follows && this.header ? this.parts.filter(({ kind }) => kind === "out" || kind === "waste") : [];
    const fresh = flying.length ? geometry.flownParts(flying, this.header.steps, steps - this.header.steps) : [];
    const changed = new Set(flying);
    const all = [...this.parts.filter((part) => !changed.has(part)), ...fresh];
    const outside = all.find(({ box: [x, y, w, h] }) => x < 0 || y < 0 || x + w > width || y + h > height);
    if (outside)
        throw new ModelRefusal(`${partTitle(outside)} would be outside the layout of ${width} by ${height} cells.`);
    if (fresh.length) this.requireFit(fresh, flying.map(({ line }) => line));
    this.editRows("size", (rows) => {
      rows[this.start].text = lineWithOtherWords(rows[this.start].text, `layout ${width} ${height} ${steps}`);
      for (const part of fresh) rows[part.line].text = lineWithOtherWords(rows[part.line].text, partLine(part));
      return [];
    });
  }

  /**
   * Adds columns and rows at the sides, and moves all parts by those at the left and above. A layout above the first
   * limits gets the line that raises them.
   */
  enlarge(left, above, right, below) {
    if (!this.header) throw new ModelRefusal("The text has no layout whose size is allowed.");
    if (![left, above, right, below].every((count) => Number.isInteger(count) && count >= 0 && count % 2 === 0)) {
      throw new ModelRefusal("Columns and rows are added by even numbers, so that all balls keep their directions.");
    }
    const { width, height, steps } = this.header, wide = width + left + right, high = height + above + below;
    const most = Math.max(wide, high);
    if (most > limits.SECOND_LIMITS.maxSide)
        throw new ModelRefusal(`A side is at most ${limits.SECOND_LIMITS.maxSide} cells.`);
    this.editRows("enlarge", (rows) => {
      rows[this.start].text = lineWithOtherWords(rows[this.start].text, `layout ${wide} ${high} ${steps}`);
      for (const part of geometry.shiftedParts(this.parts, left, above))
          rows[part.line].text = lineWithOtherWords(rows[part.line].text, partLine(part));
      if (most > this.limits.maxSide) {
        rows[0].text = withoutByteOrderMark(rows[0].text);
        rows.unshift({ text: limits.SECOND_LIMITS.line });
      }
      return [];
    });
  }

  /** Returns a sentence on the line that raises the limits if a number is above them, or nothing. */
  limitsLineHint(isAbove) { return isAbove ? limits.limitsLineHint("A larger layout", this.limits) : ""; }

  /** Puts other lines in the place of those before the layout. */
  setCircuitText(text, merge = null) {
    const head = text === "" ? [] : text.split("\n");
    this.commit([...head, ...this.lines.slice(this.start < 0 ? this.lines.length : this.start)], "circuit", merge);
  }

  /** Puts other lines in the place of those behind the layout. A text that ends there ends with a line feed. */
  setTail(text) { this.commit([...this.lines.slice(0, this.after), ...text.split("\n")], "certificate"); }

  /** Puts another text in the place of the whole text. */
  setText(text, label = "text") { this.commit(text.split("\n"), label); }

  /**
   * Adds a standard cell at a place of even numbers. With its wires, its circuit is joined to the text's, and its ports
   * are added: their wires get other names if theirs are taken. Otherwise mirrors and constant balls are added alone.
   * @param {{layout: Layout, circuit: string[]}} cell @param {number} x @param {number} y @param {boolean} hasWires
   */
  insertStandardCell({ layout, circuit }, x, y, hasWires) {
    if (x % 2 || y % 2) throw new ModelRefusal("A cell is moved by even numbers of columns and rows.");
    const names = circuitText.newNameByWire(circuit, this.circuit.names);
    const steps = Math.max(layout.steps, this.header ? this.header.steps : 0);
    const parts = standardCellParts(layout, x, y, hasWires ? (name) => names.get(name) : null, steps);
    const flying = hasWires && steps > this.header.steps
      ? this.parts.filter(({ kind }) => kind === "out" || kind === "waste") : [];
    const fresh = geometry.flownParts(flying, this.header.steps, steps - this.header.steps);
    this.requireFit([...parts, ...fresh], flying.map(({ line }) => line));
    return this.editRows("cell", (rows) => {
      for (const part of fresh) rows[part.line].text = lineWithOtherWords(rows[part.line].text, partLine(part));
      if (hasWires) rows[this.start].text = lineWithOtherWords(rows[this.start].text,
          `layout ${this.header.width} ${this.header.height} ${steps}`);
      const added = this.insertPartLines(rows, parts);
      if (hasWires) circuitText.joinCircuit(rows, this.start, circuit, names);
      return added;
    });
  }
}

/**
 * Returns the parts of a standard cell at a place; `nameOf` gives wires new names, and is null without wires. Outputs
 * fly on to `steps`.
 */
function standardCellParts(layout, x, y, nameOf, steps) {
  const one = (kind, name, cell) => ({ kind, name, box: [cell[0], cell[1], 1, 1], line: -1 });
  const firm = [...layout.mirrors.map((box) => ({ kind: "mirror", name: null, box, line: -1 })),
    ...layout.balls.map((cell) => one("ball", null, cell))];
  if (nameOf === null) return geometry.shiftedParts(firm, x, y);
  const ins = layout.ins.map(({ name, cell }) => one("in", nameOf(name), cell));
  const late = [...layout.outs.map(({ name, cell }) => one("out", nameOf(name), cell)),
    ...layout.wastes.map((cell) => one("waste", null, cell))];
  const flown = geometry.flownParts(late, layout.steps, steps - layout.steps);
  return geometry.shiftedParts([...firm, ...ins, ...flown], x, y);
}

export { LayoutModel, ModelRefusal, standardCellParts, refusalAfterTrying };
