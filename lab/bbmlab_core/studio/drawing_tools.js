/**
 * The tools: what pressing, dragging and letting go at cells does, by mouse, finger or keyboard. It knows the model,
 * and of the page only the sketch, to which it gives what a tool would do.
 */
import { countWithNoun } from "../view/stage.js";
import * as geometry from "./geometry.js";
import { standardCellParts, refusalAfterTrying } from "./model.js";

const CELL_PART_KINDS = ["ball", "in", "out", "waste"];
const CLICK_MIRROR_SIZE = [4, 2];

/** Returns the box of cells between two cells. */
const boxBetween = ([x, y], [u, v]) => [Math.min(x, u), Math.min(y, v), Math.abs(x - u) + 1, Math.abs(y - v) + 1];

class Tools {
  desk;
  sketch;
  say;
  name = "mirror";
  wire = "a";
  isPair = true;
  cell = null;
  source = null;
  hasWires = true;
  askLarger;
  onConnect;
  selection = new Set();
  clipboard = [];
  pressed = null;
  at = null;
  followed;

  /** @param {EditedLayout} desk @param {EditorStage} sketch @param {(text: string, isBad?: boolean) => void} say */
  constructor(desk, sketch, say) {
    this.desk = desk;
    this.sketch = sketch;
    this.say = say;
    this.askLarger = async () => false;
    this.onConnect = () => {};
  }

  get model() { return this.desk.model; }

  get steps() { return this.desk.layout.steps; }

  /** Takes another tool. */
  chooseTool(name) {
    this.cancel();
    this.source = null;
    this.name = name;
    if (name !== "select") this.selectLines([]);
    this.hover(this.at);
  }

  /** Selects the parts of some lines. */
  selectLines(lines) {
    this.selection = new Set(lines);
    this.sketch.selected = this.model.partsOfLines(this.selection);
    this.sketch.requestOver();
    if (this.onSelect) this.onSelect();
  }

  /**
   * Keeps the selection on its parts after a change, since their lines may have moved. Another file begins without one.
   */
  followMovedSelection() {
    const { model } = this, lines = model.takeNewLineNumbers(model === this.followed ? this.selection : []);
    this.followed = model;
    this.selectLines(model.partsOfLines(lines).map(({ line }) => line));
  }

  /** Ends what was begun, without a change. */
  cancel() {
    this.pressed = null;
    this.sketch.ghost = null;
    this.sketch.frame2 = null;
    this.sketch.requestOver();
  }

  /** Does a command, and says why if it cannot be done. Returns whether it was done. */
  tryCommand(action) {
    const reason = refusalAfterTrying(action);
    if (reason !== null) this.say(reason, true);
    return reason === null;
  }

  // ---- what a tool would do

  /** Returns the parts that a tool would put at a cell, or null. */
  partsToPlaceAt(cell) {
    if (!CELL_PART_KINDS.includes(this.name)) return null;
    const isLate = this.name === "out" || this.name === "waste";
    const name = this.name === "in" || this.name === "out" ? this.wire : null;
    const cells = this.isPair ? geometry.twoBallCells(cell, isLate ? this.steps : 0) : [cell];
    return cells.map(([x, y]) => ({ kind: this.name, name, box: [x, y, 1, 1], line: -1 }));
  }

  /** Returns the mirror for a box that was dragged: the nearest one that stays. A click makes one of 4 by 2 cells. */
  mirrorForDrag(start, end) {
    const { width, height } = this.desk.layout, isClick = start[0] === end[0] && start[1] === end[1];
    const wanted = isClick ? [...start, ...CLICK_MIRROR_SIZE] : boxBetween(start, end);
    const box = geometry.nearestStableBox(wanted, width, height);
    return { wanted, parts: box ? [{ kind: "mirror", name: null, box, line: -1 }] : [] };
  }

  /** Shows what a tool would do, and says why if it cannot. */
  showGhost(ghost) {
    this.sketch.ghost = ghost;
    this.sketch.requestOver();
    if (ghost && ghost.reason) this.say(ghost.reason, true);
    else if (ghost && ghost.words) this.say(ghost.words);
    else this.say("");
  }

  /** Shows what pressing at a cell would do. */
  hover(cell) {
    this.at = cell;
    if (this.pressed) return;
    if (cell === null || !this.model.header) {
      this.showGhost(null);
      return;
    }
    if (this.name === "mirror") this.showMirror(cell, cell);
    else if (this.name === "cell" && this.cell) this.showStandardCell(cell);
    else if (this.name === "paste") this.showGhost(this.copiedGhost(cell));
    else if (this.name === "connect") this.showConnection(cell);
    else {
      const parts = this.partsToPlaceAt(cell);
      this.showGhost(parts && { parts, reason: this.model.misfitReason(parts), time: this.steps,
        words: this.flightWords(parts) });
    }
  }

  /** Says where a ball would fly. */
  flightWords(parts) {
    const { kind, box: [x, y] } = parts[0], isLate = kind === "out" || kind === "waste";
    const [dx, dy] = geometry.flightDirection(x, y, isLate ? this.steps : 0);
    const ball = isLate ? "At the last time a ball here flies" : "This ball flies";
    return `${ball} ${dx > 0 ? "right" : "left"} and ${dy > 0 ? "down" : "up"}.`;
  }

  /** Shows the mirror between two cells. */
  showMirror(start, end) {
    const { wanted, parts } = this.mirrorForDrag(start, end), why = geometry.instabilityReason(wanted);
    const isClick = start[0] === end[0] && start[1] === end[1], box = parts.length ? parts[0].box : null;
    const reason = box ? this.model.misfitReason(parts) : "No mirror of this size stays here.";
    const words = why && !isClick
      ? `The dashed mirror would fall apart, since ${why}. The nearest one that stays: ${box ? box.join(" ") : "none"}.`
      : `Mirror ${box ? box.join(" ") : ""}`;
    this.showGhost({ parts, reason, wanted: why && !isClick ? wanted : null, words });
  }

  /** Returns the even corner at which a standard cell is put so that a cell is near its middle. */
  standardCellCorner([x, y], { layout }) {
    const even = (value, most) => Math.max(0, Math.min(most - most % 2, value - (value % 2 + 2) % 2));
    const { width, height } = this.desk.layout;
    return [even(x - (layout.width >> 1), width - layout.width),
      even(y - (layout.height >> 1), height - layout.height)];
  }

  /** Shows the standard cell at a place, with its ports and their times. */
  showStandardCell(cell) {
    const { layout, ports, name } = this.cell, [x, y] = this.standardCellCorner(cell, this.cell);
    const steps = Math.max(layout.steps, this.steps);
    const parts = standardCellParts(layout, x, y, this.hasWires ? (wire) => wire : null, steps);
    const isFit = layout.width <= this.desk.layout.width && layout.height <= this.desk.layout.height;
    const reason = isFit ? this.model.misfitReason(parts)
      : `The cell ${name} takes ${layout.width} by ${layout.height} cells. Press to make the layout larger.`;
    const shown = ports.map((port) => ({ ...port, cell: [port.cell[0] + x, port.cell[1] + y] }));
    this.showGhost({ parts, reason, ports: shown, words: `${name} ${this.cell.about}; ${layout.steps} steps.` });
  }

  /** Returns the port at a cell that the tool `connect` takes next: an output, and then an input. */
  portToConnectAt(cell) {
    const kind = this.source ? "in" : "out";
    return this.model.partsAtCell(...cell).find((part) => part.kind === kind) ?? null;
  }

  /** Shows the port that would be taken, and a line to it from the output that was pressed. */
  showConnection(cell) {
    const port = this.portToConnectAt(cell), { source } = this;
    const isTaken = ({ kind, name }) => (source && kind === "out" && name === source.name)
      || (port && kind === port.kind && name === port.name);
    const parts = port || source ? this.model.parts.filter(isTaken) : [];
    const words = source
      ? port ? `Press to lead the ball of ${source.name} here: it takes the place of the input ${port.name}.`
        : `Press the input to which the ball of ${source.name} is to fly, or Escape.`
      : port ? `Press to lead the ball of ${port.name} on to an input.` : "Press an output.";
    this.showGhost({ parts, words, time: this.steps, link: source ? [source.cell, cell] : null });
  }

  /** Takes an output, or has its ball led to an input. */
  connectAt(cell) {
    const port = this.portToConnectAt(cell), { source } = this;
    if (!port) {
      this.say(source ? "This is no input." : "This is no output: press an `out` cell first.", true);
      return;
    }
    this.source = source ? null : { name: port.name, cell };
    if (source) {
      this.showGhost(null);
      this.onConnect(source.name, port.name);
    } else this.showConnection(cell);
  }

  /** Returns the ghost of the copied parts with their frame near a cell. */
  copiedGhost([x, y]) {
    if (this.clipboard.length === 0) return null;
    const [left, top] = geometry.evenBoundingBox(this.clipboard.map(({ box }) => box));
    const [dx, dy] = [x - x % 2 - left, y - y % 2 - top];
    const parts = geometry.shiftedParts(this.clipboard, dx, dy);
    return { parts, reason: this.model.misfitReason(parts), words: "Press to paste here." };
  }

  // ---- pressing and dragging

  /** Begins at a cell that is pressed. */
  beginPress(cell, isMore = false) {
    if (!this.model.header || cell === null) return;
    this.at = cell;
    const begin = { select: () => this.beginMoveOrFrame(cell, isMore), erase: () => this.erase(cell),
      mirror: () => this.showMirror(cell, cell) }[this.name];
    this.pressed = { start: cell, isMore, mode: this.name };
    if (begin) begin();
  }

  /** Goes on to a cell. */
  dragTo(cell) {
    if (!this.pressed || cell === null) return;
    const { start, mode } = this.pressed;
    this.at = cell;
    if (mode === "mirror") this.showMirror(start, cell);
    else if (mode === "erase") this.erase(cell);
    else if (mode === "move") this.showMove(cell);
    else if (mode === "frame") {
      this.sketch.frame2 = boxBetween(start, cell);
      this.sketch.requestOver();
    }
  }

  /** Ends at a cell. */
  endPress(cell) {
    if (!this.pressed) return;
    const { start, mode, isMore, move } = this.pressed, end = cell || this.at;
    this.pressed = null;
    if (mode === "mirror") this.tryCommand(() => this.model.addParts(this.mirrorForDrag(start, end).parts, "mirror"));
    else if (mode === "move") this.endMove(move);
    else if (mode === "frame") this.selectInFrame(boxBetween(start, end), isMore);
    else if (mode === "cell") this.placeStandardCell(end);
    else if (mode === "paste") this.placeCopies(end);
    else if (mode === "connect") {
      this.connectAt(end);
      return;
    } else if (CELL_PART_KINDS.includes(mode)) {
      this.tryCommand(() => this.model.addBallsOrPorts(this.partsToPlaceAt(end)));
    }
    this.sketch.ghost = null;
    this.sketch.frame2 = null;
    this.sketch.requestOver();
  }

  /**
   * Puts the standard cell at a place. If it is larger than the layout, asks first whether to make the layout larger.
   */
  async placeStandardCell(cell) {
    if (!this.cell) return;
    const { layout, circuit, name } = this.cell, { width, height, steps } = this.desk.layout;
    const size = [Math.max(width, layout.width), Math.max(height, layout.height)];
    if (size[0] > width || size[1] > height) {
      const isLarger = await this.askLarger(
        `The cell ${name} takes ${layout.width} by ${layout.height} cells, and the layout has ${width} by ${height}.`,
        size);
      if (!isLarger || !this.tryCommand(() => this.model.setSizeAndSteps(...size, steps))) return;
    }
    const corner = this.standardCellCorner(cell, this.cell);
    this.tryCommand(() => this.model.insertStandardCell({ layout, circuit }, ...corner, this.hasWires));
  }

  /** Puts the copied parts at a place, and selects them. */
  placeCopies(cell) {
    const ghost = this.copiedGhost(cell);
    if (!ghost) return;
    let lines = [];
    if (!this.tryCommand(() => { lines = this.model.addParts(ghost.parts, "paste"); })) return;
    this.chooseTool("select");
    this.selectLines(lines);
    if (this.onTool) this.onTool();
  }

  /** Removes what is at a cell. */
  erase(cell) {
    const found = this.model.partsAtCell(...cell);
    if (found.length) this.model.removeParts([found[0].line]);
  }

  /** Selects what is at a cell and begins to move it, or begins a frame. */
  beginMoveOrFrame(cell, isMore) {
    const found = this.model.partsAtCell(...cell);
    const chosen = found.find(({ line }) => this.selection.has(line)) || found[0];
    if (!chosen) {
      this.pressed.mode = "frame";
      if (!isMore) this.selectLines([]);
      return;
    }
    this.pressed.mode = "move";
    if (isMore && this.selection.has(chosen.line))
        this.selectLines([...this.selection].filter((line) => line !== chosen.line));
    else if (isMore) this.selectLines([...this.selection, chosen.line]);
    else if (!this.selection.has(chosen.line)) this.selectLines([chosen.line]);
  }

  /** Shows the selection where it would be moved, and why it snapped to another place. */
  showMove([x, y]) {
    const { start: [u, v] } = this.pressed, parts = this.model.partsOfLines(this.selection);
    const [dx, dy] = geometry.nearestSafeShift(parts, x - u, y - v);
    const moved = geometry.shiftedParts(parts, dx, dy), isSnapped = dx !== x - u || dy !== y - v;
    const [wanted] = geometry.shiftedParts(parts, x - u, y - v);
    const why = isSnapped && parts.length === 1 ? geometry.instabilityReason(wanted.box) : null;
    this.pressed.move = [dx, dy];
    const words = why
      ? `Moved by (${x - u}, ${y - v}) the mirror would fall apart, since ${why}. It moves by (${dx}, ${dy}).`
      : `Moved by (${dx}, ${dy}).${isSnapped ? " Several parts move by whole blocks." : ""}`;
    this.showGhost({ parts: moved, reason: this.model.misfitReason(moved, this.selection), time: this.steps, words,
      wanted: why ? wanted.box : null });
  }

  /** Moves the selection as it was shown last. */
  endMove(move) { if (move && (move[0] || move[1])) this.nudge(...move); }

  /** Selects the parts that lie in a frame. */
  selectInFrame([x, y, w, h], isMore) {
    const inside = this.model.parts.filter(({ box: [u, v, wide, high] }) =>
      u >= x && v >= y && u + wide <= x + w && v + high <= y + h);
    this.selectLines([...(isMore ? this.selection : []), ...inside.map(({ line }) => line)]);
  }

  // ---- the selection

  /** Moves the selection by some cells. */
  nudge(dx, dy) {
    let lines = [...this.selection];
    if (lines.length === 0) return;
    if (this.tryCommand(() => { lines = this.model.move(lines, dx, dy); })) this.selectLines(lines);
  }

  /** Moves the selection one place on in a direction: by the least move that keeps its behaviour. */
  nudgeOnePlace(dx, dy) {
    const parts = this.model.partsOfLines(this.selection);
    const far = parts.length === 1 && parts[0].kind !== "mirror" ? 1 : 2;
    this.nudge(dx * far, dy * far);
  }

  /** Rotates or reflects the selection. */
  rotateOrFlip(how) {
    let lines = [...this.selection];
    if (!lines.length) return;
    if (this.tryCommand(() => { lines = this.model.rotateOrFlip(lines, how); })) this.selectLines(lines);
  }

  copy() {
    if (this.selection.size === 0) {
      this.say("Nothing is selected.", true);
      return;
    }
    this.clipboard = this.model.partsOfLines(this.selection).map((part) => ({ ...part, line: -1 }));
    this.say(`Copied ${countWithNoun(this.clipboard.length, "part", "parts")}.`);
  }

  /** Takes the tool that pastes: the copy goes where the next press is. */
  beginPaste() {
    if (this.clipboard.length === 0) {
      this.say("Nothing was copied.", true);
      return;
    }
    this.chooseTool("paste");
    if (this.onTool) this.onTool();
  }

  /** Removes the selection. */
  removeSelection() {
    if (this.selection.size === 0) return;
    this.model.removeParts(this.selection);
    this.selectLines([]);
  }

  /** Puts outputs and waste where the balls end, in the place of those that are there. */
  async placeOutsAndWastes() {
    const parts = await this.desk.ballEndParts();
    if (!parts) {
      this.say("This needs ways under all inputs, at most five inputs, and a circuit that can be read.", true);
      return;
    }
    this.tryCommand(() => this.model.replaceOutsAndWastes(parts));
  }
}

export { Tools };
