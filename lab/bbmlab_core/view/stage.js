/** Shows the runs of a player on canvases: the layout, a module by itself, and the waveform. */
import * as address from "./address.js";
import { mirrorAndRestlessCells, lastMoves } from "./automaton.js";
import * as painting from "./painting.js";
import { SvgPen } from "./svg_pen.js";
import { SquareIndex, changedIndexes, Tiles, visitModules, visitPorts } from "./tiles.js";
import * as waveform from "./waveform.js";
import { WireWays } from "./wires.js";

const { RULER_SIZE } = painting;
// A trail has so many steps, and fewer if the balls are many: 24,000 moves take 15 ms of a frame to draw without a
// graphics processor.
const TRAIL_STEPS = 24, MAX_MOVES = 8000, FIT_SCALE = 60;

/** Writes a number with its noun. */
const countWithNoun = (count, one, several) => `${count} ${count === 1 ? one : several}`;

class Stage {
  player;
  parts;
  layout;
  fault = null;
  mark = null;
  module = null;
  pointed = null;
  scale = 10;
  left = 0;
  top = 0;
  isFit = true;
  hasTrails = true;
  frame = null;
  good = null;
  axis = null;
  wires;
  hasWays = false;
  wire = null;
  pointedWire = null;
  // Where each finger and the mouse were last, by the number of the pointer.
  fingers = new Map();
  mirrors;
  boxes;
  filedBoxes;
  tiles;
  isWhole;

  /**
   * @param {Player} player
   * @param {Object<string, HTMLElement>} parts the canvases whole, own and wave, and what goes with them
   */
  constructor(player, parts) {
    this.player = player;
    this.parts = parts;
    this.layout = player.layout;
    // The ways of the balls, whether they are shown, and the wires that stand out: the one that was looked for, and the
    // one under the pointer.
    this.wires = new WireWays(player.data.ways, player.data.circuit);
    this.updateMirrors();
  }

  /**
   * Notes the cells of the layout's mirrors. Tiles of a layout of the same size are kept where its mirrors are the
   * same.
   */
  updateMirrors() {
    const { layout, tiles, boxes } = this;
    this.mirrors = mirrorAndRestlessCells(layout).cells;
    this.boxes = layout.mirrors;
    this.filedBoxes = new SquareIndex();
    for (const box of layout.mirrors) this.filedBoxes.addBox(...box);
    if (!tiles || tiles.width !== layout.width || tiles.height !== layout.height) {
      this.tiles = new Tiles(layout, (place, range) => this.drawTile(place, range));
      return;
    }
    const { gone, added } = changedIndexes(boxes.flat(), layout.mirrors.flat(), 4);
    const fresh = added.map((at) => layout.mirrors[at / 4]);
    const filedOf = (list) => {
      const filed = new SquareIndex();
      for (const box of list) filed.addBox(...box);
      return filed;
    };
    tiles.forget(filedOf(gone.map((at) => boxes[at / 4])));
    // Mirrors lie over the ways, so new ones are drawn over what a tile shows.
    if (fresh.length > 0) {
      const inks = painting.inksNow();
      tiles.add(filedOf(fresh), (place) => painting.paintMirrors({ ...place, inks }, fresh, 1));
    }
  }

  /** Draws what is still in a range of cells: the ways, if they are shown, and the mirrors over them. */
  drawTile(place, range) {
    const found = [], shown = { ...place, inks: painting.inksNow() };
    this.filedBoxes.visitRange(range, (number) => found.push(this.boxes[number]));
    this.drawWays(shown, range);
    painting.paintMirrors(shown, found, 1);
  }

  /** Draws the ways of a range of cells, if they are shown. */
  drawWays(place, range) { if (this.hasWays) this.wires.drawWays(place, range, painting.wireInks()); }

  /** Shows or hides the ways. */
  setWaysShown(isOn) {
    this.hasWays = isOn;
    this.redraw();
  }

  /** Draws everything again at the next frame, since colours or ways have changed. */
  redraw() {
    this.tiles.clear();
    this.requestPaint();
  }

  /** Returns the range of places that is seen: x, y, x, y. */
  seenRange() {
    const { wide, high } = this.viewSize();
    const x = this.left + RULER_SIZE.wide / this.scale, y = this.top + RULER_SIZE.high / this.scale;
    return [x, y, x + wide / this.scale, y + high / this.scale];
  }

  /** Returns the wire whose ball flies at a place of the canvas, with the time there, or null. */
  wireAt(x, y) { return this.wires.wireAt(this.left + x / this.scale - 0.5, this.top + y / this.scale - 0.5,
    Math.max(1, 5 / this.scale)); }

  /** Shows all ways of a wire, and lets them stand out; null lets none stand out. */
  showWire(wire) {
    this.wire = wire;
    if (wire) {
      const [x, y, w, h] = this.wires.boxOfWire(wire), { wide, high } = this.viewSize();
      this.centreOn(x + w / 2, y + h / 2, Math.min(28, wide / (w + 8), high / (h + 8)));
      this.noteViewMoved();
    }
    this.requestPaint();
  }

  /** Returns the size of the picture without its rulers, in pixels. */
  viewSize() {
    const { clientWidth, clientHeight } = this.parts.whole;
    return { wide: Math.max(1, clientWidth - RULER_SIZE.wide), high: Math.max(1, clientHeight - RULER_SIZE.high) };
  }

  /** Puts a place of the layout in the middle, at a scale in pixels for a cell. */
  centreOn(x, y, scale) {
    const { wide, high } = this.viewSize();
    this.scale = Math.max(address.MIN_SCALE, Math.min(address.MAX_SCALE, scale));
    this.left = x - (RULER_SIZE.wide + wide / 2) / this.scale;
    this.top = y - (RULER_SIZE.high + high / 2) / this.scale;
    this.requestPaint();
  }

  /** Returns the scale and the place in the middle. */
  scaleAndCentre() {
    const { wide, high } = this.viewSize();
    return [this.scale, this.left + (RULER_SIZE.wide + wide / 2) / this.scale,
      this.top + (RULER_SIZE.high + high / 2) / this.scale];
  }

  /** Shows the whole layout. */
  fitWholeLayout() {
    const { width, height } = this.layout, { wide, high } = this.viewSize();
    this.isFit = true;
    this.centreOn(width / 2, height / 2, Math.min(FIT_SCALE, wide / (width + 1), high / (height + 1)));
  }

  /** Zooms about a place of the canvas, its middle if none is given. */
  zoom(factor, x = this.parts.whole.clientWidth / 2, y = this.parts.whole.clientHeight / 2) {
    const scale = Math.max(address.MIN_SCALE, Math.min(address.MAX_SCALE, this.scale * factor));
    this.left += x / this.scale - x / scale;
    this.top += y / this.scale - y / scale;
    this.scale = scale;
    this.noteViewMoved();
  }

  /** Moves the picture by pixels. */
  pan(x, y) {
    this.left += x / this.scale;
    this.top += y / this.scale;
    this.noteViewMoved();
  }

  /** Notes where a finger or the mouse was put down. */
  notePressedFinger({ pointerId, offsetX, offsetY }) {
    this.fingers.set(pointerId, [offsetX, offsetY]);
    this.parts.whole.setPointerCapture(pointerId);
  }

  /** Returns how far two fingers are apart, and the place in the middle. */
  fingerSpread() {
    const [[x, y], [u, v]] = this.fingers.values();
    return { gap: Math.hypot(x - u, y - v), x: (x + u) / 2, y: (y + v) / 2 };
  }

  /** Moves and zooms the picture by one of two fingers. Returns where the finger was, or undefined if it is up. */
  moveFinger({ pointerId, offsetX, offsetY }) {
    const { fingers } = this, from = fingers.get(pointerId);
    if (!from) return from;
    const before = fingers.size === 2 ? this.fingerSpread() : null;
    fingers.set(pointerId, [offsetX, offsetY]);
    if (before) {
      const after = this.fingerSpread();
      this.pan(before.x - after.x, before.y - after.y);
      if (before.gap > 0) this.zoom(after.gap / before.gap, after.x, after.y);
    }
    return from;
  }

  /** Zooms by the wheel, and draws again after changes of the window and of its colours, which `action` hears of. */
  listenToWheelAndWindow(action = () => {}) {
    const { whole, waveBox } = this.parts;
    whole.addEventListener("wheel", (event) => {
      event.preventDefault();
      this.zoom(Math.exp(-Math.max(-100, Math.min(100, event.deltaY)) / 500), event.offsetX, event.offsetY);
    }, { passive: false });
    new ResizeObserver(() => (this.isFit ? this.fitWholeLayout() : this.requestPaint())).observe(whole);
    new ResizeObserver(() => this.paintWave()).observe(waveBox);
    matchMedia("(prefers-color-scheme: dark)").addEventListener("change", () => {
      this.redraw();
      this.paintWave();
      action();
    });
  }

  /** Takes the outputs at the run's end, or that there are none yet. */
  updateOutputStates() {
    const results = this.player.outputResults();
    this.good = results
      && new Map(results.flatMap(({ cells }) => cells.map(({ cell, isGood }) => [String(cell), isGood])));
    this.requestPaint();
    this.paintWave();
  }

  /** Shows in an element what there is at a cell, if one is given. */
  showCellWords(element, cell) {
    const words = cell ? this.cellWords(cell) : "";
    if (element.textContent !== words) element.textContent = words;
  }

  /** Notes that the picture is no longer fitted. */
  noteViewMoved() {
    this.isFit = false;
    this.requestPaint();
    if (this.onMove) this.onMove();
  }

  /** Shows a place closely enough to see cells: all of the layout if that does, else the box if one is given. */
  lookAt([x, y], box) {
    this.fitWholeLayout();
    if (this.scale >= 12) return;
    const { wide, high } = this.viewSize(), side = box ? Math.max(box[2], box[3]) + 8 : 24;
    this.centreOn(x, y, Math.max(this.scale, Math.min(28, Math.max(8, Math.min(wide, high) / side))));
    this.noteViewMoved();
  }

  /** Returns the cell at a place of the canvas, or null beside the layout. @returns {?Cell} */
  cellAt(x, y) {
    const cell = [Math.floor(this.left + x / this.scale), Math.floor(this.top + y / this.scale)];
    const isInside = cell[0] >= 0 && cell[1] >= 0 && cell[0] < this.layout.width && cell[1] < this.layout.height;
    return isInside && x >= RULER_SIZE.wide && y >= RULER_SIZE.high ? cell : null;
  }

  /** Says what there is at a cell now: "(99, 82): ball, in p, module 3". */
  cellWords([x, y]) {
    const { layout, mirrors, player } = this, key = mirrors.numbering.keyOf(x, y), words = [];
    const isLive = player.run.live.has(key);
    if (mirrors.has(key)) words.push(isLive ? "mirror" : "dead mirror cell");
    else if (isLive) words.push("ball");
    for (const [kind, found] of [["in", layout.ins], ["out", layout.outs]]) {
      visitPorts(found, [x, y, x, y],
        (number, [u, v]) => { if (u === x && v === y) words.push(`${kind} ${found[number].name}`); });
    }
    if (layout.wastes.some(([u, v]) => u === x && v === y)) words.push("waste");
    let module = -1;
    visitModules(player.modules, [x, y, x, y], (number, [u, v, w, h]) => {
      if (x >= u && y >= v && x < u + w && y < v + h) module = number;
    });
    if (module >= 0 && player.modules.length > 1) words.push(`module ${module}`);
    return `(${x}, ${y})${words.length ? `: ${words.join(", ")}` : ""}`;
  }

  /** Draws at the next frame, once however often it is called. */
  requestPaint() {
    if (this.frame) return;
    this.frame = requestAnimationFrame(() => {
      this.frame = null;
      if (this.onPaint) this.onPaint();
      this.isWhole = true;
      this.paintWhole(painting.clearCanvasForPainting(this.parts.whole, this.scale, this.left, this.top));
      if (this.player.own) this.paintModuleRun();
      if (this.onPainted) this.onPainted();
      // Tiles for which there was no time come with the next frames.
      if (!this.isWhole) this.requestPaint();
    });
  }

  /** Returns the moves to draw as trails, by steps. */
  trailMoves() {
    if (!this.hasTrails) return [];
    let room = MAX_MOVES;
    return lastMoves(this.player.run, TRAIL_STEPS).filter((moves) => {
      room -= moves.length / 2;
      return room >= 0;
    });
  }

  /** Draws the whole layout with a pen. */
  paintWhole(place, pointed = this.pointed) {
    const { run, modules, layout } = this.player, { mirrors, fault, mark, module } = this;
    const wire = this.pointedWire || this.wire;
    painting.paintScene(place, { layout, modules, live: run.live, mirrors, odd: run.time % 2, trail: this.trailMoves(),
      chosen: module,
      lines: place.scale < painting.MIN_CERTIFICATE_LINES_SCALE ? [] : this.player.certificateLinesNow(module), fault,
      mark, good: run.time === layout.steps ? this.good : null, pointed,
      ways: (where, range) => this.drawWays(where, range), still: place.pen instanceof SvgPen ? null
        : (where) => this.drawStill(where),
      cellsUnlikeMirrors: () => run.cellsUnlikeMirrors(),
      over: wire ? (where) => this.wires.drawWireInFront(where, wire) : null });
  }

  /** Draws what is still from tiles. */
  drawStill(place) { if (!this.tiles.paintShownTiles(place, window.devicePixelRatio || 1)) this.isWhole = false; }

  /** Returns what is seen as the text of an SVG file. */
  svgText(title) {
    const { clientWidth, clientHeight } = this.parts.whole, meter = document.createElement("canvas").getContext("2d");
    const measure = (text, font) => {
      meter.font = font;
      return meter.measureText(text).width;
    };
    const pen = new SvgPen(clientWidth, clientHeight, measure), inks = painting.inksNow();
    this.paintWhole({ pen, scale: this.scale, left: this.left, top: this.top, wide: clientWidth, high: clientHeight,
      inks }, null);
    return pen.svgDocument(inks.plane, title);
  }

  /** Calls an action with what is seen as a PNG file. */
  makePng(action) {
    const { whole } = this.parts, canvas = document.createElement("canvas");
    this.paintWhole(painting.clearCanvasForPainting(whole, this.scale, this.left, this.top), null);
    canvas.width = whole.width;
    canvas.height = whole.height;
    const pen = canvas.getContext("2d");
    pen.fillStyle = painting.inksNow().plane;
    pen.fillRect(0, 0, canvas.width, canvas.height);
    pen.drawImage(whole, 0, 0);
    canvas.toBlob(action, "image/png");
    this.requestPaint();
  }

  /** Draws the module's own run, and marks the cells that differ from the whole run. */
  paintModuleRun() {
    const canvas = this.parts.own, { own, run } = this.player, [x, y, w, h] = own.module.box;
    const { clientWidth, clientHeight } = canvas;
    const scale = Math.min(48, clientWidth / (w + 4), clientHeight / (h + 4));
    const place = painting.clearCanvasForPainting(canvas, scale, x + w / 2 - clientWidth / scale / 2,
      y + h / 2 - clientHeight / scale / 2);
    const heard = own.heardCellsNow().map((key) => own.numbering.cellOf(key)),
      { more, less } = this.cellsUnlikeWholeRun();
    painting.paintBlockGrid(place, own.module.box, own.time % 2);
    painting.paintBoxOutline(place, own.module.box, place.inks.box, [6, 4], 0, 1.5);
    painting.paintLiveCells(place, own.live, this.mirrors);
    for (const cell of heard) painting.paintBoxOutline(place, [...cell, 1, 1], place.inks.halo, [2, 2], 3, 2.5);
    painting.paintDifferences(place, more, less);
    if (this.fault) painting.paintCellCircle(place, this.fault);
    const told = heard.length ? ` Dotted: ${heard.length} live around the box, as the module is told.` : "";
    this.parts.note.textContent = own.time === run.time ? this.differenceWords() + told : "";
  }

  /**
   * Returns the cells that are live only in the module's own run, and those that are live only in the whole run.
   * @returns {{more: Cell[], less: Cell[]}}
   */
  cellsUnlikeWholeRun() {
    const { own, run } = this.player;
    if (!own || own.time !== run.time) return { more: [], less: [] };
    const more = own.live.keys().filter((key) => !run.live.has(key));
    const less = run.live.keys().filter((key) => own.isInside(key) && !own.live.has(key));
    return { more: more.map((key) => own.numbering.cellOf(key)), less: less.map((key) => run.numbering.cellOf(key)) };
  }

  /** Says how many cells differ. */
  differenceWords() {
    const { more, less } = this.cellsUnlikeWholeRun(), count = more.length + less.length;
    if (count === 0) return "No cell differs from the whole run now.";
    const cells = countWithNoun(count, "cell differs", "cells differ");
    return `${cells} from the whole run: ✗ is live only here, ☐ only there.`;
  }

  /** Draws the rows of the waveform that can be seen. */
  paintWave() {
    const { wave, waveBox, waveRest } = this.parts, { probes, recorder, layout, values } = this.player;
    if (wave.clientHeight === 0) return;
    waveRest.style.height = `${Math.max(0, waveform.waveformHeight(probes) - waveBox.clientHeight)}px`;
    const place = painting.clearCanvasForPainting(wave, 1, 0, 0);
    this.axis = waveform.paintRows(place,
      { probes, recorder, steps: layout.steps, values, scrolled: waveBox.scrollTop });
    this.moveWaveCursor();
  }

  /** Puts the line of the waveform at the present time. */
  moveWaveCursor() {
    if (this.axis) this.parts.waveCursor.style.left =
        `${this.axis.left + (this.player.run.time + 0.5) * this.axis.unit}px`;
  }

  /** Returns the time at a place of the waveform. */
  timeAt(x) { return this.axis ? Math.floor((x - this.axis.left) / this.axis.unit) : 0; }
}

export { Stage, countWithNoun };
