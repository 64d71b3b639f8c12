// run_modules.js: reads a JSON list of [name, arguments..] and writes what each of the functions below returns. They
// use modules of the page that need no browser.
import fs from "node:fs";
import * as address from "../bbmlab_core/view/address.js";
import { CellNumbering, CellSet, circuitValues, mirrorAndRestlessCells, ModuleRun, startKeys, lastMoves,
  WholeRun } from "../bbmlab_core/view/automaton.js";
import { chooseNamePlaces } from "../bbmlab_core/view/labels.js";
import * as painting from "../bbmlab_core/view/painting.js";
import { Player } from "../bbmlab_core/view/player.js";
import { paintSquares } from "../bbmlab_core/view/squares.js";
import { SvgPen } from "../bbmlab_core/view/svg_pen.js";
import { SquareIndex, Tiles, visitModules } from "../bbmlab_core/view/tiles.js";
import * as waveform from "../bbmlab_core/view/waveform.js";
import { WireWays } from "../bbmlab_core/view/wires.js";

/** Returns a run at a time. */
function runAt(data, on, time) {
  const run = new WholeRun(data.layout, new Set(on));
  run.seek(time);
  return run;
}

/** Returns the live cells of a run of the layout, or of a module, at these times, sought in this order. */
function states({ data, on, times, module, assignment }) {
  const run = module === undefined ? new WholeRun(data.layout, new Set(on)) : new ModuleRun(data, module, assignment);
  const cells = () => [...run.live].map((key) => run.live.numbering.cellOf(key))
    .sort((a, b) => a[1] - b[1] || a[0] - b[0]);
  const found = times.map((time) => {
    run.seek(time);
    return [run.time, cells()];
  });
  return { states: found, left: run.leftAt ?? null, values: data.circuit
    ? Object.fromEntries(circuitValues(data.circuit, new Set(on))) : null };
}

/** Returns a player that has come to the end, by small steps of its own. */
function ended(data, on) {
  const player = new Player(data);
  player.setInputs(Object.fromEntries(player.names.map((name) => [name, on.includes(name)])));
  player.restart(0);
  while (!player.isEnded) player.runAhead();
  return player;
}

/** Returns the moves of each of the last steps, the latest first. */
const trail = (data, on, time, length) =>
  lastMoves(runAt(data, on, time), length)
    .map((moves) => moves.map((key) => new CellNumbering(data.layout).cellOf(key)));

/** Returns what is watched, when the cells are live, and what the marks say. */
function waves(data, on) {
  const { probes, recorder, layout, values } = ended(data, on);
  return probes.map(({ wire, cell, key, marks }) => ({ wire, cell, marks: marks.map(({ time, kind }) => [time, kind]),
    live: [...Array(layout.steps + 1).keys()].map((time) => recorder.isLive(key, time) ?? null), value: values
      ? values.get(wire) ?? null : null,
    spans: waveform.liveSpans(recorder.signalOf(key), recorder.until) }));
}

/** Returns the picture of a layout as SVG, with letters that are 0.6 of their size wide. */
function scene(data, on, time, { scale, left, top, pointed }) {
  const measure = (words, font) => 0.6 * Number(font.match(/([\d.]+)px/)[1]) * words.length;
  const pen = new SvgPen(900, 600, measure), inks = new Proxy({}, { get: (_, name) => `var(--${String(name)})` });
  const run = runAt(data, on, time);
  const mirrors = new CellSet(startKeys({ mirrors: data.layout.mirrors, balls: [], ins: [] }, () => false,
    run.numbering), run.numbering);
  const good = new Map(data.layout.outs.map((port) => [String(port.cell), true]));
  painting.paintScene({ pen, scale, left, top, wide: 900, high: 600, inks },
    { layout: data.layout, modules: [], live: run.live, mirrors,
    odd: time % 2, trail: lastMoves(run, 8), chosen: null, lines: [], fault: null, mark: null, good, pointed });
  return pen.svgDocument("#fff", "a <title> & \"more\"");
}

const results = (data, on) => ended(data, on).outputResults().map(({ name, isGood }) => [name, isGood]);
const read = (hash, limits) => address.readAddress(hash, limits);
const addressFragment = (shown) => address.addressFragment(shown);
const places = (names, signs, ports) => chooseNamePlaces(names, signs, ports).map(({ box, away }) => [box.x, box.y,
  away]);

/**
 * Returns for each time, sought in this order, what differs from the mirrors, as the run knows it and as its cells say.
 */
function cellsUnlikeMirrors(data, on, times) {
  const run = new WholeRun(data.layout, new Set(on)), { cells } = mirrorAndRestlessCells(data.layout), found = [];
  for (const time of times) {
    run.seek(time);
    const wanted = [...cells.bytes.keys()].filter((key) => cells.bytes[key] !== run.live.bytes[key]);
    found.push([[...run.cellsUnlikeMirrors()].sort((a, b) => a - b), wanted]);
  }
  return found;
}

/** Returns the numbers of the rectangles and pieces that are filed under a range, in order. */
function filed(boxes, pieces, range) {
  const found = new SquareIndex(), numbers = [];
  for (const box of boxes) found.addBox(...box);
  for (const piece of pieces) found.addPiece(...piece);
  found.visitRange(range, (number) => numbers.push(number));
  return numbers.sort((a, b) => a - b);
}

/** Returns what is said of the wire at a place, and the time there, or null. */
function wireAt(ways, circuit, [x, y], most) {
  const wires = new WireWays(ways, circuit), found = wires.wireAt(x, y, most);
  return found && [wires.wireWords(found.wire), found.times, wires.boxOfWire(found.wire), wires.groupOf(found.wire)];
}

/**
 * Returns how many tiles a place needs, which of them are made at first, and after it was drawn often. A tile takes
 * some milliseconds to draw.
 */
function tiles(size, place, milliseconds) {
  const drawn = [], canvas = { getContext: () => ({}) };
  globalThis.document = { createElement: () => ({ ...canvas }) };
  const made = new Tiles(size, ({ scale, left, top }) => {
    drawn.push([scale, left, top]);
    for (const end = performance.now() + milliseconds; performance.now() < end;);
  });
  const shown = { pen: { drawImage: () => { copies += 1; } }, ...place };
  let copies = 0, frames = 1;
  const isFirst = made.paintShownTiles(shown), first = drawn.length, firstCopies = copies;
  while (!made.paintShownTiles(shown)) frames += 1;
  return { level: made.levelOf(place.scale), wanted: made.shownTiles(place, made.levelOf(place.scale)).length, isFirst,
    first, firstCopies, drawn: drawn.length, frames };
}

/** Returns the words of the pixels of a canvas on which squares were drawn, by rows: opacity, blue, green, red. */
function squares({ width, height, ...place }, cells, look) {
  const words = [], pen = () => ({ save() {}, restore() {}, setTransform() {}, drawImage() {},
    canvas: { width, height }, getTransform: () => ({ a: 1 }),
    createImageData: () => ({ data: new Uint8ClampedArray(4 * width * height) }),
    putImageData: ({ data }) => { words.push(...new Uint32Array(data.buffer)); } });
  globalThis.document = { createElement: () => ({ getContext: pen }) };
  paintSquares({ ...place, pen: pen() }, cells, "#123456", look);
  return [...Array(height).keys()].map((row) => words.slice(row * width, (row + 1) * width)
    .map((word) => word.toString(16).padStart(8, "0")));
}

/** Returns for each time the lines that speak of it, and whether edge and halo lines are filed then. */
function linesAt(data, times) {
  const player = new Player(data);
  player.restart(0);
  return times.map((time) => {
    player.run.seek(time);
    return [player.certificateLinesNow(null).map(({ kind, number, x, y, signal }) => [kind, number, x, y, signal]),
      player.borders !== null];
  });
}

/** Returns the modules that have each of some cells. */
const modulesAt = (modules, cells) => cells.map(([x, y]) => {
  const found = [];
  visitModules(modules, [x, y, x, y], (number, [u, v, w, h]) => {
    if (x >= u && y >= v && x < u + w && y < v + h) found.push(number);
  });
  return found;
});

const functions = { cellsUnlikeMirrors, filed, linesAt, modulesAt, squares, states,
  wireAt, tiles, trail, waves, scene, results, read, addressFragment, places };
const jobs = JSON.parse(fs.readFileSync(0, "utf8"));
console.log(JSON.stringify(jobs.map(([name, ...words]) => functions[name](...words))));
