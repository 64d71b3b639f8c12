/**
 * Draws a layout, its cells and its signs with a pen: a canvas's 2D context or an `SvgPen`.
 *
 * @typedef {{pen: Object, scale: number, left: number, top: number, wide: number, high: number, inks: Object<string,
 * string>}} Place where cells lie on a picture: `left` and `top` are the cell at its upper left corner, `scale` the
 * pixels for a cell
 */
import { chooseNamePlaces } from "./labels.js";
import { needsPixelDrawing, paintSquares } from "./squares.js";
import { SquareIndex, squaresInRange, visitModules, visitPorts, maxModuleShortSide } from "./tiles.js";

const INK_NAMES = ["ink", "soft", "paper", "plane", "grid", "border", "mirror", "ball", "box", "good", "bad", "edge",
  "halo", "stop", "wave"];
const LINE_LETTERS = { edge: "E", halo: "H", stop: "S" };
const RULER_SIZE = { wide: 32, high: 18 }, WIRE_INK_COUNT = 8;
// Below this scale tiles show what is still. Where modules are more than a few, borders that are closer, or more, hide
// what is in them.
const TILES_BELOW_SCALE = 4, CLOSE_BORDERS = 20, FEW_MODULES = 64, MANY_BORDERS = 3000;
// Below this scale no lines of modules are drawn.
const MIN_CERTIFICATE_LINES_SCALE = 4;
// A mirror so many cells from all ports does not matter for the places of their names.
const PORT_MARGIN_CELLS = 48;
// How many lines of text a name may be away from its cell, and the scales from which a few and many ports have names:
// 2,520 names take 200 ms to place at scale 6, and 15 ms at scale 10.
const MAX_LINES_AWAY = 2, NAMED_SCALE = 6, MANY_PORTS = 400, MANY_SCALE = 10;

// Whether the page is dark, and the colours that were read then: to read them takes a millisecond of a frame.
const darkModeQuery = globalThis.matchMedia?.("(prefers-color-scheme: dark)"), read = { isDark: null, inks: {} };

/** Returns the colours of the page as it is shown now. */
function inksNow() {
  if (read.isDark === darkModeQuery.matches) return read.inks;
  const style = getComputedStyle(document.documentElement);
  read.inks = Object.fromEntries(INK_NAMES.map((name) => [name, style.getPropertyValue(`--${name}`).trim()]));
  read.isDark = darkModeQuery.matches;
  return read.inks;
}

/** Returns the colours of wires as the page is shown now, and that of what is no wire's. */
function wireInks() {
  const style = getComputedStyle(document.documentElement);
  return [...Array(WIRE_INK_COUNT).keys(), "none"].map((index) => style.getPropertyValue(`--wire-${index}`).trim());
}

/** Clears a canvas with its real number of pixels, and returns the place to draw on. @returns {Place} */
function clearCanvasForPainting(canvas, scale, left, top) {
  const ratio = window.devicePixelRatio || 1, wide = canvas.clientWidth, high = canvas.clientHeight;
  const size = { width: Math.max(1, Math.floor(wide * ratio)), height: Math.max(1, Math.floor(high * ratio)) };
  const pen = canvas.getContext("2d");
  // A canvas that gets a size, even its own, takes new memory.
  if (canvas.width !== size.width || canvas.height !== size.height) Object.assign(canvas, size);
  pen.setTransform(ratio, 0, 0, ratio, 0, 0);
  pen.clearRect(0, 0, wide, high);
  return { pen, scale, left, top, wide, high, inks: inksNow() };
}

const pixelX = (place, x) => (x - place.left) * place.scale;
const pixelY = (place, y) => (y - place.top) * place.scale;

/** Whether a cell can be seen. */
const isCellSeen = (place, x, y) => pixelX(place, x + 1) >= 0 && pixelY(place, y + 1) >= 0
  && pixelX(place, x) <= place.wide && pixelY(place, y) <= place.high;

/** Strokes the outline of a rectangle of cells, drawn inwards by some pixels. */
function paintBoxOutline(place, [x, y, w, h], ink, dash, inset, width) {
  const { pen, scale } = place;
  pen.strokeStyle = ink;
  pen.lineWidth = width;
  pen.setLineDash(dash);
  pen.strokeRect(pixelX(place, x) + inset, pixelY(place, y) + inset, Math.max(1, w * scale - 2 * inset),
    Math.max(1, h * scale - 2 * inset));
  pen.setLineDash([]);
}

/** Strokes the outlines of cells, x, y, x, y…, of which each can be seen. */
function paintCellOutlines(place, found, ink, dash, inset, width) {
  const { pen, scale } = place, side = Math.max(1, scale - 2 * inset);
  if (scale < 1 && needsPixelDrawing(pen, found.length / 2)) {
    // A pen draws a thin outline about one pixel as a dot that begins at a whole pixel.
    paintSquares(place, found, ink, width < 1 ? { side: 1 + width, isWhole: true }
      : { side: 1 + width, shift: -width / 2 });
    return;
  }
  pen.strokeStyle = ink;
  pen.lineWidth = width;
  pen.setLineDash(dash);
  for (let index = 0; index < found.length; index += 2) pen.strokeRect(pixelX(place, found[index]) + inset,
      pixelY(place, found[index + 1]) + inset, side, side);
  pen.setLineDash([]);
}

/** Strokes the lines between the blocks of the next step that can be seen. */
function paintBlockGrid(place, [x, y, w, h], odd) {
  if (place.scale < 5) return;
  const { pen, left, top, wide, high, scale } = place;
  const first = (start, seen) => start + odd + 2 * Math.max(0, Math.floor((seen - start - odd) / 2));
  pen.strokeStyle = place.inks.grid;
  pen.lineWidth = 1;
  pen.beginPath();
  for (let u = first(x, left); u <= Math.min(x + w, left + wide / scale + 1); u += 2) {
    pen.moveTo(pixelX(place, u), pixelY(place, y));
    pen.lineTo(pixelX(place, u), pixelY(place, y + h));
  }
  for (let v = first(y, top); v <= Math.min(y + h, top + high / scale + 1); v += 2) {
    pen.moveTo(pixelX(place, x), pixelY(place, v));
    pen.lineTo(pixelX(place, x + w), pixelY(place, v));
  }
  pen.stroke();
}

/** Returns the cells of a layout and next to it that can be seen: x0, y0, x1, y1, the ends not included. */
function seenRange({ left, top, wide, high, scale }, { width, height }) {
  return [Math.max(-2, Math.floor(left)), Math.max(-2, Math.floor(top)),
    Math.min(width + 2, Math.ceil(left + wide / scale)),
    Math.min(height + 2, Math.ceil(top + high / scale))];
}

/** Returns the live cells that can be seen: mirrors as rectangles x, y, w, h, and balls as x, y, x, y… */
function seenLiveCells(place, live, mirrors) {
  const { bytes, numbering } = live, [x0, y0, x1, y1] = seenRange(place, numbering);
  const balls = [], bars = [], open = new Map();
  for (let y = y0; y < y1; y += 1) {
    for (let x = x0, key = numbering.keyOf(x0, y); x < x1; x += 1, key += 1) {
      if (bytes[key] === 0) continue;
      if (!mirrors.has(key)) {
        balls.push(x, y);
        continue;
      }
      const start = x;
      while (x + 1 < x1 && bytes[key + 1] === 1 && mirrors.has(key + 1)) {
        x += 1;
        key += 1;
      }
      // A row of mirror cells below an equal one makes that one higher: fewer rectangles take less time.
      const size = start * numbering.row + x + 1 - start, above = open.get(size);
      if (above && above[1] + above[3] === y) above[3] += 1;
      else {
        open.set(size, [start, y, x + 1 - start, 1]);
        bars.push(open.get(size));
      }
    }
  }
  return { bars, balls };
}

/** Draws mirrors, given as rectangles. */
function paintMirrors(place, found, least) {
  const { pen, scale } = place;
  pen.fillStyle = place.inks.mirror;
  pen.beginPath();
  for (const [x, y, w, h] of found) pen.rect(pixelX(place, x), pixelY(place, y), Math.max(least, w * scale),
      Math.max(least, h * scale));
  pen.fill();
}

/**
 * Draws what differs from the mirrors, by the numbers of cells: a dot for each ball, and holes where cells of mirrors
 * are dead.
 */
function paintBallsAndHoles(place, cellsUnlikeMirrors, mirrors) {
  const { pen, scale } = place, balls = [], { numbering } = mirrors;
  pen.fillStyle = place.inks.plane;
  for (const key of cellsUnlikeMirrors) {
    const x = numbering.xOf(key), y = numbering.yOf(key);
    if (!isCellSeen(place, x, y)) continue;
    if (mirrors.has(key)) pen.fillRect(pixelX(place, x), pixelY(place, y), Math.max(1, scale), Math.max(1, scale));
    else balls.push(x, y);
  }
  paintBalls(place, balls);
}

/** Draws the live cells that can be seen: mirrors, and a disc or a dot for each ball. */
function paintLiveCells(place, live, mirrors) {
  const { pen, scale, inks } = place, { bars: found, balls } = seenLiveCells(place, live, mirrors);
  pen.fillStyle = inks.mirror;
  pen.beginPath();
  // Half a pixel more, so that no seam shows between the parts of one mirror.
  for (const [x, y, w, h] of found) pen.rect(pixelX(place, x), pixelY(place, y), Math.max(1.5, w * scale + 0.5),
      Math.max(1.5, h * scale + 0.5));
  pen.fill();
  paintBalls(place, balls);
}

/** Draws balls, given as x, y, x, y… */
function paintBalls(place, balls) {
  const { pen, scale } = place, radius = scale * 0.36, side = Math.max(scale < 1 ? 2.5 : 1.5, scale);
  if (scale < 3 && needsPixelDrawing(pen, balls.length / 2)) {
    paintSquares(place, balls, place.inks.ball, { side });
    return;
  }
  pen.fillStyle = place.inks.ball;
  pen.beginPath();
  for (let index = 0; index < balls.length; index += 2) {
    const x = pixelX(place, balls[index]), y = pixelY(place, balls[index + 1]);
    if (scale < 3) {
      pen.rect(x, y, side, side);
      continue;
    }
    pen.moveTo(x + scale / 2 + radius, y + scale / 2);
    pen.arc(x + scale / 2, y + scale / 2, radius, 0, 2 * Math.PI);
  }
  pen.fill();
}

/** Draws the last moves of the balls, the latest step first. Older ones are fainter. */
function paintTrails(place, steps, cellsOf) {
  const { pen, scale, inks } = place;
  pen.strokeStyle = inks.ball;
  pen.lineWidth = Math.max(1, Math.min(4, scale * 0.16));
  steps.forEach((moves, age) => {
    pen.globalAlpha = 0.55 * (1 - age / steps.length);
    pen.beginPath();
    for (let index = 0; index < moves.length; index += 2) {
      const x = cellsOf.xOf(moves[index]), y = cellsOf.yOf(moves[index]), u = cellsOf.xOf(moves[index + 1]);
      const v = cellsOf.yOf(moves[index + 1]);
      if (!isCellSeen(place, x, y) && !isCellSeen(place, u, v)) continue;
      pen.moveTo(pixelX(place, x + 0.5), pixelY(place, y + 0.5));
      pen.lineTo(pixelX(place, u + 0.5), pixelY(place, v + 0.5));
    }
    pen.stroke();
  });
  pen.globalAlpha = 1;
}

/** Writes a text on a small plate, so that it is readable on any cell. The plate has a top and a height. */
function paintLabel(place, text, x, y, ink, align, [top, high] = [y - 10, 13]) {
  const { pen, inks } = place, width = pen.measureText(text).width;
  pen.textAlign = align;
  pen.globalAlpha = 0.85;
  pen.fillStyle = inks.plane;
  pen.fillRect(align === "center" ? x - width / 2 - 2 : x - 2, top, width + 4, high);
  pen.globalAlpha = 1;
  pen.fillStyle = ink;
  pen.fillText(text, x, y);
}

// The ports of layouts with their names, and the states of outputs, which are made once.
const namedPortsByLayout = new WeakMap(), outStates = new WeakMap();

/** Returns the names of a layout's ports with their cells. A layout that was changed has to be another object. */
function namedPorts(layout) {
  if (!namedPortsByLayout.has(layout)) namedPortsByLayout.set(layout,
    [...layout.ins.map(({ name, cell }) => ({ name: `→${name}`, cell, isIn: true })),
    ...layout.outs.map(({ name, cell }) => ({ name: `${name}→`, cell, isIn: false }))]);
  return namedPortsByLayout.get(layout);
}

/** Returns for each output whether it is as it should be; undefined if that is not known. */
function outputStates(outs, good) {
  if (!good) return [];
  if (!outStates.has(good)) outStates.set(good, outs.map(({ cell }) => good.get(String(cell))));
  return outStates.get(good);
}

// The places of the names of a layout by squares, as they were last asked for. They move with the picture, and change
// with the scale only.
let placed = { layout: null, scale: 0, squares: new Map() };

// The mirrors of layouts that matter for the names of ports, which are looked for once.
const nearMirrorsByLayout = new WeakMap();

/** Returns the mirrors of a layout that are near a port. */
function mirrorsNearPorts(layout) {
  if (layout.mirrors.length <= MANY_PORTS) return layout.mirrors;
  if (!nearMirrorsByLayout.has(layout)) {
    const filed = new SquareIndex(), near = new Set();
    for (const box of layout.mirrors) filed.addBox(...box);
    for (const { cell: [x, y] } of [...layout.ins, ...layout.outs]) {
      const range = [x - PORT_MARGIN_CELLS, y - PORT_MARGIN_CELLS, x + PORT_MARGIN_CELLS, y + PORT_MARGIN_CELLS];
      filed.visitRange(range, (number) => {
        const [u, v, w, h] = layout.mirrors[number];
        if (u <= x + PORT_MARGIN_CELLS && u + w >= x - PORT_MARGIN_CELLS && v <= y + PORT_MARGIN_CELLS
            && v + h >= y - PORT_MARGIN_CELLS) near.add(layout.mirrors[number]);
      });
    }
    nearMirrorsByLayout.set(layout, [...near]);
  }
  return nearMirrorsByLayout.get(layout);
}

/**
 * Returns the places of the names of ports in pixels from cell (0, 0). There is room for a sign before the name of an
 * output.
 * @param {Port[]} found the ports to name
 * @param {Port[]} others other ports near them
 * @param {(x: number, y: number, w: number, h: number) => boolean} isNear whether a rectangle of cells is near them
 */
function portNamePlaces(place, layout, size, { found, others, isNear }) {
  const side = place.scale;
  const rect = ([x, y], w = 1, h = 1) => ({ x: x * side, y: y * side, width: w * side, height: h * side });
  // The outline of an output is up to three pixels outside its cell.
  const port = (cell) => {
    const { x, y, width, height } = rect(cell);
    return { x: x - 2, y: y - 2, width: width + 4, height: height + 4 };
  };
  const names = found.map(({ name, cell, isIn }) => ({ cell: port(cell), isAbove: isIn, height: size + 3,
    width: place.pen.measureText(isIn ? name : `✓ ${name}`).width + 4 }));
  const signs = [...layout.wastes, ...layout.balls].filter(([x, y]) => isNear(x, y, 1, 1)).map((cell) => rect(cell))
    .concat(mirrorsNearPorts(layout).filter((box) => isNear(...box)).map(([x, y, w, h]) => rect([x, y], w, h)));
  return chooseNamePlaces(names, signs, others.map(({ cell }) => port(cell)));
}

/** Returns the ports that are named in a square, the other ports near it, and what is near it. */
function portsInSquare(ports, [x0, y0, x1, y1]) {
  const found = [], others = [], isNear = (x, y, w, h) => x <= x1 + PORT_MARGIN_CELLS && y <= y1 + PORT_MARGIN_CELLS
    && x + w >= x0 - PORT_MARGIN_CELLS && y + h >= y0 - PORT_MARGIN_CELLS;
  const range = [x0 - PORT_MARGIN_CELLS, y0 - PORT_MARGIN_CELLS, x1 + PORT_MARGIN_CELLS, y1 + PORT_MARGIN_CELLS];
  visitPorts(ports, range, (number, [x, y]) => {
    if (x >= x0 && y >= y0 && x <= x1 && y <= y1) found.push(ports[number]);
    else if (isNear(x, y, 1, 1)) others.push(ports[number]);
  });
  return { found, others, isNear };
}

/**
 * Returns the ports whose names may be seen, each with the place of its name. The names of many ports are placed square
 * by square: to place all of 61,440 would take a second at each scale.
 * @returns {{port: Port, at: NamePlace}[]}
 */
function placedPortNames(place, layout, size) {
  const ports = namedPorts(layout), isWhole = ports.length <= MANY_PORTS;
  const squares = isWhole ? [[]] : squaresInRange(seenRange(place, layout));
  if (placed.layout !== layout || placed.scale !== place.scale) placed = { layout, scale: place.scale,
    squares: new Map() };
  return squares.flatMap((square) => {
    const key = String(square);
    if (!placed.squares.has(key)) {
      const named = isWhole ? { found: ports, others: [], isNear: () => true } : portsInSquare(ports, square);
      const places = portNamePlaces(place, layout, size, named);
      placed.squares.set(key, named.found.map((port, index) => ({ port, at: places[index] })));
    }
    return placed.squares.get(key);
  });
}

/** Draws a line from the place of a name to its cell, if it is away from it. */
function paintLeader(place, { box, away }, cell, ink) {
  if (away === 0) return;
  const { pen } = place, left = pixelX(place, 0), top = pixelY(place, 0), x = (cell[0] + 0.5) * place.scale;
  const y = (cell[1] + 0.5) * place.scale;
  pen.strokeStyle = ink;
  pen.lineWidth = 1;
  pen.beginPath();
  pen.moveTo(left + Math.min(Math.max(x, box.x), box.x + box.width),
    top + Math.min(Math.max(y, box.y), box.y + box.height));
  pen.lineTo(left + x, top + y);
  pen.stroke();
}

/** Returns the colour, the sign and the line of an output, by whether it is as it should be; undefined is not known. */
const outputLook = (inks, state) => (state === undefined ? { ink: inks.ink, sign: "", width: 1.5 }
  : { ink: state ? inks.good : inks.bad, sign: state ? "✓ " : "✗ ", width: 3 });

/**
 * Draws ports with their names, and waste cells. `good` says of out cells whether they are as they should be, at the
 * last time.
 */
function paintPorts(place, layout, good) {
  const { inks, scale } = place, isSmall = scale < 4, states = outputStates(layout.outs, good);
  const range = seenRange(place, layout), ins = [], outs = new Map([[undefined, []], [true, []], [false, []]]);
  visitPorts(layout.ins, range, (_, [x, y]) => { if (isCellSeen(place, x, y)) ins.push(x, y); });
  visitPorts(layout.outs, range,
    (number, [x, y]) => { if (isCellSeen(place, x, y)) outs.get(states[number]).push(x, y); });
  paintCellOutlines(place, ins, inks.ink, [], isSmall ? 0 : 1, isSmall ? scale / 3 : 1.5);
  // Where cells are small, thick outlines would cover each other: only those that differ are thick, and come last.
  for (const [state, found] of outs) {
    const { ink, width } = outputLook(inks, state), isThin = isSmall && state !== false;
    paintCellOutlines(place, found, ink, isSmall ? [] : [4, 3], isSmall ? 0 : -1, isThin ? scale / 3 : width);
  }
  paintCrosses(place, layout.wastes);
  const portCount = layout.ins.length + layout.outs.length;
  if (scale >= (portCount > MANY_PORTS ? MANY_SCALE : NAMED_SCALE)) paintPortNames(place, layout, good);
}

/**
 * Writes the names of ports above the lines to their cells. Where ports are crowded, names show when the reader zooms
 * in.
 */
function paintPortNames(place, layout, good) {
  const { pen, inks, scale } = place, size = Math.max(9, Math.min(14, scale * 0.8)), left = pixelX(place, 0);
  const top = pixelY(place, 0);
  pen.font = `600 ${size}px system-ui, sans-serif`;
  const shown = placedPortNames(place, layout, size)
    .filter(({ port: { cell }, at }) => isCellSeen(place, ...cell) && at.away <= MAX_LINES_AWAY)
    .map(({ port, at }) => ({ ...port, at,
      ...outputLook(inks, port.isIn || !good ? undefined : good.get(String(port.cell))) }));
  for (const { at, cell, ink } of shown) paintLeader(place, at, cell, ink);
  for (const { at: { box }, sign, name, ink } of shown) {
    const bottom = top + box.y + box.height;
    paintLabel(place, sign + name, left + box.x + box.width / 2, bottom - 0.25 * size - 1, ink, "center",
      [bottom - box.height, box.height]);
  }
}

/** Draws a cross in each cell. */
function paintCrosses(place, found, ink = place.inks.soft) {
  const { pen } = place;
  pen.strokeStyle = ink;
  pen.lineWidth = 1.5;
  pen.beginPath();
  for (const [x, y] of found.filter(([u, v]) => isCellSeen(place, u, v))) {
    pen.moveTo(pixelX(place, x + 0.2), pixelY(place, y + 0.2));
    pen.lineTo(pixelX(place, x + 0.8), pixelY(place, y + 0.8));
    pen.moveTo(pixelX(place, x + 0.8), pixelY(place, y + 0.2));
    pen.lineTo(pixelX(place, x + 0.2), pixelY(place, y + 0.8));
  }
  pen.stroke();
}

/** Returns the numbers of the modules whose borders can be seen. */
function seenModuleNumbers(place, found) {
  if (found.length > FEW_MODULES && maxModuleShortSide(found) * place.scale < CLOSE_BORDERS) return [];
  const [x0, y0, x1, y1] = [place.left, place.top, place.left + place.wide / place.scale,
    place.top + place.high / place.scale], numbers = [];
  const least = found.length > FEW_MODULES ? CLOSE_BORDERS / place.scale : 0;
  visitModules(found, [Math.floor(x0), Math.floor(y0), x1, y1], (number, [x, y, w, h]) => {
    if (Math.min(w, h) >= least && x <= x1 && y <= y1 && x + w >= x0 && y + h >= y0) numbers.push(number);
  });
  return numbers.length > MANY_BORDERS ? [] : numbers;
}

/**
 * Draws the borders of modules with their numbers; the chosen one is thick. Where they are very close they are left
 * out.
 */
function paintModules(place, found, chosen) {
  const { pen, inks, scale } = place, shown = seenModuleNumbers(place, found);
  pen.font = "600 11px system-ui, sans-serif";
  pen.strokeStyle = inks.box;
  pen.lineWidth = scale < 2 ? 0.5 : 1;
  pen.setLineDash(scale < 4 ? [] : [6, 4]);
  pen.beginPath();
  for (const number of shown) {
    const [x, y, w, h] = found[number].box;
    pen.rect(pixelX(place, x), pixelY(place, y), w * scale, h * scale);
  }
  pen.stroke();
  pen.setLineDash([]);
  if (chosen !== null && found[chosen]) paintBoxOutline(
    place, found[chosen].box, inks.box, scale < 4 ? [] : [6, 4], 0, 2.5);
  for (const number of shown) {
    const [x, y, w] = found[number].box;
    if (w * scale > 26) paintLabel(place, String(number), pixelX(place, x) + 5, pixelY(place, y) + 14, inks.box,
      "left");
  }
}

/** Draws the cells of lines of the certificate, with a letter for the kind and the wire where there is room. */
function paintCertificateLines(place, found) {
  const { pen, inks, scale } = place, offsets = { edge: 2, halo: 4, stop: 6 };
  if (scale < MIN_CERTIFICATE_LINES_SCALE) return;
  pen.font = "600 10px ui-monospace, monospace";
  for (const { kind, x, y, signal } of found) {
    if (!isCellSeen(place, x, y)) continue;
    paintBoxOutline(place, [x, y, 1, 1], inks[kind], kind === "halo" ? [2, 2] : [], Math.min(offsets[kind], scale / 4),
      kind === "stop" ? 2.5 : 1.5);
    const bottom = pixelY(place, y) + (kind === "edge" ? 11 : scale - 4);
    if (scale >= 22 && kind !== "halo") paintLabel(
      place, `${LINE_LETTERS[kind]} ${signal}`, pixelX(place, x) + 2, bottom, inks[kind], "left");
  }
}

/** Draws a circle about a cell. */
function paintCellCircle(place, [x, y], ink = place.inks.bad) {
  const { pen } = place;
  pen.strokeStyle = ink;
  pen.lineWidth = 3;
  pen.beginPath();
  pen.arc(pixelX(place, x + 0.5), pixelY(place, y + 0.5), Math.max(9, place.scale * 0.85), 0, 2 * Math.PI);
  pen.stroke();
}

/** Marks cells that differ: a cross where only this run has the cell live, an empty square where only the other has. */
function paintDifferences(place, more, less) {
  for (const cell of less) paintBoxOutline(place, [...cell, 1, 1], place.inks.bad, [], 2, 2.5);
  for (const cell of more) paintBoxOutline(place, [...cell, 1, 1], place.inks.bad, [], 0, 2.5);
  paintCrosses(place, more, place.inks.bad);
}

/** Writes a number of a ruler, on a plate if the pointer is there. */
function paintRulerNumber(place, number, x, y, isPointed) {
  const { pen, inks } = place;
  pen.textAlign = "center";
  if (isPointed) {
    pen.fillStyle = inks.box;
    pen.fillRect(x - 14, y - 11, 28, 15);
  }
  pen.fillStyle = isPointed ? inks.paper : inks.soft;
  pen.fillText(String(number), x, y);
}

/** Returns which columns or rows have numbers at a scale, a distance of some pixels apart. */
function rulerStep(scale, distance) {
  let step = 1;
  while (step * scale < distance) step *= 2;
  return step;
}

/** Draws the numbers of the columns above the picture and of the rows at its left, with those of a cell on plates. */
function paintRulers(place, { width, height }, pointed) {
  const { pen, inks, wide, high, scale } = place;
  pen.fillStyle = inks.paper;
  pen.fillRect(0, 0, wide, RULER_SIZE.high);
  pen.fillRect(0, 0, RULER_SIZE.wide, high);
  pen.strokeStyle = inks.border;
  pen.lineWidth = 1;
  pen.beginPath();
  pen.moveTo(0, RULER_SIZE.high + 0.5);
  pen.lineTo(wide, RULER_SIZE.high + 0.5);
  pen.moveTo(RULER_SIZE.wide + 0.5, 0);
  pen.lineTo(RULER_SIZE.wide + 0.5, high);
  pen.stroke();
  pen.font = "11px system-ui, sans-serif";
  const [x0, y0, x1, y1] = seenRange(place, { width, height });
  const numbers = (first, last, size, distance) => {
    const step = rulerStep(scale, distance), found = [];
    for (let number = Math.ceil(Math.max(0, first) / step) * step; number < Math.min(last, size); number += step)
        found.push(number);
    return found;
  };
  const columns = numbers(x0, x1, width, 30), rows = numbers(y0, y1, height, 18);
  const column = (x, isPointed) => { if (pixelX(place, x + 0.5) > RULER_SIZE.wide + 8) paintRulerNumber(
    place, x, pixelX(place, x + 0.5), RULER_SIZE.high - 5, isPointed); };
  const isWhole = (y) => pixelY(place, y + 0.5) > RULER_SIZE.high + 6 && pixelY(place, y + 0.5) < high - 6;
  const row = (y, isPointed) => { if (isWhole(y)) paintRulerNumber(place, y, RULER_SIZE.wide / 2,
    pixelY(place, y + 0.5) + 4, isPointed); };
  // A number that the plate of the pointed cell would cover in part is left out.
  const isFree = (number, at, distance) => at === undefined || Math.abs(number - at) * scale >= distance;
  columns.filter((x) => isFree(x, pointed?.[0], 28)).forEach((x) => column(x, false));
  rows.filter((y) => isFree(y, pointed?.[1], 15)).forEach((y) => row(y, false));
  if (pointed) {
    column(pointed[0], true);
    row(pointed[1], true);
  }
}

/**
 * Draws all that is seen of a layout.
 * @param {Place} place
 * @param {Object} scene layout, modules, live (cells), mirrors (cells), odd, trail (moves by steps), chosen (a module),
 * lines, fault and mark (cells or null), good (a map of out cells or null), pointed (a cell or null); where they are
 * not too large, `ways` draws the ways of the balls, and below that scale `still` draws these and the mirrors from
 * tiles, with what differs from the mirrors over them; `over` draws what stands out
 */
function paintScene(place, shown) {
  const { layout, modules: boxes, live, mirrors, odd, trail, chosen, lines: said, fault, mark, good, pointed } = shown;
  const { ways = null, still = null, cellsUnlikeMirrors = null, over = null } = shown;
  const box = [0, 0, layout.width, layout.height], hasTiles = still !== null && place.scale < TILES_BELOW_SCALE;
  paintBlockGrid(place, box, odd);
  paintBoxOutline(place, box, place.inks.soft, [], 0, 1.5);
  if (hasTiles) still(place);
  else if (ways) ways(place, seenRange(place, layout));
  paintTrails(place, trail, live.numbering);
  if (hasTiles) paintBallsAndHoles(place, cellsUnlikeMirrors(), mirrors);
  else paintLiveCells(place, live, mirrors);
  if (over) over(place);
  paintModules(place, boxes, chosen);
  paintCertificateLines(place, said);
  if (fault) paintCellCircle(place, fault);
  if (mark) paintCellCircle(place, mark, place.inks.box);
  paintPorts(place, layout, good);
  paintRulers(place, layout, pointed);
}

export {
  clearCanvasForPainting, inksNow, paintScene, paintBoxOutline, paintBlockGrid, paintLiveCells, paintPorts,
  paintModules, paintCertificateLines, paintCellCircle, paintDifferences, paintRulers, rulerStep, paintTrails,
  paintMirrors, wireInks, seenRange, RULER_SIZE, MIN_CERTIFICATE_LINES_SCALE,
};
