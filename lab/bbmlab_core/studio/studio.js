/** Connects the page of the studio: tools, keys, pointers and buttons. It comes last, and begins. */
import { Minimap } from "../view/minimap.js";
import { EditedLayout } from "./desk.js";
import { Tools } from "./drawing_tools.js";
import { Files } from "./files.js";
import * as geometry from "./geometry.js";
import * as parts from "./page_parts.js";
import { askInDialog, newButton, elementById, newElement, showNotice } from "./page_parts.js";
import { RouterPanel } from "./router_panel.js";
import { server } from "./server_link.js";
import { SidePanels } from "./side_panels.js";
import { EditorStage } from "./sketch.js";
import { VerdictPanel } from "./verdict_panel.js";

const TOOLS = { select: ["select", "v", "Press a part, or drag a frame. Drag the selection to move it."],
  mirror: ["mirror", "m", "Drag a mirror, or press for one of 4 by 2 cells."],
  ball: ["ball", "b", "Press to put a constant ball."], in: ["in", "i", "Press to put the ball of an input."],
  out: ["out", "o", "Press where the output's ball is at the last time."], waste: ["waste", "w",
    "Press where a left-over ball is at the last time."],
  erase: ["erase", "e", "Press or drag over parts."], cell: ["cell", "c", "Press to put a standard cell."],
  connect: ["connect", "j", "Press an output and then an input: mirrors lead the ball there."],
    hand: ["hand", "h", "Drag to move the picture."] };
const KEYS_TEXT =
  "Letters choose tools. On the picture: arrows move the cursor, Enter uses the tool (twice for a mirror or a frame), "
  + "Alt with arrows moves the selection, Delete removes it, r rotates it, x and y reflect it, Escape ends. "
  + "Shift with arrows moves the picture, + − 0 zoom, space plays, comma and period step. "
  + "Ctrl-Z and Ctrl-Y undo and redo, Ctrl-C, Ctrl-X and Ctrl-V copy, cut and paste, Ctrl-S saves.";
const PAN_STEP = 40;
const canvasElements = { whole: elementById("whole"), wave: elementById("wave"), waveBox: elementById("wave-box"),
  waveRest: elementById("wave-rest"), waveCursor: elementById("wave-cursor") };
const desk = new EditedLayout("circuit\nend\nlayout 48 48 40\nend\n",
  new Worker("studio/survey_worker.js", { type: "module" }));
const sketch = new EditorStage(desk, canvasElements), minimap = new Minimap(sketch, elementById("map"));
const tools = new Tools(desk, sketch, showStatus);
const sidePanels = new SidePanels(desk, sketch, showStatus);
const verdicts = new VerdictPanel(desk, sketch);
const files = new Files(desk, verdicts, showStatus), router = new RouterPanel(desk, showStatus);
const toolButtons = {};

/** Says something below the picture. */
function showStatus(text, isBad = false) {
  elementById("status").textContent = text;
  elementById("status").classList.toggle("bad", isBad);
}

// ---- tools

/** Shows which tool is taken, and its options, and goes to the time at which it puts parts. */
function showChosenTool() {
  for (const [name, found] of Object.entries(toolButtons)) {
    found.setAttribute("aria-pressed", String(name === tools.name));
  }
  const isPort = tools.name === "in" || tools.name === "out";
  const isCells = ["ball", "in", "out", "waste"].includes(tools.name);
  elementById("wire-part").hidden = !isPort;
  elementById("pair-part").hidden = !isCells;
  elementById("cell-part").hidden = elementById("wires-part").hidden = tools.name !== "cell";
  elementById("selection-part").hidden = tools.name !== "select" && tools.name !== "paste";
  placeEndsButton.hidden = tools.name !== "out" && tools.name !== "waste";
  elementById("tool-words").textContent = tools.name === "paste" ? "Press where the copy goes." : TOOLS[tools.name][2];
  canvasElements.whole.dataset.tool = tools.name;
  if (isPort) suggestWire();
  if (tools.name === "out" || tools.name === "waste") desk.player.stopAndSeek(desk.layout.steps);
  else if (["mirror", "ball", "in", "cell"].includes(tools.name) && desk.player.run.time !== 0) desk.player.seek(0);
}

/** Puts a wire into the field that has no port yet. */
function suggestWire() {
  const { circuit, parts } = desk.model, isIn = tools.name === "in", names = isIn ? circuit.inputs : circuit.outputs;
  elementById("wires").replaceChildren(...names.map((name) => Object.assign(newElement("option"), { value: name })));
  const taken = new Set(parts.filter(({ kind }) => kind === tools.name).map(({ name }) => name));
  const free = names.find((name) => !taken.has(name));
  if (free && (taken.has(tools.wire) || !names.includes(tools.wire))) setWire(free);
  else if (isIn && taken.has(tools.wire)) setWire(
    [..."abcdefghijklmnopqrstuvwxyz"].find((name) => !taken.has(name) && !circuit.names.has(name)) || "a");
  else elementById("wire").value = tools.wire;
}

/** Takes another wire for ports. */
function setWire(name) {
  tools.wire = name;
  elementById("wire").value = name;
}

/** Takes a tool. */
function chooseTool(name) {
  if (name === "hand" && toolButtons.hand.getAttribute("aria-pressed") === "true") name = "select";
  tools.chooseTool(name);
  showChosenTool();
}

// ---- time and picture

function showTime() {
  const { run, target } = desk.player, { steps } = desk.layout;
  Object.assign(elementById("slider"), { max: steps, value: target });
  elementById("slider").setAttribute("aria-valuetext", `time ${run.time} of ${steps}`);
  elementById("time").textContent = `${run.time} of ${steps}`;
  sketch.moveWaveCursor();
  sketch.requestPaint();
}

const showPointedCellWords = () => sketch.showCellWords(elementById("cell"), sketch.cursor || sketch.pointed);

/** Shows the desk after a change. */
function showChangedLayout() {
  sketch.showEditedLayout();
  tools.followMovedSelection();
  if (tools.name === "in" || tools.name === "out") suggestWire();
  elementById("hint").hidden = desk.model.parts.length > 0 || !desk.model.header;
  const why = desk.unstable.length ? geometry.instabilityReason(desk.unstable[0].box) : null;
  if (why) showStatus(`The mirror ${desk.unstable[0].box.join(" ")} falls apart: ${why}.`, true);
  else if (!desk.model.header) {
    const range = `W and H are even, 2 to ${desk.model.limits.maxSide}`;
    showStatus(`The line \`layout W H STEPS\` is missing or not allowed: ${range}.${desk.model.limitsLineHint(true)}`,
      true);
  }
  showTime();
}

const actions = {
  undo: () => {
    const label = desk.model.undo();
    if (label) showStatus(`Undid: ${label}.`);
    tools.selectLines([]);
  },
  redo: () => {
    const label = desk.model.redo();
    if (label) showStatus(`Did again: ${label}.`);
    tools.selectLines([]);
  },
  play: () => desk.player.setPlayDirection(desk.player.direction ? 0 : 1),
  step: (count) => desk.player.stopAndSeek(desk.player.run.time + count),
  first: () => desk.player.stopAndSeek(0), last: () => desk.player.stopAndSeek(desk.layout.steps),
  cut: () => {
    tools.copy();
    tools.removeSelection();
  }, paste: () => {
    tools.beginPaste();
    showChosenTool();
  },
};

// ---- keys

const CONTROL_KEY_ACTIONS = { z: actions.undo, y: actions.redo, Z: actions.redo, c: () => tools.copy(), x: actions.cut,
  v: actions.paste, s: () => files.save() };
const ARROW_DIRECTIONS = { ArrowLeft: [-1, 0], ArrowRight: [1, 0], ArrowUp: [0, -1], ArrowDown: [0, 1] };
const PLAIN_KEY_ACTIONS = { Delete: () => tools.removeSelection(), Backspace: () => tools.removeSelection(),
  r: () => tools.rotateOrFlip("rotate"), x: () => tools.rotateOrFlip("flip-x"), y: () => tools.rotateOrFlip("flip-y"),
  Escape: () => {
    tools.cancel();
    tools.selectLines([]);
    sketch.cursor = null;
    chooseTool("select");
  }, Enter: () => useToolAtCursor(), " ": actions.play, ",": () => actions.step(-1),
  ".": () => actions.step(1), Home: actions.first, End: actions.last, "+": () => sketch.zoom(1.25),
    "=": () => sketch.zoom(1.25), "-": () => sketch.zoom(0.8), 0: () => sketch.fitWholeLayout() };
for (const [name, [, key]] of Object.entries(TOOLS)) PLAIN_KEY_ACTIONS[key] = () => chooseTool(name);

/** Moves the keyboard's cursor, the selection or the picture. */
function onArrow(event, [dx, dy]) {
  if (event.altKey) {
    tools.nudgeOnePlace(dx, dy);
    return;
  }
  if (event.shiftKey) {
    sketch.pan(dx * PAN_STEP, dy * PAN_STEP);
    return;
  }
  const { width, height } = desk.layout, [x, y] = sketch.cursor || tools.at || [width >> 1, height >> 1];
  sketch.cursor = [Math.max(0, Math.min(width - 1, x + dx)), Math.max(0, Math.min(height - 1, y + dy))];
  if (tools.pressed) tools.dragTo(sketch.cursor);
  else tools.hover(sketch.cursor);
  showPointedCellWords();
}

/** Uses the tool at the keyboard's cursor. A mirror, a frame and a move end at the second time. */
function useToolAtCursor() {
  if (!sketch.cursor) {
    sketch.cursor = tools.at || [desk.layout.width >> 1, desk.layout.height >> 1];
    sketch.requestPaint();
    return;
  }
  if (tools.pressed) {
    tools.endPress(sketch.cursor);
    showChosenTool();
    return;
  }
  tools.beginPress(sketch.cursor);
  if (!["mirror", "select"].includes(tools.name)) {
    tools.endPress(sketch.cursor);
    showChosenTool();
  }
}

function onKey(event) {
  const { target, key } = event;
  const isField = ["INPUT", "TEXTAREA", "SELECT"].includes(target.tagName) && target.type !== "checkbox";
  const isNumber = target.type === "number";
  if (elementById("dialog").open) return;
  if (event.ctrlKey || event.metaKey) {
    if (!Object.hasOwn(CONTROL_KEY_ACTIONS, key)
        || isField && !(target.id === "circuit" || isNumber ? "szyZ" : "s").includes(key)) return;
    // Words that are marked, as in the report, are for the browser to copy.
    if (key === "c" && target !== canvasElements.whole && !getSelection().isCollapsed) return;
    // A number that is typed and not taken yet is the first thing to undo.
    if (!(isNumber && "zyZ".includes(key) && sidePanels.cancelTyping(target.id))) CONTROL_KEY_ACTIONS[key]();
  } else if (isField) return;
  else if (ARROW_DIRECTIONS[key] && target === canvasElements.whole) onArrow(event, ARROW_DIRECTIONS[key]);
  else if (Object.hasOwn(PLAIN_KEY_ACTIONS, key) && !(target.tagName === "BUTTON" && " Enter".includes(key))
    && !(key === "Enter" && target !== canvasElements.whole)) PLAIN_KEY_ACTIONS[key]();
  else return;
  event.preventDefault();
}

// ---- pointers

const isPanEvent = (event) => tools.name === "hand" || event.buttons & 6;

/** Draws with one finger or the mouse; moves and zooms the picture with two or with the hand. */
function onPointerMove(event) {
  const cell = sketch.cellAt(event.offsetX, event.offsetY), from = sketch.moveFinger(event);
  sketch.pointed = cell;
  if (!from) tools.hover(cell);
  else if (sketch.fingers.size === 2) return;
  else if (isPanEvent(event)) sketch.pan(from[0] - event.offsetX, from[1] - event.offsetY);
  else tools.dragTo(cell);
}

/**
 * Draws with one finger or the mouse, and moves and zooms the picture with two, with the hand, or with another button
 * of the mouse.
 */
function listenToPointers(canvas) {
  canvas.addEventListener("pointerdown", (event) => {
    sketch.notePressedFinger(event);
    sketch.cursor = null;
    if (sketch.fingers.size > 1) tools.cancel();
    else if (!isPanEvent(event)) tools.beginPress(sketch.cellAt(event.offsetX, event.offsetY), event.shiftKey);
  });
  canvas.addEventListener("pointermove", onPointerMove);
  canvas.addEventListener("pointerup", (event) => {
    sketch.fingers.delete(event.pointerId);
    tools.endPress(sketch.cellAt(event.offsetX, event.offsetY));
    showChosenTool();
  });
  canvas.addEventListener("pointercancel", (event) => {
    sketch.fingers.delete(event.pointerId);
    tools.cancel();
  });
  canvas.addEventListener("pointerleave", () => {
    sketch.pointed = null;
    tools.hover(null);
  });
  canvas.addEventListener("contextmenu", (event) => event.preventDefault());
}

/** Sets what the buttons and fields do. */
function listenToButtons() {
  const clicks = { undo: actions.undo, redo: actions.redo, play: actions.play, back: () => actions.step(-1),
    next: () => actions.step(1), first: actions.first,
    last: actions.last, fit: () => sketch.fitWholeLayout(), in: () => sketch.zoom(1.25), out: () => sketch.zoom(0.8),
      rotate: () => tools.rotateOrFlip("rotate"),
    "flip-x": () => tools.rotateOrFlip("flip-x"), "flip-y": () => tools.rotateOrFlip("flip-y"),
      copy: () => tools.copy(), paste: actions.paste, delete: () => tools.removeSelection() };
  for (const [id, action] of Object.entries(clicks)) elementById(id).addEventListener("click", action);
  for (const [name, [title, key]] of Object.entries(TOOLS)) {
    toolButtons[name] = newButton(title, () => chooseTool(name));
    toolButtons[name].title = `${title} (${key})`;
    toolButtons[name].id = `tool-${name}`;
    elementById("palette").append(toolButtons[name]);
  }
  elementById("slider").addEventListener("input", (event) => desk.player.stopAndSeek(Number(event.target.value)));
  elementById("wire").addEventListener("input", (event) => { tools.wire = event.target.value.trim(); });
  elementById("pair").addEventListener("change", (event) => { tools.isPair = event.target.checked; });
  elementById("with-wires").addEventListener("change", (event) => { tools.hasWires = event.target.checked; });
  elementById("skip").addEventListener("click", (event) => {
    event.preventDefault();
    elementById("badge").click();
  });
  elementById("hint-cell").addEventListener("click", () => {
    chooseTool("cell");
    elementById("cell-name").focus();
  });
  elementById("hint-circuit").addEventListener("click", () => {
    elementById("gates").open = true;
    elementById("circuit").focus();
  });
  elementById("keys").textContent = KEYS_TEXT;
}

const placeEndsButton = newButton("put outputs and waste where the balls end", () => tools.placeOutsAndWastes());
placeEndsButton.id = "ends";

/** Sets what follows from changes of the desk and the window. */
function listenToChanges() {
  desk.listen("change", showChangedLayout);
  desk.listen("time", showTime);
  desk.listen("end", () => sketch.updateOutputStates());
  desk.listen("ways", () => sketch.showChangedWays());
  desk.listen("play", () => { elementById("play").textContent = desk.player.direction ? "■ stop" : "play ▶"; });
  sketch.onPaint = showPointedCellWords;
  sketch.onPainted = () => minimap.paintMinimap();
  tools.onTool = showChosenTool;
  tools.askLarger = (words, size) => askInDialog("The cell is larger than the layout", [newElement("p", words)],
    [[`make the layout ${size.join(" by ")}`, () => true], ["cancel", () => null]]);
  tools.onConnect = (output, input) => router.connect(output, input);
  verdicts.onInputs = () => sidePanels.showInputs();
  elementById("wave-part").addEventListener("toggle", () => desk.setWaveformShown(elementById("wave-part").open));
  const { wave } = canvasElements;
  const seek = (event) => { if (event.buttons & 1) desk.player.seek(sketch.timeAt(event.offsetX)); };
  for (const name of ["pointerdown", "pointermove"]) wave.addEventListener(name, seek);
  sketch.listenToWheelAndWindow(() => sidePanels.showLegend());
  document.addEventListener("keydown", onKey);
}

/** Asks the server for the file, the templates and the standard cells. */
async function loadPage() {
  const start = await server.request("start");
  if (start.error) {
    showNotice(start.error);
    return;
  }
  verdicts.program = start.program;
  files.folder = start.folder;
  files.templates = start.templates;
  files.examples = start.examples;
  if (!start.program.path) showNotice(`There are no verdicts: the program was not found (${start.program.why}).`);
  files.switchToFile(start);
  sketch.fitWholeLayout();
  await loadStandardCells();
}

/** Asks the server for the standard cells. */
async function loadStandardCells() {
  const { cells = [] } = await server.request("cells"), list = elementById("cell-name");
  list.replaceChildren(...cells.map(({ name }) => Object.assign(newElement("option", name), { value: name })));
  const take = () => { tools.cell = cells.find(({ name }) => name === list.value) || null; };
  list.addEventListener("change", take);
  take();
}

listenToButtons();
elementById("choices-of-tool").append(placeEndsButton);
listenToPointers(canvasElements.whole);
listenToChanges();
chooseTool("mirror");
loadPage();
// What the tests and the console may look at.
globalThis.bbmlab = { parts, server, studio: { desk, sketch, tools, verdicts, files, router } };
