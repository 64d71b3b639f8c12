/** Connects the page: keys, pointers, buttons, the address and downloads. It comes last, and begins. */
import * as address from "./address.js";
import { Minimap } from "./minimap.js";
import * as panels from "./panels.js";
import { Player } from "./player.js";
import { countWithNoun, Stage } from "./stage.js";

const { elementById } = panels;
const pageData = JSON.parse(elementById("data").textContent);
const player = new Player(pageData), { layout } = player;
const stageElements = Object.fromEntries(
  Object.entries({ whole: "whole", own: "own", note: "beside-note", wave: "wave", waveBox: "wave-box",
  waveRest: "wave-rest", waveCursor: "wave-cursor" }).map(([name, id]) => [name, elementById(id)]));
const stage = new Stage(player, stageElements), minimap = new Minimap(stage, elementById("map"));
const reportEntries = pageData.explanation ? pageData.explanation.entries : [];
const addressLimits = { steps: layout.steps, names: player.names, faults: reportEntries.length };
// The buttons of the report, which of them is shown, and timers.
const reportAndPointer = { buttons: [], entry: null, addressTimer: 0, speechTimer: 0, place: null };
// How long the page waits after a change before it is spoken, and before it is written to the address, in milliseconds.
const SPEECH_DELAY = 600, ADDRESS_DELAY = 250, PAN_STEP = 40;
// Larger layouts show the ways at first: their cells are too small to be seen.
const LARGE_LAYOUT_SIDE = 512, MAX_TIMES = 6;

/** Says the state to who can't see it: when it has been still for a while, and not while it plays. */
function speakSoon() {
  clearTimeout(reportAndPointer.speechTimer);
  if (player.direction !== 0) return;
  reportAndPointer.speechTimer = setTimeout(() => {
    const words = [`Time ${player.run.time} of ${layout.steps}.`, elementById("status").textContent,
      panels.outputSummary(player)];
    if (player.own) words.push(elementById("beside-title").textContent, stage.differenceWords());
    elementById("spoken").textContent = words.join(" ");
  }, SPEECH_DELAY);
}

/** Returns what differs from the page as it is opened. */
function addressState() {
  const on = player.names.filter((name) => player.on.has(name));
  const isFirst = on.length === player.first.length && player.first.every((name) => player.on.has(name));
  const { entry } = reportAndPointer, { time } = player.run;
  return { time: time > 0 || entry !== null ? time : undefined, on: isFirst && entry === null ? undefined : on,
    zoom: stage.isFit ? undefined : stage.scaleAndCentre(), fault: entry === null ? undefined
      : entry + 1, trails: stage.hasTrails ? undefined : false };
}

/** Writes the state to the address when it has been still for a while: browsers refuse to do it often. */
function writeAddressSoon() {
  clearTimeout(reportAndPointer.addressTimer);
  if (player.direction !== 0) return;
  reportAndPointer.addressTimer = setTimeout(() => {
    const text = address.addressFragment(addressState()), [page] = location.href.split("#");
    // A page that a frame shows may have no address of its own.
    try { history.replaceState(null, "", text ? `${page}#${text}` : page); } catch { return; }
  }, ADDRESS_DELAY);
}

/** Shows the state that the address says, and the first state for what it does not say. */
function applyAddress() {
  const { time, on, zoom, fault, trails = true } = address.readAddress(location.hash, addressLimits);
  const names = new Set(on || player.first);
  setTrailsShown(trails);
  // A line of the report brings inputs, a time and a place, which the address may then say otherwise.
  if (fault === undefined) closeReportEntry();
  else showReportEntry(fault - 1);
  if (fault === undefined
      || on) player.setInputs(Object.fromEntries(player.names.map((name) => [name, names.has(name)])));
  player.restart(time ?? (fault === undefined ? 0 : player.target));
  if (zoom) {
    stage.centreOn(zoom[1], zoom[2], zoom[0]);
    stage.isFit = false;
  } else if (fault === undefined) stage.fitWholeLayout();
}

/** Shows the time, and whether a ball leaves. */
function showTime() {
  const { time, leftAt } = player.run, slider = elementById("slider");
  slider.value = player.target;
  slider.setAttribute("aria-valuetext", `time ${player.target} of ${layout.steps}`);
  elementById("time").textContent = `${time} of ${layout.steps}`;
  const next = time === layout.steps ? "The last time." : `Next come the ${time % 2 ? "odd" : "even"} blocks.`;
  elementById("status").textContent = leftAt === null ? next
    : `Step ${leftAt} makes a cell outside the rectangle live: the run ends before it.`;
}

/** Shows what the buttons to play do now. */
function showPlayButtons() {
  for (const [id, direction, text] of [["play", 1, "play ▶"], ["reverse", -1, "◀ reverse"]]) {
    elementById(id).textContent = player.direction === direction ? "■ stop" : text;
  }
}

/** Shows the cell under the pointer with what there is. */
function showPointedCellWords() {
  stage.pointed = reportAndPointer.place ? stage.cellAt(...reportAndPointer.place) : stage.mark;
  stage.showCellWords(elementById("cell"), stage.pointed);
}

/** Lets the wire under the pointer stand out, or none while the picture moves. */
function highlightPointedWire(isMoving) {
  const { place } = reportAndPointer, isShown = place && !isMoving && stage.cellAt(...place);
  const found = isShown ? stage.wireAt(...place) : null;
  stage.pointedWire = found && found.wire;
  showWireWords(found);
}

/** Says what is known of the wire under the pointer, or else of the one that was looked for. */
function showWireWords(found) {
  const wire = found ? found.wire : stage.wire, words = elementById("wire-words");
  const when = found ? `; here at time ${found.times.slice(0, MAX_TIMES).join(", ")}` : "";
  words.textContent = wire ? `${stage.wires.wireWords(wire)}${when}.` : "";
}

/** Shows all ways of the wire whose name was typed, or says that there is none. */
function showTypedWire() {
  const name = elementById("find-wire-name").value.trim(), wire = stage.wires.byName.get(name);
  reportAndPointer.place = null;
  highlightPointedWire(false);
  if (name === "") {
    stage.showWire(null);
    showWireWords(null);
    return;
  }
  if (!wire) {
    stage.showWire(null);
    elementById("wire-words").textContent = `No ball flies for a wire \u201c${name}\u201d.`;
    return;
  }
  stage.showWire(wire);
  showWireWords(null);
  writeAddressSoon();
}

/** Goes to a cell, and marks it. */
function goToCell(x, y) {
  if (x >= layout.width || y >= layout.height) return;
  stage.mark = [x, y];
  reportAndPointer.place = null;
  stage.lookAt([x + 0.5, y + 0.5], null);
  showPointedCellWords();
  if (innerWidth <= 800) elementById("whole").scrollIntoView({ block: "nearest" });
}

/** Returns all stops of a wire in order of time. */
const stopsOfWire = (wire) => player.modules.flatMap((module, number) => module.stops.filter((stop) => stop[1] === wire)
  .map(([time, , x, y]) => ({ time, cell: [x, y], module: number }))).sort((a, b) => a.time - b.time);

/** Returns the stop that a line `delay` or `meet` speaks of, if there is one. */
function stopOfReportLine(facts) {
  if (facts.last_stops) {
    const late = Object.entries(facts.last_stops).sort((a, b) => b[1] - a[1])[0];
    return late && stopsOfWire(late[0]).at(-1);
  }
  const gate = pageData.circuit && facts.gate !== undefined && pageData.circuit.gates[facts.gate];
  return gate ? stopsOfWire(gate.outs[0])[0] || (gate.ins[0] && stopsOfWire(gate.ins[0]).at(-1)) : undefined;
}

/** Opens the run of a module by itself. */
function openModuleRun(number, values) {
  player.openModuleRun(number, values);
  const words = Object.entries(values).map(([name, value]) => `${name}=${value}`).join(" ") || "no cuts";
  elementById("beside-title").textContent = `Module ${number} by itself with ${words}.`;
  elementById("beside").hidden = false;
}

/** Closes the run of a module by itself. */
function closeModuleRun() {
  player.own = null;
  elementById("beside").hidden = true;
  if (stage.isFit) stage.fitWholeLayout();
  else stage.requestPaint();
}

/** Notes which line of the report is shown: its button is pressed. */
function markReportEntry(number) {
  reportAndPointer.entry = number;
  reportAndPointer.buttons.forEach((button, index) => button.setAttribute("aria-pressed", String(index === number)));
}

/** Shows no line of the report. */
function closeReportEntry() {
  markReportEntry(null);
  stage.fault = null;
  stage.module = null;
  stage.mark = null;
  closeModuleRun();
}

/** Goes to the module, time, assignment and cell of a line of the report. */
function showReportEntry(number) {
  const { facts } = reportEntries[number], stop = facts.cell || facts.assignment ? undefined : stopOfReportLine(facts);
  markReportEntry(number);
  player.setPlayDirection(0);
  stage.fault = facts.cell || (stop ? stop.cell : null);
  stage.mark = null;
  stage.module = facts.module !== undefined ? facts.module : stop ? stop.module : null;
  if (facts.inputs) player.setInputs(facts.inputs);
  if (facts.assignment && facts.module !== undefined) openModuleRun(facts.module, facts.assignment);
  else closeModuleRun();
  player.restart(facts.time !== undefined ? facts.time : stop ? stop.time : player.target);
  const box = stage.module === null ? null : player.modules[stage.module].box;
  const centre = stage.fault ? stage.fault.map((part) => part + 0.5)
    : box ? [box[0] + box[2] / 2, box[1] + box[3] / 2] : null;
  if (centre) stage.lookAt(centre, box);
}

/** Goes to the next (1) or previous (-1) line of the report that is against the design. */
function goToNextFault(direction) {
  const faults = reportEntries.flatMap((entry, number) => (entry.is_against ? [number] : []));
  if (faults.length === 0) return;
  const at = faults.indexOf(reportAndPointer.entry);
  const number = faults[at < 0 ? (direction > 0 ? 0 : faults.length - 1)
    : (at + direction + faults.length) % faults.length];
  showReportEntry(number);
  reportAndPointer.buttons[number].scrollIntoView({ block: "nearest" });
  if (innerWidth <= 800) elementById("whole").scrollIntoView({ block: "nearest" });
}

/** Shows or hides the trails. */
function setTrailsShown(isOn) {
  stage.hasTrails = isOn;
  elementById("trails").checked = isOn;
  stage.requestPaint();
  writeAddressSoon();
}

/** Shows or hides the ways. */
function setWaysShown(isOn) {
  elementById("ways").checked = isOn;
  stage.setWaysShown(isOn);
}

/** Prepares what shows the ways, if the page has them. */
function setUpWays() {
  const { names, list } = stage.wires;
  for (const id of ["ways-part", "find-wire", "wire-words"]) elementById(id).hidden = list.length === 0;
  // The first picture does not wait for 61,440 names.
  elementById("find-wire-name").addEventListener("focus", () => elementById("wire-names").replaceChildren(...names.map(
    (name) => Object.assign(document.createElement("option"), { value: name }))), { once: true });
  if (list.length > 0) setWaysShown(Math.max(layout.width, layout.height) > LARGE_LAYOUT_SIDE);
  elementById("ways").addEventListener("change", (event) => setWaysShown(event.target.checked));
  elementById("find-wire").addEventListener("submit", (event) => {
    event.preventDefault();
    showTypedWire();
  });
  if (stage.wires.sampled) elementById("ways-part").title += `, ${stage.wires.sampled}`;
}

/** Makes one step. */
const makeStep = (direction) => player.stopAndSeek(player.target + direction);

/** Plays in a direction, or stops if it plays so already. */
const togglePlay = (direction) => player.setPlayDirection(player.direction === direction ? 0 : direction);

/** Writes a file to the reader's disk. */
function saveFile(file, kind) {
  const found = document.createElement("a");
  found.href = URL.createObjectURL(file);
  found.download =
    `${document.title.replace(/\.[a-z]+$/, "").replace(/[^\w.-]+/g, "_") || "layout"}_${player.run.time}.${kind}`;
  found.click();
  setTimeout(() => URL.revokeObjectURL(found.href), 10000);
}

const PAN_KEYS = { ArrowLeft: [-PAN_STEP, 0], ArrowRight: [PAN_STEP, 0], ArrowUp: [0, -PAN_STEP],
  ArrowDown: [0, PAN_STEP] };
const KEY_ACTIONS = {
  " ": () => player.setPlayDirection(player.direction ? 0 : 1), b: () => togglePlay(-1), ArrowRight: () => makeStep(1),
    ArrowLeft: () => makeStep(-1),
  Home: () => player.seek(0), End: () => player.seek(layout.steps), 0: () => stage.fitWholeLayout(),
  "+": () => stage.zoom(1.25),
    "=": () => stage.zoom(1.25),
  "-": () => stage.zoom(0.8), n: () => goToNextFault(1), p: () => goToNextFault(-1),
  t: () => setTrailsShown(!stage.hasTrails), w: () => { if (stage.wires.list.length) setWaysShown(!stage.hasWays); },
};

/** Whether the element that has the focus uses a key itself. */
function isKeyUsedByElement(target, key) {
  if (target.type === "text") return true;
  if (target.type === "range") return !" bnptw".includes(key);
  return ["INPUT", "BUTTON", "SUMMARY"].includes(target.tagName) && key === " ";
}

/** Does what a key asks. */
function onKey(event) {
  if (event.ctrlKey || event.metaKey || event.altKey || isKeyUsedByElement(event.target, event.key)) return;
  if (event.shiftKey && PAN_KEYS[event.key]) stage.pan(...PAN_KEYS[event.key]);
  else if (Object.hasOwn(KEY_ACTIONS, event.key)) KEY_ACTIONS[event.key]();
  else return;
  event.preventDefault();
}

/**
 * Moves and zooms by mouse and fingers. On a phone one finger scrolls the page up and down (touch-action); two move and
 * zoom.
 */
function listenToFingers(canvas) {
  canvas.addEventListener("pointerdown", (event) => stage.notePressedFinger(event));
  for (const name of ["pointerup", "pointercancel"]) canvas.addEventListener(name,
      (event) => stage.fingers.delete(event.pointerId));
  canvas.addEventListener("pointermove", (event) => {
    const from = stage.moveFinger(event);
    if (from && stage.fingers.size === 1) stage.pan(from[0] - event.offsetX, from[1] - event.offsetY);
  });
  canvas.addEventListener("touchmove", (event) => { if (event.touches.length > 1) event.preventDefault(); },
    { passive: false });
}

/** Shows the cell under the pointer, and goes to a time where the waveform is pressed. */
function listenToPointers() {
  const { whole, wave } = stageElements;
  const point = (event) => {
    reportAndPointer.place = [event.offsetX, event.offsetY];
    highlightPointedWire(event.buttons !== 0);
    showPointedCellWords();
    stage.requestPaint();
  };
  whole.addEventListener("pointermove", point);
  whole.addEventListener("pointerdown", point);
  whole.addEventListener("pointerleave", (event) => {
    if (event.pointerType !== "mouse") return;
    reportAndPointer.place = null;
    highlightPointedWire(false);
    stage.requestPaint();
  });
  const seek = (event) => { if (event.buttons & 1) player.stopAndSeek(stage.timeAt(event.offsetX)); };
  wave.addEventListener("pointerdown", seek);
  wave.addEventListener("pointermove", seek);
  stageElements.waveBox.addEventListener("scroll", () => stage.paintWave());
  listenToFingers(whole);
}

/** Sets what the buttons and fields do. */
function listenToButtons() {
  const clicks = { play: () => togglePlay(1), reverse: () => togglePlay(-1), back: KEY_ACTIONS.ArrowLeft,
    next: KEY_ACTIONS.ArrowRight, first: KEY_ACTIONS.Home,
    last: KEY_ACTIONS.End, fit: () => stage.fitWholeLayout(), in: () => stage.zoom(1.25), out: () => stage.zoom(0.8),
      "close-own": closeModuleRun,
    "previous-fault": () => goToNextFault(-1), "next-fault": () => goToNextFault(1),
      png: () => stage.makePng((file) => saveFile(file, "png")),
    svg: () => saveFile(new Blob([stage.svgText(`${document.title}, time ${player.run.time}`)],
      { type: "image/svg+xml" }), "svg") };
  for (const [id, action] of Object.entries(clicks)) elementById(id).addEventListener("click", () => {
    action();
    writeAddressSoon();
  });
  elementById("slider").max = layout.steps;
  elementById("slider").addEventListener("input", (event) => player.seek(Number(event.target.value)));
  elementById("speed").addEventListener("input", applySpeedSlider);
  elementById("trails").addEventListener("change", (event) => setTrailsShown(event.target.checked));
  elementById("skip").addEventListener("click", (event) => {
    event.preventDefault();
    elementById("report-box").focus();
    elementById("report-box").scrollIntoView();
  });
  elementById("go-to").addEventListener("submit", (event) => {
    event.preventDefault();
    const [x, y] = (elementById("go-to-cell").value.match(/\d+/g) || []).map(Number);
    if (y !== undefined) goToCell(x, y);
  });
}

/** Sets how many steps a second are made by the slider, and shows it. */
function applySpeedSlider() {
  player.rate = 2 ** Number(elementById("speed").value);
  elementById("rate").textContent = `${countWithNoun(player.rate, "step", "steps")}/s`;
}

/** Sets what follows from changes of the player, the window and the address. */
function listenToChanges() {
  player.listen("time", () => {
    showTime();
    panels.showCertificateLinesNow(player, stage.module);
    stage.moveWaveCursor();
    stage.requestPaint();
    speakSoon();
    writeAddressSoon();
  });
  player.listen("progress", () => {
    panels.showOutputs(player, goToCell);
    stage.good = null;
    stage.paintWave();
  });
  player.listen("end", () => {
    panels.showOutputs(player, goToCell);
    showTime();
    stage.updateOutputStates();
    speakSoon();
  });
  player.listen("play", () => {
    showPlayButtons();
    speakSoon();
    writeAddressSoon();
  });
  stage.onMove = () => {
    highlightPointedWire(true);
    writeAddressSoon();
  };
  stage.onPaint = showPointedCellWords;
  stage.onPainted = () => minimap.paintMinimap();
  stage.listenToWheelAndWindow();
  addEventListener("hashchange", applyAddress);
  document.addEventListener("keydown", onKey);
}

panels.fillInputSwitches(player);
panels.showPictureLegend(player.modules.length > 0);
elementById("wave-part").hidden = player.probes.length === 0;
setUpWays();
listenToPointers();
listenToButtons();
listenToChanges();
applySpeedSlider();
showPlayButtons();
if (panels.showVerdict(pageData.explanation, player.modules.length > 0))
    reportAndPointer.buttons = panels.showReport(pageData.explanation, (number) => {
      showReportEntry(number);
      if (innerWidth <= 800) elementById("whole").scrollIntoView({ block: "nearest" });
    }, goToCell);
applyAddress();
