/**
 * Records when the cells of ports and stops are live, and draws it: a row for each wire and cell.
 *
 * @typedef {{time: number, kind: string}} Mark the time at which the cell has to be live if and only if the wire is
 * true
 * @typedef {{wire: string, cell: Cell, key: number, marks: Mark[]}} Probe `key` is the number of the cell
 */
import { CellNumbering } from "./automaton.js";

const ROW_HEIGHT = 20, AXIS_HEIGHT = 18, MAX_NAMES = 260;

/**
 * Returns the cells to watch, in the order of the circuit's wires, and of one wire in the order of time.
 * @type {(data: Data) => Probe[]}
 */
function waveformProbes(data) {
  const { layout, circuit, certificate } = data, numbering = new CellNumbering(layout), found = new Map();
  const file = (wire, cell, time, kind) => {
    const key = numbering.keyOf(...cell), id = `${wire} ${key}`;
    if (!found.has(id)) found.set(id, { wire, cell, key, marks: [] });
    const { marks } = found.get(id);
    if (!marks.some((mark) => mark.time === time && mark.kind === kind)) marks.push({ time, kind });
  };
  for (const port of layout.ins) file(port.name, port.cell, 0, "in");
  for (const module of certificate ? certificate.modules : []) for (const [time, wire, x, y] of module.stops)
      file(wire, [x, y], time, "stop");
  for (const port of layout.outs) file(port.name, port.cell, layout.steps, "out");
  const wires = circuit ? [...circuit.inputs, ...circuit.gates.flatMap((gate) => gate.outs)] : [];
  const places = new Map([...wires, ...[...found.values()].map((probe) => probe.wire)].reverse().map(
    (wire, index) => [wire, -index]));
  for (const probe of found.values()) probe.marks.sort((one, other) => one.time - other.time);
  return [...found.values()].sort(
    (one, other) => places.get(one.wire) - places.get(other.wire) || one.marks[0].time - other.marks[0].time
    || one.key - other.key);
}

/** Returns how many of some rising times are at most a time. */
function countTimesUntil(times, time) {
  let least = 0, most = times.length;
  while (least < most) {
    const middle = (least + most) >> 1;
    if (times[middle] <= time) least = middle + 1;
    else most = middle;
  }
  return least;
}

/** Which probes' cells changed at which times. */
class SignalRecorder {
  watched;
  signals;
  until;

  /** @param {Probe[]} probes @param {WholeRun} run a run at time 0 */
  constructor(probes, run) {
    // Whether a cell is watched, or null if none is; and the signals by their cells.
    this.watched = probes.length ? new Uint8Array(run.live.bytes.length) : null;
    this.signals = new Map();
    for (const { key } of probes) {
      if (this.watched[key] === 1) continue;
      this.watched[key] = 1;
      this.signals.set(key, { isLive: run.live.has(key), changes: [] });
    }
    this.until = 0;
  }

  /** Notes the step that a run has just made. */
  noteStep(run) {
    this.until = run.time;
    if (this.watched === null) return;
    for (const key of run.recent[1]) if (this.watched[key] === 1) this.signals.get(key).changes.push(run.time);
  }

  /** Returns what was noted of a cell: whether it is live at the start, and the times at which it changes. */
  signalOf(key) { return this.signals.get(key); }

  /** Whether a cell is live at a time, or undefined if the run did not come so far. */
  isLive(key, time) {
    if (time > this.until) return undefined;
    const { isLive, changes } = this.signalOf(key);
    return (countTimesUntil(changes, time) % 2 === 1) !== isLive;
  }
}

/** Returns the intervals in which a cell is live, the end not included. */
function liveSpans({ isLive, changes }, until) {
  const edges = isLive ? [0, ...changes] : changes, spans = [];
  for (let index = 0; index < edges.length; index += 2) spans.push([edges[index], edges[index + 1] ?? until + 1]);
  return spans;
}

/**
 * Returns where the time axis lies.
 * @type {(place: Object, probes: Probe[], steps: number) => {left: number, unit: number}}
 */
function axisGeometry(place, probes, steps) {
  place.pen.font = "12px ui-monospace, monospace";
  const widest = probes.slice(0, 400).reduce((most, probe) =>
    Math.max(most, place.pen.measureText(rowName(probe)).width), 0);
  const left = Math.min(MAX_NAMES, place.wide * 0.42, Math.ceil(widest) + 14);
  return { left, unit: Math.max(0.0001, place.wide - left - 10) / (steps + 1) };
}

/** Writes what a row is of. */
const rowName = ({ wire, cell, marks }) =>
  `${wire} ${[...new Set(marks.map((mark) => mark.kind))].join("/")} (${cell.join(", ")})`;

/** Draws the times below the rows. */
function paintAxis(place, { left, unit }, steps) {
  const { pen, inks, wide, high } = place, least = 46 / unit;
  let step = 1;
  while (step < least) step *= String(step).startsWith("2") ? 2.5 : 2;
  pen.fillStyle = inks.paper;
  pen.fillRect(0, high - AXIS_HEIGHT, wide, AXIS_HEIGHT);
  pen.fillStyle = inks.soft;
  pen.font = "11px system-ui, sans-serif";
  pen.textAlign = "center";
  for (let time = 0; time <= steps; time += step) pen.fillText(String(time), left + (time + 0.5) * unit, high - 5);
  pen.textAlign = "left";
  pen.fillText("time", 6, high - 5);
}

/** Draws when a cell is live. Spans that are nearer than a pixel become one. */
function paintLiveSpans(place, spans, { left, unit }, top) {
  const { pen, inks } = place, low = top + ROW_HEIGHT - 5;
  let last = null;
  const bars = [];
  for (const [start, end] of spans) {
    const x = left + start * unit, wide = Math.max(1.5, (end - start) * unit);
    if (last && x - last[0] - last[1] < 0.75) last[1] = x + wide - last[0];
    else bars.push(last = [x, wide]);
  }
  pen.fillStyle = inks.border;
  pen.fillRect(left, low, place.wide - left - 10, 1);
  pen.fillStyle = inks.wave;
  for (const [x, wide] of bars) pen.fillRect(x, top + 3, wide, ROW_HEIGHT - 8);
}

/**
 * Draws a mark on the line below the bars, where it hides none: a disc if the cell is as its wire at that time, a cross
 * if it is not, a ring if that is not known.
 */
function paintMark(place, x, y, isGood) {
  const { pen, inks } = place;
  pen.strokeStyle = isGood === undefined ? inks.ink : isGood ? inks.good : inks.bad;
  pen.fillStyle = isGood ? inks.good : inks.paper;
  pen.lineWidth = isGood === false ? 2.5 : 1.5;
  pen.beginPath();
  if (isGood === false) {
    pen.moveTo(x - 4, y - 4);
    pen.lineTo(x + 4, y + 4);
    pen.moveTo(x + 4, y - 4);
    pen.lineTo(x - 4, y + 4);
  }
  else {
    pen.arc(x, y, 3, 0, 2 * Math.PI);
    pen.fill();
  }
  pen.stroke();
}

/**
 * Draws the rows that can be seen.
 * @param {Object} place a place of `painting`
 * @param {{probes: Probe[], recorder: SignalRecorder, steps: number, values: ?Map<string, boolean>,
 *   scrolled: number}} wave
 */
function paintRows(place, { probes, recorder, steps, values, scrolled }) {
  const axis = axisGeometry(place, probes, steps), first = Math.max(0, Math.floor(scrolled / ROW_HEIGHT));
  const last = Math.min(probes.length, Math.ceil((scrolled + place.high) / ROW_HEIGHT));
  for (let row = first; row < last; row += 1) {
    const probe = probes[row], top = row * ROW_HEIGHT - scrolled, wanted = values ? values.get(probe.wire) : undefined;
    paintLiveSpans(place, liveSpans(recorder.signalOf(probe.key), recorder.until), axis, top);
    for (const { time } of probe.marks) {
      const isLive = recorder.isLive(probe.key, time);
      const isGood = isLive === undefined || wanted === undefined ? undefined : isLive === wanted;
      paintMark(place, axis.left + (time + 0.5) * axis.unit, top + ROW_HEIGHT - 5, isGood);
    }
    place.pen.fillStyle = place.inks.paper;
    place.pen.fillRect(0, top, axis.left - 4, ROW_HEIGHT);
    place.pen.fillStyle = place.inks.ink;
    place.pen.font = "12px ui-monospace, monospace";
    place.pen.textAlign = "left";
    place.pen.fillText(rowName(probe), 6, top + ROW_HEIGHT - 6, axis.left - 12);
  }
  paintAxis(place, axis, steps);
  return axis;
}

/** Returns the height of all rows with the axis, in pixels. */
const waveformHeight = (probes) => probes.length * ROW_HEIGHT + AXIS_HEIGHT;

export { waveformProbes, SignalRecorder, liveSpans, paintRows, waveformHeight };
