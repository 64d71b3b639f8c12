/** Holds the inputs, the time and the runs of a layout, and says when they change. It knows nothing of the page. */
import { circuitValues, ModuleRun, movesOfLastStep, WholeRun } from "./automaton.js";
import * as waveform from "./waveform.js";

// How long the runs may take before the page gets its turn, in milliseconds. `slice` of a player sets another time for
// the run to the end.
const AHEAD_SLICE_MILLISECONDS = 25, SEEK_SLICE = 40;
// The moves of so many steps before the time to which a run goes are noted on the way: their trail needs no other run
// then.
const NOTED_MOVE_STEPS = 32;

/** Adds a line to those of a time. */
function addLineAtTime(found, time, line) {
  if (!found.has(time)) found.set(time, []);
  found.get(time).push(line);
}

/** Returns the edge and halo lines of modules by their times; lines for all odd times are at "*". */
function bordersByTime(modules) {
  const found = new Map();
  modules.forEach((module, number) => {
    for (const [kind, lines] of [["edge", module.edges], ["halo", module.halos]]) {
      for (const [time, x, y, signal] of lines) addLineAtTime(found, time === null ? "*" : time,
          { kind, number, time, x, y, signal });
    }
  });
  return found;
}

/** Returns the stop lines of modules by their times. */
function stopsByTime(modules) {
  const found = new Map();
  modules.forEach((module, number) => {
    for (const [time, signal, x, y] of module.stops) addLineAtTime(found, time, { kind: "stop", number, time, x, y,
      signal });
  });
  return found;
}

class Player {
  data;
  layout;
  modules;
  direction = 0;
  rate = 8;
  target = 0;
  slice = AHEAD_SLICE_MILLISECONDS;
  names;
  first;
  on;
  probes;
  stops;
  borders = null;
  own;
  listeners;
  values;
  run;
  ahead;
  recorder;
  isEnded;
  aheadTimer;
  isSeeking;
  seekTimer;
  playedAt;
  playFrame;

  /** @param {Data} data */
  constructor(data) {
    const { layout, circuit, certificate, assign } = data;
    this.data = data;
    this.layout = layout;
    this.modules = certificate ? certificate.modules : [];
    this.names = circuit ? circuit.inputs : [...new Set(layout.ins.map((port) => port.name))];
    // The inputs that the text's assign section puts on, or all, so that the first picture has balls.
    this.first = assign ? assign.on : this.names;
    this.on = new Set(this.first);
    // `data.isQuiet` says that nobody looks at the waveform.
    this.probes = data.isQuiet ? [] : waveform.waveformProbes(data);
    this.stops = stopsByTime(this.modules);
    this.own = null;
    this.listeners = { time: [], progress: [], end: [], play: [], inputs: [] };
  }

  /**
   * Calls an action whenever something happens: the time, progress of the run to the end, that run's end, play, or the
   * inputs.
   */
  listen(what, action) { this.listeners[what].push(action); }

  notify(what) { for (const action of this.listeners[what]) action(); }

  /** Begins the runs again with the inputs that are on, and goes to a time. */
  restart(time = this.target) {
    const { data, layout, on } = this;
    this.values = data.circuit ? circuitValues(data.circuit, on) : null;
    this.run = new WholeRun(layout, on);
    // The snapshots are shared.
    this.ahead = this.run.copy();
    this.recorder = new waveform.SignalRecorder(this.probes, this.ahead);
    this.isEnded = false;
    clearTimeout(this.aheadTimer);
    this.seek(time);
    this.runAhead();
  }

  /** Runs to the last time in slices, so that the page stays quick. Its snapshots serve the slider too. */
  runAhead() {
    const until = performance.now() + this.slice, { ahead, recorder } = this;
    let moved = true;
    for (let count = 1; moved && (count % 16 || performance.now() < until); count += 1) {
      moved = ahead.stepForward();
      if (moved) recorder.noteStep(ahead);
    }
    if (moved) {
      this.notify("progress");
      this.aheadTimer = setTimeout(() => this.runAhead(), 0);
      return;
    }
    this.run.leftAt = ahead.leftAt;
    this.isEnded = true;
    this.notify("end");
  }

  /** Stops, and goes to a time. */
  stopAndSeek(time) {
    this.setPlayDirection(0);
    this.seek(time);
  }

  /** Goes to a time: in slices, so that a far one does not stop the page. */
  seek(time) {
    this.target = Math.max(0, Math.min(this.layout.steps, time));
    clearTimeout(this.seekTimer);
    this.run.jumpToSnapshot(this.target);
    this.seekForAWhile();
  }

  /** Makes the steps of a seek for a while, and goes on later if more are needed. */
  seekForAWhile() {
    const until = performance.now() + SEEK_SLICE, { run, target } = this;
    let moved = true;
    for (let count = 1; moved && run.time !== target && (count % 16 || performance.now() < until); count += 1) {
      const isForward = run.time < target;
      moved = isForward ? run.stepForward() : run.stepBackward();
      if (!moved || !isForward || target - run.time > NOTED_MOVE_STEPS) continue;
      run.moves.set(run.time - 1, movesOfLastStep(run));
      run.moves.delete(run.time - 1 - 3 * NOTED_MOVE_STEPS);
    }
    this.isSeeking = moved && run.time !== target;
    if (this.isSeeking) this.seekTimer = setTimeout(() => {
      run.jumpToSnapshot(target);
      this.seekForAWhile();
    }, 0);
    else this.target = run.time;
    if (this.own) this.own.seek(run.time);
    this.notify("time");
  }

  /** Whether the run can go no further in a direction. */
  isAtBound(direction) {
    const { time, leftAt } = this.run;
    return direction < 0 ? time === 0 : time === this.layout.steps || leftAt === time + 1;
  }

  /** Begins to play on (1) or backwards (-1), from the other end if it is at the end; or stops (0). */
  setPlayDirection(direction) {
    const wasPlaying = this.direction !== 0;
    this.direction = direction;
    cancelAnimationFrame(this.playFrame);
    if (direction !== 0) {
      if (this.isAtBound(direction)) this.seek(direction > 0 ? 0 : this.layout.steps);
      this.playedAt = performance.now();
      this.playFrame = requestAnimationFrame(() => this.playDueSteps());
    }
    if (direction !== 0 || wasPlaying) this.notify("play");
  }

  /** Makes the steps that are due since the last frame. */
  playDueSteps() {
    const { rate } = this, now = performance.now(), count = Math.floor((now - this.playedAt) / 1000 * rate);
    if (count > 0 && !this.isSeeking) {
      // A page that was hidden, or is slow, does not make up for lost time.
      this.playedAt = now - this.playedAt > 500 ? now : this.playedAt + count / rate * 1000;
      this.seek(this.run.time + this.direction * Math.min(count, Math.max(1, Math.ceil(rate / 2))));
      if (!this.isSeeking && this.isAtBound(this.direction)) {
        this.setPlayDirection(0);
        return;
      }
    }
    this.playFrame = requestAnimationFrame(() => this.playDueSteps());
  }

  /** Sets inputs, by their names. */
  setInputs(values) {
    for (const [name, value] of Object.entries(values)) if (value) this.on.add(name); else this.on.delete(name);
    this.notify("inputs");
  }

  /** Opens the run of a module by itself. The bits of an assignment are in order of the cuts. */
  openModuleRun(number, values) {
    const bits = this.modules[number].cuts.reduce((sum, name, index) => sum + (values[name] ? 2 ** index : 0), 0);
    this.own = new ModuleRun(this.data, number, bits);
  }

  /**
   * Returns the edge and halo lines that speak of the present time: at odd times only. They are filed at the first such
   * time, since a large layout has hundreds of thousands, for which the first picture would wait.
   */
  borderLinesNow() {
    const { time } = this.run;
    if (time % 2 === 0) return [];
    this.borders ??= bordersByTime(this.modules);
    const timed = this.borders.get(time) || [];
    return time < this.layout.steps ? timed.concat(this.borders.get("*") || []) : timed;
  }

  /** Returns the lines that speak of the present time, those of a module first. */
  certificateLinesNow(module) {
    const time = this.run.time, found = [...(this.stops.get(time) || []), ...this.borderLinesNow()];
    if (module === null) return found;
    return [...found.filter((line) => line.number === module), ...found.filter((line) => line.number !== module)];
  }

  /** Returns the value of a signal, or undefined if there is none. */
  valueOf(signal) { return signal === "1" ? true : this.values ? this.values.get(signal) : undefined; }

  /**
   * Compares the outputs with the circuit when the run is at its end, those that differ first.
   * @returns {?{name: string, wanted: ?boolean, isGood: boolean, cells: {cell: Cell, isLive: boolean, isGood:
   * boolean}[]}[]}
   */
  outputResults() {
    if (!this.values || !this.isEnded) return null;
    const found = new Map(), isWhole = this.ahead.time === this.layout.steps;
    for (const { name, cell } of this.layout.outs) {
      const wanted = this.values.get(name), isLive = this.ahead.live.has(this.ahead.numbering.keyOf(...cell));
      if (!found.has(name)) found.set(name, { name, wanted, isGood: true, cells: [] });
      const isGood = isWhole && isLive === wanted, result = found.get(name);
      result.cells.push({ cell, isLive, isGood });
      result.isGood = result.isGood && isGood;
    }
    return [...found.values()].sort((one, other) => Number(one.isGood) - Number(other.isGood));
  }
}

export { Player };
