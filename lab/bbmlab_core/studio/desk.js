/**
 * The layout that is edited: its model and its run, again at each change. A worker runs it for the ways of its balls
 * and its truth table.
 */
import { Player } from "../view/player.js";
import * as geometry from "./geometry.js";
import { LayoutModel } from "./model.js";
import * as surveys from "./survey.js";

const MAX_TABLE_INPUTS = 8, MAX_EXACT_INPUTS = 5;
// How long the run to the end may take of each turn, in milliseconds: a frame takes 16, and painting comes first.
const RUN_SLICE_MILLISECONDS = 4;
const BLANK_LAYOUT = { width: 48, height: 48, steps: 0, mirrors: [], balls: [], ins: [], outs: [], wastes: [] };

class EditedLayout {
  worker;
  off = new Set();
  waysMode = "all";
  hasWave = false;
  listeners = { change: [], ways: [], table: [], time: [], end: [], play: [] };
  order = 0;
  askedAt = 0;
  waysTime = 0;
  survey = null;
  surveyOrder = -1;
  rows = null;
  layout;
  model;
  unstable;
  player;
  hasTable;
  sentCircuit;

  /** @param {string} text @param {Worker} worker */
  constructor(text, worker) {
    this.worker = worker;
    // The number of the last order to the worker, and what came of it; `askedAt` is when the order was given.
    this.layout = BLANK_LAYOUT;
    worker.addEventListener("message", ({ data }) => this.takeWorkerAnswer(data));
    this.open(text);
  }

  /** Takes another text, without a history. */
  open(text) {
    this.model = new LayoutModel(text);
    this.model.listen(() => this.refresh());
    this.off.clear();
    if (this.player) this.player.target = 0;
    this.refresh();
  }

  listen(what, action) { this.listeners[what].push(action); }

  notify(what) { for (const action of this.listeners[what]) action(); }

  /** The circuit, if each of its lines can be read. */
  get circuit() { return this.model.circuit.isWhole ? this.model.circuit : null; }

  /** Makes the runs for the text as it is now. */
  refresh() {
    const old = this.player;
    this.layout = this.model.layout || { ...this.layout };
    this.unstable = geometry.unstableMirrors(this.layout.mirrors);
    if (old) {
      old.setPlayDirection(0);
      clearTimeout(old.aheadTimer);
      clearTimeout(old.seekTimer);
      old.listeners = { time: [], progress: [], end: [], play: [], inputs: [] };
    }
    const names = this.circuit ? this.circuit.inputs : [...new Set(this.layout.ins.map(({ name }) => name))];
    const player = new Player({ layout: this.layout, circuit: this.circuit, certificate: null, isQuiet: !this.hasWave,
      assign: { on: names.filter((name) => !this.off.has(name)) } });
    this.player = player;
    player.slice = RUN_SLICE_MILLISECONDS;
    this.askWorker();
    player.restart(old ? Math.min(old.target, this.layout.steps) : 0);
    for (const what of ["time", "end", "play"]) player.listen(what, () => this.notify(what));
    this.notify("change");
    if (player.isEnded) this.notify("end");
  }

  /** Turns inputs on or off. */
  setInput(name, isOn) {
    if (isOn) this.off.delete(name);
    else this.off.add(name);
    this.player.setInputs({ [name]: isOn });
    if (this.waysMode === "on") this.askWorker();
    this.player.restart();
  }

  /** Sets under which inputs the ways are shown: "all", "on" or "off". */
  setWaysMode(mode) {
    this.waysMode = mode;
    if (mode === "off") this.survey = null;
    this.askWorker();
    this.notify("ways");
  }

  /** Sets whether the waveform is shown. Its signals are recorded only then. */
  setWaveformShown(isShown) {
    this.hasWave = isShown;
    this.refresh();
  }

  // ---- ways and the truth table

  /** Sends the layout to the worker. What the page shows stays until its answer. */
  askWorker() {
    const { layout, circuit, waysMode, player: { names, on } } = this, isKnown = circuit === this.sentCircuit;
    this.hasTable = circuit !== null && circuit.inputs.length <= MAX_TABLE_INPUTS && circuit.outputs.length > 0;
    const ways = waysMode === "off" ? null : { on: waysMode === "on" ? [...on] : null,
      isExact: names.length <= MAX_EXACT_INPUTS };
    this.order = this.order + 1;
    this.askedAt = performance.now();
    this.sentCircuit = circuit;
    // Without the member `circuit` the worker takes the last one.
    this.worker.postMessage({ number: this.order, layout, ways, hasTable: this.hasTable,
      ...(isKnown ? {} : { circuit }) });
    if (!this.hasTable) {
      this.rows = null;
      this.notify("table");
    }
  }

  /** Takes an answer of the worker, unless it is about an older layout. */
  takeWorkerAnswer({ number, ways, rows }) {
    if (number !== this.order) return;
    if (rows) {
      this.rows = rows;
      this.notify("table");
      return;
    }
    this.survey = ways;
    this.surveyOrder = number;
    this.waysTime = performance.now() - this.askedAt;
    this.notify("ways");
  }

  /** Whether the ways are of all choices of the inputs. */
  get isExact() { return this.waysMode === "all" && this.player.names.length <= MAX_EXACT_INPUTS; }

  /**
   * Returns the ends of the balls as parts, when the worker is done, or null if not all choices of the inputs were run.
   */
  async ballEndParts() {
    if (!this.isExact || !this.circuit) return null;
    while (this.isExact && this.surveyOrder !== this.order)
        await new Promise((resolve) => { setTimeout(resolve, 10); });
    return this.circuit && this.isExact ? surveys.ballEndParts(this.survey, this.circuit.outputs, this.layout) : null;
  }
}

export { EditedLayout };
