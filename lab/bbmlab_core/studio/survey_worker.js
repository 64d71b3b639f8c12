/**
 * The worker of the page: runs the newest layout that it was sent, for its ways and its truth table, and sends what it
 * finds. While it runs it looks for newer ones.
 */
import * as surveys from "./survey.js";
import { ManyChoicesRun, TruthTableRun } from "./survey.js";

// How long a run may take before newer messages are looked at, in milliseconds.
const RUN_SLICE_MILLISECONDS = 12;
const currentRuns = { number: 0, circuit: null }, turns = new MessageChannel();

/** Returns the choices of inputs whose ways are wanted: those that are on, or all of a few inputs, or some of many. */
function wantedChoices({ on, isExact }, layout, circuit) {
  if (on) return [new Set(on)];
  const inputs = circuit ? circuit.inputs : [...new Set(layout.ins.map(({ name }) => name))];
  return isExact ? surveys.allChoices(inputs) : surveys.sampledChoices(inputs);
}

/** Runs for a while, first for the ways and then for the table, and goes on later if there is more to do. */
function runSlice() {
  const { number, survey, table } = currentRuns;
  if (survey) {
    if (survey.runForMilliseconds(RUN_SLICE_MILLISECONDS)) {
      currentRuns.survey = null;
      const found = survey.result();
      // The large arrays are handed over.
      postMessage({ number, ways: found }, [found.ways.buffer, found.live.buffer, found.isMirror.buffer]);
    }
  } else if (table && table.runForMilliseconds(RUN_SLICE_MILLISECONDS)) {
    currentRuns.table = null;
    postMessage({ number, rows: table.rows() });
  }
  if (currentRuns.survey || currentRuns.table) turns.port2.postMessage(null);
}

/** Begins with another layout. */
onmessage = ({ data: { number, layout, ways, hasTable, circuit = currentRuns.circuit } }) => {
  const isIdle = !currentRuns.survey && !currentRuns.table;
  const survey = ways && new ManyChoicesRun(layout, circuit, wantedChoices(ways, layout, circuit));
  currentRuns.number = number;
  currentRuns.circuit = circuit;
  currentRuns.survey = survey;
  currentRuns.table = hasTable ? new TruthTableRun(layout, circuit) : null;
  if (isIdle && (currentRuns.survey || currentRuns.table)) turns.port2.postMessage(null);
};

turns.port1.onmessage = runSlice;
