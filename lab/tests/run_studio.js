// run_studio.js: reads a JSON list of [name, arguments..] and writes what each of the functions below returns. They use
// modules of the studio that need no browser.
import fs from "node:fs";
import * as circuitText from "../bbmlab_core/studio/circuit_text.js";
import * as geometry from "../bbmlab_core/studio/geometry.js";
import { LayoutModel, ModelRefusal } from "../bbmlab_core/studio/model.js";
import * as surveys from "../bbmlab_core/studio/survey.js";

const { ManyChoicesRun, TruthTableRun } = surveys;

/** Returns whether text, model, text gives the same text, for each text. */
const law = (texts) => texts.map((text) => new LayoutModel(text).text === text);

/** Returns numbers from 0 to 1 by a fixed sequence. */
function draws(seed) {
  let state = seed;
  return (count) => {
    state = state * 1664525 + 1013904223 >>> 0;
    return Math.floor(state / 2 ** 32 * count);
  };
}

/** Returns the random commands. */
function commandsOf(model, draw, cells) {
  const lines = () => model.parts.filter(() => draw(8) === 0).map(({ line }) => line);
  const cell = () => [draw(model.header.width), draw(model.header.height)];
  const part = (kind, box, name = null) => ({ kind, name, box, line: -1 });
  const names = () => ["a", "b", "c_2", "zz"][draw(4)];
  return [
    () => {
      const box = geometry.nearestStableBox([...cell(), 1 + draw(6), 1 + draw(6)], model.header.width,
        model.header.height);
      if (box) model.addParts([part("mirror", box)]);
    },
    () => model.addParts([part("mirror", [...cell(), 1 + draw(4), 1 + draw(4)])]),
    () => model.addBallsOrPorts(geometry.twoBallCells(cell(), 0).map((at) => part("ball", [...at, 1, 1]))),
    () => {
      const name = names();
      model.addBallsOrPorts(geometry.twoBallCells(cell(), 0).map((at) => part("in", [...at, 1, 1], name)));
    },
    () => {
      const name = names();
      model.addBallsOrPorts([part("out", [...cell(), 1, 1], name)]);
    },
    () => model.addBallsOrPorts([part("waste", [...cell(), 1, 1])]),
    () => model.removeParts(lines()), () => model.move(lines(), draw(9) - 4, draw(9) - 4),
      () => model.rotateOrFlip(lines(), ["rotate", "flip-x", "flip-y"][draw(3)]),
    () => model.renamePorts(lines(), names()),
      () => model.addParts(geometry.shiftedParts(model.partsOfLines(lines()).slice(0, 6), 2 * draw(9), 2 * draw(9)),
        "paste"),
    () => model.setSizeAndSteps(model.header.width + 2 * draw(3) - 2, model.header.height + 2 * draw(3) - 2,
      Math.max(0, model.header.steps + draw(7) - 3), draw(2) === 1),
    () => model.insertStandardCell(cells[draw(cells.length)], 2 * draw(10), 2 * draw(10), draw(2) === 1),
    () => model.setCircuitText(`${model.headText}# ${draw(100)}`.replace(/(# \d+)+$/, (found) => found.slice(0, 40)),
      draw(2) ? "typing" : null),
    () => model.setTail(draw(2) ? `certificate 2\nmodule 0 0 ${2 * draw(9)} 2\nend\n` : ""), () => model.undo(),
      () => model.redo(),
  ];
}

/**
 * Does some random commands, and returns the last text, how many were done, and whether undo and redo give the first
 * and the last text.
 */
function random(text, cells, seed, count, isWild) {
  const model = new LayoutModel(text), draw = draws(seed);
  const commands = commandsOf(model, draw, cells).slice(0, isWild ? undefined : 13), texts = [];
  let done = 0;
  for (let tries = 0; done < count && tries < 40 * count; tries += 1) {
    try {
      commands[draw(commands.length)]();
      done += 1;
    } catch (error) { if (!(error instanceof ModelRefusal)) throw error; }
    if (tries % 50 === 0) texts.push(model.text);
  }
  const last = model.text;
  while (model.undo() !== null);
  const isFirst = model.text === text;
  while (model.redo() !== null);
  return { done, last, texts, isFirst, isLast: model.text === last };
}

/** Returns the text after commands, each [name, arguments..], or the reason why one cannot be done. */
function commands(text, list) {
  const model = new LayoutModel(text);
  try { for (const [name, ...words] of list) model[name](...words); } catch (error) {
    if (!(error instanceof ModelRefusal)) throw error;
    return error.message;
  }
  return model.text;
}

/** Returns where lines are after a command, [name, arguments..], and after it is undone. */
function moved(text, [name, ...words], lines) {
  const model = new LayoutModel(text);
  model[name](...words);
  const after = model.takeNewLineNumbers(lines);
  model.undo();
  return [after, model.takeNewLineNumbers(after), model.takeNewLineNumbers(after)];
}

/** Returns the cells that are live at the end under each choice of the inputs, and the kinds of marks. */
function ends(text) {
  const { layout, circuit } = new LayoutModel(text), choices = surveys.allChoices(circuit.inputs);
  const run = new ManyChoicesRun(layout, circuit, choices);
  run.runForMilliseconds(1e6);
  const keys = [...Array(layout.width * layout.height).keys()].map(
    (index) => run.numbering.keyOf(index % layout.width, Math.floor(index / layout.width)));
  const states = choices.map((on, lane) => ({ on: [...on],
    live: keys.filter((key) => run.live[key] >>> lane & 1).map((key) => run.numbering.cellOf(key)) }));
  return { states, leftAt: run.leftAt, marks: [...new Set(run.marks.filter((_, index) => index % 3 === 2))].sort() };
}

/** Returns the size, whether the circuit is whole, and the kinds and places of the parts. */
function parts(text) {
  const model = new LayoutModel(text), { width, height, steps } = model.header;
  return { size: [width, height, steps], isWhole: circuitText.readCircuit(model.headText).isWhole,
    parts: model.parts.map(({ kind, box }) => [kind, box[0], box[1]]).sort() };
}

/** Returns the truth table. */
function truth(text) {
  const { layout, circuit } = new LayoutModel(text), table = new TruthTableRun(layout, circuit);
  table.runForMilliseconds(1e6);
  return table.rows();
}

/** Returns how long the ways of a text take, in milliseconds: the median of some runs. */
function timed(text, count) {
  const { layout, circuit } = new LayoutModel(text), inputs = circuit.inputs, times = [];
  for (let run = 0; run < count; run += 1) {
    const start = performance.now();
    const survey = new ManyChoicesRun(layout, circuit, inputs.length <= 5 ? surveys.allChoices(inputs)
      : surveys.sampledChoices(inputs));
    survey.runForMilliseconds(1e6);
    times.push(performance.now() - start);
  }
  return { median: times.sort((a, b) => a - b)[count >> 1],
    ways: new ManyChoicesRun(layout, circuit, [new Set()]).ways.length };
}

const unstable = (mirrors) => geometry.unstableMirrors(mirrors).map(({ box }) => box);
const snapped = (boxes, width, height) => boxes.map((box) => geometry.nearestStableBox(box, width, height));
const circuit = (text) => {
  const { isWhole, inputs, outputs, spills, gates } = circuitText.readCircuit(text);
  return { isWhole, inputs, outputs, spills, gates };
};

/** Returns the words of the lines that contain one, for each text. */
const words = (texts) =>
  texts.map((text) => circuitText.withoutByteOrderMark(text).split("\n").map(circuitText.lineWords)
    .filter((found) => found.length));

/** Returns the text that is drawn, for each text. */
const drawn = (texts) => texts.map((text) => new LayoutModel(text).drawnText);

const functions = { words, drawn, law, random, commands, moved, ends, parts, truth, timed, unstable, snapped, circuit };
const jobs = JSON.parse(fs.readFileSync(0, "utf8"));
console.log(JSON.stringify(jobs.map(([name, ...words]) => functions[name](...words))));
