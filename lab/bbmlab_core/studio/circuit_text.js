/** Reads a circuit as one types it, and joins the circuit of a standard cell to it. It needs no page. */
import * as limits from "../view/limits.js";

const NAME_PATTERN = /^[a-z][a-z0-9_]{0,31}$/;
// The numbers of wires that a gate uses and defines (docs/FORMATS.md).
const GATE_WIRE_COUNTS = { source: [0, 1], fredkin: [3, 3], cswap: [3, 3], interact: [2, 4], switch: [2, 3],
  delay: [1, 1], unswitch: [3, 2], uninteract: [4, 2] };
const KIND_ORDER = ["circuit", "input", "gate", "output", "spill", "end"];

/**
 * Returns the words of a line, without a comment and leading zeros, by the rules of `words_without_comment` in
 * `spelling.py`: a line ends with LF, words are parted by spaces and tabs, and carriage returns behind the last word
 * are dropped.
 */
const lineWords = (line) => {
  const code = line.split("#")[0].replace(/[ \t\r]+$/, "");
  return code.replaceAll("->", " -> ").split(/[ \t]+/).filter((word) => word !== "").map(
    (word) => (/^[0-9]+$/.test(word) ? word.replace(/^0+(?=[0-9])/, "") : word));
};

/** Returns a text without the byte order mark with which it begins. */
const withoutByteOrderMark = (text) => (text.startsWith("\ufeff") ? text.slice(1) : text);

/**
 * Returns the words of each line of a text that has any, and the limits by the first of them, which is left out if it
 * is a line of limits.
 */
function linesAndLimits(text) {
  const lines = withoutByteOrderMark(text).split("\n").map(lineWords).filter((words) => words.length);
  const own = limits.limitsByFirstLine(lines[0] || []);
  return { lines: own.line ? lines.slice(1) : lines, limits: own };
}

/** Returns the gate that words name, or null. */
function parseGate(words) {
  const size = Object.hasOwn(GATE_WIRE_COUNTS, words[0]) ? GATE_WIRE_COUNTS[words[0]] : null;
  if (size === null) return null;
  const hasNumber = words[0] === "source" || words[0] === "delay", rest = words.slice(hasNumber ? 2 : 1);
  const arrow = rest.indexOf("->");
  const ins = rest.slice(0, arrow), outs = rest.slice(arrow + 1);
  if (arrow !== size[0] || outs.length !== size[1]
    || ![...ins, ...outs].every((name) => NAME_PATTERN.test(name))) return null;
  return { gate: words[0], parameter: hasNumber ? Number(words[1]) : null, ins, outs };
}

/** Adds what a line says to a circuit, and returns whether it is a line of a circuit whose wires are known. */
function addCircuitLine(circuit, known, words) {
  if (words[0] === "circuit" && words.length === 1 || words[0] === "end" && words.length === 1) return true;
  if (["input", "output", "spill"].includes(words[0]) && words.length === 2 && NAME_PATTERN.test(words[1])) {
    if ((words[0] === "input") === known.has(words[1])) return false;
    known.add(words[1]);
    circuit[`${words[0]}s`].push(words[1]);
    return true;
  }
  const gate = parseGate(words);
  if (gate === null || !gate.ins.every((name) => known.has(name))
      || gate.outs.some((name) => known.has(name))) return false;
  for (const name of gate.outs) known.add(name);
  circuit.gates.push(gate);
  return true;
}

/**
 * Reads a circuit. `isWhole` is false if a line is none of a circuit, so that values are not known. The lab's reader on
 * the server says what is wrong.
 * @returns {{inputs: string[], gates: Gate[], outputs: string[], spills: string[], names: Set<string>, isWhole:
 * boolean}}
 */
function readCircuit(text) {
  const circuit = { inputs: [], gates: [], outputs: [], spills: [] }, known = new Set();
  const { lines } = linesAndLimits(text);
  const isWhole = lines.length > 0 && lines[0][0] === "circuit"
    && lines.map((words) => addCircuitLine(circuit, known, words)).every(Boolean);
  return { ...circuit, names: known, isWhole };
}

/** Returns the line of a gate. */
const gateLine = ({ gate, parameter, ins, outs }) =>
  [gate, ...(parameter === null ? [] : [parameter]), ...ins, "->", ...outs].join(" ");

/** Returns the lines of a circuit in the one spelling. */
function circuitLines({ inputs, gates, outputs, spills }) {
  return ["circuit", ...inputs.map((name) => `input ${name}`), ...gates.map(gateLine),
    ...outputs.map((name) => `output ${name}`),
    ...spills.map((name) => `spill ${name}`), "end"];
}

/** Returns a new name for each wire of some lines: its own, unless it is taken. */
function newNameByWire(lines, taken) {
  const names = new Map(), used = new Set(taken);
  for (const name of readCircuit(lines.join("\n")).names) {
    let fresh = name;
    for (let number = 2; used.has(fresh); number += 1) fresh = `${name}_${number}`;
    used.add(fresh);
    names.set(name, fresh);
  }
  return names;
}

/** Returns the rank of a line of a circuit. */
function lineKindRank(text) {
  const word = lineWords(text)[0];
  return KIND_ORDER.indexOf(Object.hasOwn(GATE_WIRE_COUNTS, word || "") ? "gate" : word);
}

/**
 * Puts the lines of a circuit among the first `count` rows, each behind the last of its kind. Wires get their new
 * names.
 */
function joinCircuit(rows, count, lines, names) {
  if (lines.length === 0) return;
  const head = rows.slice(0, count);
  if (!head.some(({ text }) => lineWords(text)[0] === "circuit")) head.push({ text: "circuit" }, { text: "end" });
  for (const line of lines.filter((text) => !["circuit", "end"].includes(lineWords(text)[0]))) {
    const rank = lineKindRank(line);
    const words = lineWords(line).map((word, index) => (index > 0 && names.get(word)) || word);
    const place = head.findLastIndex(({ text }) =>
      lineKindRank(text) >= 0 && lineKindRank(text) <= rank && lineKindRank(text) < KIND_ORDER.length - 1);
    head.splice(place + 1, 0, { text: words.join(" ") });
  }
  rows.splice(0, count, ...head);
}

export { readCircuit, newNameByWire, joinCircuit, lineWords, withoutByteOrderMark, circuitLines, linesAndLimits };
