/** Fills the panels beside the picture: inputs, outputs, the report, the lines of the certificate. */
import { elementById, fillBox, inputSwitch, newElement } from "./boxes.js";
import { countWithNoun } from "./stage.js";

const MAX_LINES_SHOWN = 200;

/** Returns a link that does something on this page. */
function actionLink(text, action) {
  const found = newElement("a", text);
  found.href = "#report-box";
  found.addEventListener("click", (event) => {
    event.preventDefault();
    action();
  });
  return found;
}

/**
 * Appends a text to an element. Words between backticks are code, lines of the report are links to them, and cells
 * links to them.
 * @param {HTMLElement} parent
 * @param {string} text
 * @param {{lines: Map<string, () => void>, cell: (x: number, y: number) => void}} actions
 */
function appendTextWithLinks(parent, text, { lines, cell }) {
  text.split("`").forEach((part, index) => {
    if (index % 2 === 0) appendCellLinks(parent, part, cell);
    else if (lines.has(part)) {
      const found = actionLink("", lines.get(part));
      found.append(newElement("code", part));
      parent.append(found);
    } else parent.append(newElement("code", part));
  });
  return parent;
}

/** Appends a text in which each cell, "(99, 82)", is a link. */
function appendCellLinks(parent, text, action) {
  text.split(/(\(\d{1,4}, \d{1,4}\))/).forEach((part, index) => {
    const [x, y] = (part.match(/\d+/g) || []).map(Number);
    parent.append(index % 2 ? actionLink(part, () => action(x, y)) : part);
  });
}

/** Makes a switch for each input. */
function fillInputSwitches(player) {
  fillBox(elementById("inputs"), player.names, (name) => inputSwitch(name, player.on.has(name), (isOn) => {
    player.setInputs({ [name]: isOn });
    player.restart();
  }));
  if (player.names.length === 0) elementById("inputs").textContent = "The layout has no inputs.";
  elementById("choices").hidden = player.names.length < 2;
  for (const [id, value] of [["all", true], ["none", false]]) {
    elementById(id).addEventListener("click", () => {
      player.setInputs(Object.fromEntries(player.names.map((name) => [name, value])));
      player.restart();
    });
  }
  player.listen("inputs", () => { for (const box of document.querySelectorAll("#inputs input"))
    box.checked = player.on.has(box.value); });
}

/** Says how many outputs differ. */
function outputSummary(player) {
  const results = player.outputResults();
  if (!player.values) return "The text has no circuit to compare with.";
  if (!results) return `Running to the last time: ${player.ahead.time} of ${player.layout.steps}.`;
  const count = results.filter((result) => !result.isGood).length;
  if (results.length === 0) return "The layout has no outputs.";
  if (count > 0) return `${count} of ${countWithNoun(results.length, "output differs", "outputs differ")}`;
  return results.length === 1 ? "The output is as the circuit says."
    : `All ${results.length} outputs are as the circuit says.`;
}

/** Says what is wrong with an output. */
function wrongOutputWords(player, { wanted, cells }) {
  if (wanted === undefined) return "has no value in the circuit";
  if (player.ahead.leftAt !== null) return "the run ends early";
  return cells.filter((found) => !found.isGood).map(
    ({ cell, isLive }) => `(${cell.join(", ")}) is ${isLive ? "live" : "dead"}`).join(", ");
}

/** Shows the outputs at the last time, those that differ first. `cell` is what a click on a cell does. */
function showOutputs(player, cell) {
  const results = player.outputResults() || [], text = outputSummary(player);
  const isBad = results.some((result) => !result.isGood);
  elementById("outputs-count").textContent = text;
  elementById("outputs-count").className = isBad ? "bad" : results.length ? "good" : "";
  fillBox(elementById("outputs"), results, (result) => {
    const label = newElement("span",
      `${result.isGood ? "✓" : "✗"} ${result.name}=${result.wanted === undefined ? "?" : Number(result.wanted)}`);
    label.className = result.isGood ? "good" : "bad";
    if (!result.isGood) appendCellLinks(label, ` (${wrongOutputWords(player, result)})`, cell);
    return label;
  });
}

/** Lists the lines of the present time with the values that their wires have in the circuit. */
function showCertificateLinesNow(player, module) {
  elementById("lines-box").hidden = player.modules.length === 0;
  const found = player.certificateLinesNow(module);
  const shown = found.slice(0, MAX_LINES_SHOWN).map(({ kind, number, time, x, y, signal }) => {
    const place = kind === "stop" ? `${time} ${signal} ${x} ${y}` : `${time === null ? "*" : time} ${x} ${y} ${signal}`;
    const value = player.valueOf(signal);
    const now = value === undefined ? "" : signal === "1" ? " (live)" : ` (${signal}=${Number(value)})`;
    const item = newElement("li", "");
    item.append(`module ${number}: `, newElement("span", `${kind} ${place}`, kind), now);
    return item;
  });
  if (found.length > shown.length) shown.push(newElement("li", `and ${found.length - shown.length} more`));
  elementById("lines").replaceChildren(...(shown.length ? shown : [newElement("li", "No line speaks of this time.")]));
}

/** Shows the verdict, and returns whether there is a report. */
function showVerdict(explanation, hasCertificate) {
  const verdict = elementById("verdict");
  elementById("faults").hidden = !explanation || !explanation.entries.some((entry) => entry.is_against);
  if (explanation) {
    const isGood = explanation.verdict === "yes";
    verdict.textContent = `${isGood ? "✓" : "✗"} ${explanation.headline[0]}`;
    verdict.className = isGood ? "good" : "bad";
    return true;
  }
  verdict.textContent = hasCertificate ? "No verdict: the program was not run."
    : "No verdict: the text has no certificate.";
  elementById("report").textContent = "There is no report.";
  return false;
}

/** Writes the words above the lines of the report: the headline, the fix of the text, and what was tried. */
function showReportIntro(explanation, actions) {
  const { headline, fix, tried } = explanation;
  const words = [...headline.slice(1), ...(fix && fix.words.length ? [`Fix: ${fix.words.join(" ")}`] : []),
    ...(fix ? fix.others : []).map((other) => `Or: ${other.join(" ")}`), ...tried];
  elementById("report").append(...words.map((text) => appendTextWithLinks(newElement("p", ""), text, actions)));
}

/**
 * Writes the report: each line is a button, with its words below. Returns the buttons.
 * @param {Object} explanation
 * @param {(number: number) => void} show goes to a line of the report
 * @param {(x: number, y: number) => void} cell goes to a cell
 */
function showReport(explanation, show, cell) {
  const actions = { lines: new Map(explanation.entries.map((entry, number) => [entry.report_line, () => show(number)])),
    cell };
  const fix = explanation.fix ? explanation.fix.words.join(" ") : "";
  showReportIntro(explanation, actions);
  return explanation.entries.map((entry, number) => {
    const button = newElement("button", `${entry.is_against ? "✗" : "✓"} ${entry.report_line}`);
    const own = entry.fixes.join(" ");
    button.type = "button";
    button.setAttribute("aria-pressed", "false");
    button.addEventListener("click", () => show(number));
    const words = own && own !== fix ? [...entry.what, `Fix: ${own}`] : entry.what;
    elementById("report").append(button, ...words.map((text) => appendTextWithLinks(newElement("p", ""), text,
      actions)));
    return button;
  });
}

/** Says what the signs of the picture mean. */
function showPictureLegend(hasModules) {
  const signs = ["● a ball, ■ a mirror, × waste", "→name an input, name→ an output (✓ or ✗ at the last time)"];
  if (hasModules) signs.push("dashed boxes: modules with their numbers",
      "E edge, S stop with their wires; dotted: halo");
  signs.push("waveform: high while the cell is live; ● as its wire at that time, ✗ not so, ○ not known");
  elementById("signs").replaceChildren(...signs.map((text) => newElement("li", text)));
}

export { elementById, fillInputSwitches, outputSummary, showOutputs, showCertificateLinesNow, showVerdict, showReport,
  showPictureLegend };
