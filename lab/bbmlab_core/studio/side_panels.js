/** The panels beside the picture: size, inputs, the circuit with its refusal, and the truth table. */
import { fillBox, inputSwitch } from "../view/boxes.js";
import { LayoutModel, refusalAfterTrying } from "./model.js";
import { appendTextWithCode, askInDialog, debounced, elementById, newElement } from "./page_parts.js";
import { server } from "./server_link.js";
import { wireInks } from "./sketch.js";
import * as surveys from "./survey.js";

const REFUSAL_DELAY = 80, MAX_LEGEND = 10, NUMBERS = ["width", "height", "steps"];
// How long the page may stand still for a run that puts the outputs where the balls end.
const MAX_FOLLOW_MILLISECONDS = 1500;

/** Returns the kinds and cells of parts, in an order of their own. */
const kindsAndCells = (parts) => parts.map(({ kind, box }) => `${kind} ${box[0]} ${box[1]}`).sort().join("\n");

class SidePanels {
  desk;
  sketch;
  say;
  asked = 0;
  refusal = null;
  typed = null;
  askSoon;
  gutterKey;
  inputsKey;

  /** @param {EditedLayout} desk @param {EditorStage} sketch @param {(text: string, isBad?: boolean) => void} say */
  constructor(desk, sketch, say) {
    this.desk = desk;
    this.sketch = sketch;
    this.say = say;
    this.askSoon = debounced(REFUSAL_DELAY, () => this.askRefusal());
    for (const id of NUMBERS) {
      // The field in which a number is typed that is not taken yet.
      elementById(id).addEventListener("input", () => { this.typed = id; });
      elementById(id).addEventListener("change", () => this.applySizeAndSteps());
    }
    elementById("enlarge").addEventListener("click", () => this.askAndEnlarge());
    const pane = elementById("circuit");
    pane.addEventListener("input",
      () => desk.model.setCircuitText(pane.value === "" ? "" : pane.value.replace(/\n$/, ""), "typing"));
    pane.addEventListener("blur", () => {
      desk.model.closeMerge();
      this.showCircuitText(true);
    });
    pane.addEventListener("scroll", () => { elementById("gutter").scrollTop = pane.scrollTop; });
    elementById("ways").addEventListener("change", (event) => desk.setWaysMode(event.target.value));
    desk.listen("change", () => this.updatePanels());
    desk.listen("ways", () => this.showLegend());
    desk.listen("table", () => this.showTruthTable());
  }

  /** Shows what follows from the text. */
  updatePanels() {
    this.showSizeAndSteps();
    this.showCircuitText(false);
    this.showInputs();
    this.askSoon();
  }

  /** Shows the numbers of the layout, apart from one that is typed now. */
  showSizeAndSteps() {
    for (const id of NUMBERS) if (this.typed !== id) elementById(id).value = this.desk.layout[id];
  }

  /** Puts the layout's number into a field in which one was typed. Returns whether one was. */
  cancelTyping(id) {
    const wasTyped = this.typed === id;
    if (wasTyped) this.typed = null;
    this.showSizeAndSteps();
    return wasTyped;
  }

  /** Asks how many columns and rows are added at each side, and adds them. */
  async askAndEnlarge() {
    const fields = ["left", "above", "right", "below"].map(
      (side) =>
      Object.assign(newElement("input"), { type: "number", min: 0, max: 4096, step: 2, value: 16, ariaLabel: side }));
    const box = newElement("p");
    fields.forEach((field) => {
      const label = newElement("label", `${field.ariaLabel} `);
      label.append(field);
      box.append(label, " ");
    });
    const sides = await askInDialog("Enlarge the layout",
      [newElement("p", "Columns and rows that are added at each side: even numbers. The parts keep their distances."),
        box],
      [["enlarge", () => fields.map((field) => Number(field.value))], ["cancel", () => null]]);
    if (!sides) return;
    const reason = refusalAfterTrying(() => this.desk.model.enlarge(...sides));
    this.say(reason || "Enlarged.", reason !== null);
  }

  /** Sets size and steps by the fields. */
  applySizeAndSteps() {
    const [width, height, steps] = NUMBERS.map((id) => Number(elementById(id).value)), { layout, model } = this.desk;
    const isFollowed = elementById("follow").checked;
    this.typed = null;
    if (isFollowed && steps !== layout.steps && this.resizeWithEnds(width, height, steps)) {
      this.say("");
      return;
    }
    const reason = refusalAfterTrying(() => model.setSizeAndSteps(width, height, steps, isFollowed));
    this.say(reason || "", reason !== null);
    this.showSizeAndSteps();
  }

  /**
   * Sets size and steps, and puts the outputs and waste cells where the balls end then, as one command. Returns whether
   * it was done: only if they are where the balls end now. Else they are not drawn yet, and fly straight on.
   */
  resizeWithEnds(width, height, steps) {
    const { desk: { model } } = this, isEnd = ({ kind }) => kind === "out" || kind === "waste";
    const ends = model.parts.filter(isEnd);
    const now = model.layout && ends.length
      ? surveys.runForEndParts(model.layout, model.circuit, MAX_FOLLOW_MILLISECONDS) : null;
    if (now === null || kindsAndCells(now) !== kindsAndCells(ends)) return false;
    const made = new LayoutModel(model.text);
    if (refusalAfterTrying(() => {
      made.removeParts(ends.map(({ line }) => line));
      made.setSizeAndSteps(width, height, steps);
    }) !== null) return false;
    const parts = surveys.runForEndParts(made.layout, made.circuit, MAX_FOLLOW_MILLISECONDS);
    if (parts === null || refusalAfterTrying(() => made.addParts(parts)) !== null) return false;
    model.setText(made.text, "size");
    return true;
  }

  /** Shows the lines before the layout, unless one types in them. */
  showCircuitText(isForced) {
    const pane = elementById("circuit"), text = this.desk.model.headText.replaceAll("\r", "");
    if (pane.value !== text && (isForced || document.activeElement !== pane || pane.value.replace(/\n$/, "") !== text))
        pane.value = text;
    this.showGutter();
  }

  /** Shows the numbers of the lines, with a mark at the one that is refused. */
  showGutter() {
    const count = elementById("circuit").value.split("\n").length, bad = this.refusal ? this.refusal.line : null;
    const key = `${count} ${bad}`;
    if (this.gutterKey === key) return;
    this.gutterKey = key;
    const numbers = (from, to) =>
      [...Array(Math.max(0, to - from)).keys()].map((index) => `${from + index}\n`).join("");
    if (bad === null || bad > count) elementById("gutter").replaceChildren(numbers(1, count + 1));
    else elementById("gutter").replaceChildren(numbers(1, bad), newElement("span", `✗ ${bad}`, "bad"), "\n",
      numbers(bad + 1, count + 1));
    elementById("gutter").scrollTop = elementById("circuit").scrollTop;
  }

  /** Asks the lab's reader where it refuses the circuit or the layout. */
  async askRefusal() {
    const number = this.asked += 1;
    const answer = await server.request("refusal", { text: this.desk.model.text });
    if (number !== this.asked || answer.gone || answer.error) return;
    this.refusal = answer.refusal;
    this.showGutter();
    const box = elementById("refusal"), { refusal } = this;
    box.replaceChildren();
    if (!refusal) return;
    const line = refusal.line === null ? "" : `Line ${refusal.line}: `;
    const text = refusal.line === null ? "" : this.desk.model.lines[refusal.line - 1];
    if (text) box.append(newElement("p", `${line}${text}`, "code"));
    for (const words of refusal.words) box.append(appendTextWithCode(newElement("p", "", "bad"), words));
    for (const words of refusal.hints.slice(0, 2)) box.append(appendTextWithCode(newElement("p", "", "soft"), words));
  }

  /** Shows a switch for each input. */
  showInputs() {
    const { names } = this.desk.player, box = elementById("inputs");
    const key = `${names.join(" ")} but ${[...this.desk.off].join(" ")}`;
    if (this.inputsKey === key) return;
    this.inputsKey = key;
    fillBox(box, names,
      (name) => inputSwitch(name, this.desk.player.on.has(name), (isOn) => this.desk.setInput(name, isOn)));
    if (names.length === 0) box.textContent = "The circuit has no inputs yet.";
  }

  /** Shows which colours the wires' ways have. */
  showLegend() {
    const { survey, isExact } = this.desk, legend = elementById("legend"), inks = wireInks();
    legend.replaceChildren();
    if (!survey) return;
    const seen = [...survey.wires.keys()].filter((colour) => colour < surveys.CONSTANT_COLOUR).sort((a, b) => a - b);
    for (const colour of seen.slice(0, MAX_LEGEND)) {
      const item = newElement("span", survey.wires.get(colour));
      item.style.borderBottomColor = inks[(colour - 1) % inks.length];
      legend.append(item);
    }
    if (seen.length > MAX_LEGEND) legend.append(`and ${seen.length - MAX_LEGEND} more`);
    if (this.desk.waysMode === "all"
        && !isExact) legend.append(` under ${survey.choiceCount} of 2^${survey.inputCount} choices`);
    if (survey.leftAt !== null) legend.append(newElement("span", `A ball leaves at step ${survey.leftAt}.`, "bad"));
  }

  /** Shows what the outputs should be and what they are. */
  showTruthTable() {
    const { rows, hasTable, circuit } = this.desk, box = elementById("truth");
    if (!hasTable) {
      const count = circuit ? circuit.inputs.length : 0;
      const why = !circuit ? "The circuit cannot be read yet."
        : circuit.outputs.length === 0 ? "The circuit has no outputs yet."
        : `The circuit has ${count} inputs: the table is for at most eight.`;
      box.replaceChildren(newElement("p", why, "soft"));
      return;
    }
    const wrong = rows.filter(({ outputs }) => outputs.some(({ wanted, found }) => wanted !== found)).length;
    const { inputs, outputs } = circuit;
    const head = newElement("tr"), grid = newElement("table");
    head.append(...inputs.map((name) => newElement("th", name)),
      ...outputs.map((name) => newElement("th", name, "output")));
    grid.append(head, ...rows.map((row) => this.truthTableRow(row)));
    const words = wrong ? `${wrong} of ${rows.length} rows differ.`
      : rows.length === 1 ? "The row is as the circuit says." : `All ${rows.length} rows are as the circuit says.`;
    const frame = newElement("div", "", "frame");
    frame.tabIndex = 0;
    frame.append(grid);
    box.replaceChildren(newElement("p", words, wrong ? "bad" : "good"), frame);
  }

  /** Returns a row of the truth table: an output that differs shows what was found and what is wanted. */
  truthTableRow({ inputs, outputs }) {
    const bit = (value) => (value === null ? "?" : String(Number(value))), row = newElement("tr");
    row.append(...inputs.map((value) => newElement("td", bit(value))));
    for (const { wanted, found } of outputs) {
      row.append(wanted === found ? newElement("td", bit(found), "output")
        : newElement("td", `${bit(found)}, wanted ${bit(wanted)}`, "output bad"));
    }
    return row;
  }
}

export { SidePanels };
