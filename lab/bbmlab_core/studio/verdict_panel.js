/**
 * The badge and the report: asks the server for the verdict when the text has been still, and shows faults and fixes.
 */
import { appendTextWithCode, newButton, debounced, elementById, newElement } from "./page_parts.js";
import { server } from "./server_link.js";

const VERDICT_DELAY = 200, MAX_CIRCLES = 40, RETRY_DELAY = 2000;
const VERDICT_TITLES = { yes: "yes", no: "no", refused: "refused", none: "no certificate found", unknown: "no answer" };
const CERTIFICATE_ORIGIN_WORDS = { own: "with the certificate of the text",
  earlier: "with the last certificate that got a yes", plain: "with a certificate of one module",
  certify: "with a certificate that the lab made" };

// What kind of no the lines of a report make, by their first words.
const FAULT_KIND_WORDS = { "local end": "the end is wrong", "local edge": "an edge line is wrong or missing",
  "local stop": "a stop is wrong", keep: "an inverse gate has no row",
  unkept: "an inverse gate has no `keep`", border: "two modules disagree", delay: "a delay takes another time",
    meet: "inputs do not meet" };

/** Says what kind of no a report makes, by its first line. */
function describeFault({ text, cell, time }, { width, height }) {
  const words = text.split(" "), isRim = cell && (cell[0] % (width - 1) === 0 || cell[1] % (height - 1) === 0);
  if (words[0] === "local" && words[2] === "edge" && isRim)
      return `the rim is live at (${cell.join(", ")}), time ${time}`;
  const kind = FAULT_KIND_WORDS[words[0] === "local" ? `local ${words[2]}` : words[0]] || "the report has a fault";
  return cell ? `${kind} at (${cell.join(", ")}), time ${time}` : kind;
}

const OTHER_PICTURE_VERDICT = {
  verdict: "unknown", faults: [], by: "", is_last: true,
  words: ["The program says yes to a text that is not the one of this picture. "
    + "This is an error of the studio: please report it with the text."],
};

class VerdictPanel {
  desk;
  sketch;
  program = null;
  verdict = null;
  checked = null;
  explanation = null;
  asked = 0;
  earlier = "";
  editedAt = 0;
  seconds = [];
  askSoon;

  /** @param {EditedLayout} desk @param {EditorStage} sketch */
  constructor(desk, sketch) {
    // `earlier` is the last certificate that got a yes; `seconds` are from the last edit to its first verdict and to
    // its last one.
    this.desk = desk;
    this.sketch = sketch;
    this.askSoon = debounced(VERDICT_DELAY, () => this.askVerdict());
    desk.listen("change", () => this.markOutdated());
    elementById("badge").addEventListener("click", () => {
      elementById("verdict-box").focus();
      elementById("verdict-box").scrollIntoView();
    });
  }

  /** Whether the verdict is of the text as it is now. */
  get isCurrent() { return this.verdict !== null && this.checked === this.desk.model.text; }

  /** Greys the verdict if the text is another one now, and asks soon. */
  markOutdated() {
    if (this.isCurrent) {
      this.showBadge();
      return;
    }
    this.explanation = null;
    this.editedAt = performance.now();
    this.showBadge();
    this.sketch.faults = [];
    elementById("report").classList.add("old");
    this.askSoon();
  }

  /**
   * Asks the server for the verdict: first by the certificates that need no search, and then by one that the lab makes.
   */
  async askVerdict(stage = "first") {
    const { text } = this.desk.model, number = this.asked += 1;
    const answer = await server.request("verdict", { text, stage, earlier: this.earlier });
    // An answer about another text than that of now is no news: the change of the text has asked again, unless its
    // verdict is known.
    if (number !== this.asked || text !== this.desk.model.text) return;
    if (answer.replaced) {
      this.askSoon();
      return;
    }
    if (answer.gone) setTimeout(() => { if (number === this.asked) this.askSoon(); }, RETRY_DELAY);
    this.showAnswer(text, answer, stage);
    if (answer.error) return;
    if (!this.verdict.is_last) this.askVerdict(this.verdict.verdict === "no" ? "other" : "made");
    else if (["no", "refused", "none"].includes(this.verdict.verdict)) this.askExplanation(number, text);
  }

  /** Shows an answer. If the lab made no certificate, the no by another one stays. */
  showAnswer(text, answer, stage) {
    const first = stage === "other" && this.isCurrent && this.verdict.verdict === "no" ? this.verdict : null;
    if (answer.error) this.verdict = { verdict: "unknown", words: [answer.error], faults: [], by: "", hints: [],
        is_last: true };
    else if (first && answer.verdict === "none") this.verdict = { ...first,
      words: [...first.words, "The lab found no other certificate:", ...answer.words], is_last: true };
    else this.verdict = answer.verdict === "yes" && !this.isTextOfPicture(answer.bundle)
      ? { ...answer, ...OTHER_PICTURE_VERDICT } : answer;
    this.checked = text;
    this.explanation = null;
    this.seconds = [...(stage === "first" ? [] : this.seconds), (performance.now() - this.editedAt) / 1000];
    if (this.verdict.verdict === "yes") this.earlier = this.verdict.bundle.slice(
        this.verdict.bundle.indexOf("\ncertificate ") + 1);
    this.showBadge();
    this.showReport();
  }

  /** Whether the text that the program read is, up to its certificate, that of the picture. */
  isTextOfPicture(bundle) {
    const drawn = this.desk.model.drawnText;
    return drawn !== null && bundle.startsWith(`${drawn}certificate `);
  }

  /** Asks the server for words and fixes. */
  async askExplanation(number, text) {
    const { bundle, report } = this.verdict;
    const answer = await server.request("explain", { text, bundle, report });
    if (number !== this.asked || answer.replaced || answer.gone) return;
    this.explanation = answer.error ? { headline: [answer.error], entries: [], fix: null, tried: [] } : answer;
    this.showReport();
  }

  /** Shows the verdict, grey if it is outdated. */
  showBadge() {
    const badge = elementById("badge"), { verdict, isCurrent } = this;
    const isWaiting = !verdict || isCurrent && verdict.verdict === "none" && !verdict.is_last;
    const isBlank = isCurrent && this.isTextEmpty;
    badge.className = isWaiting || isBlank ? "waiting" : isCurrent ? verdict.verdict : "old";
    badge.textContent = isBlank ? "nothing yet" : isWaiting ? "checking…"
      : isCurrent ? VERDICT_TITLES[verdict.verdict] : `${VERDICT_TITLES[verdict.verdict]}, outdated`;
    const said = isCurrent && !isBlank && ["yes", "no", "refused"].includes(verdict.verdict);
    const [fault] = verdict ? verdict.faults : [];
    const kind = said && verdict.verdict === "no" && fault ? `${describeFault(fault, this.desk.layout)}; ` : "";
    elementById("who").textContent = said ? `${kind}${this.programWords()}` : "";
    elementById("who").title = this.program && this.program.path
      ? `${this.program.path}\nSHA-256 ${this.program.sha256}`
      : "";
  }

  /** Whether there is nothing that a verdict could be about: no wire and no part. */
  get isTextEmpty() {
    const { circuit, model } = this.desk;
    return circuit !== null && circuit.names.size === 0 && model.parts.length === 0;
  }

  /** Says which program gave the verdict. */
  programWords() {
    const { program, verdict } = this;
    if (!program || !program.path) return "";
    const release = program.is_release ? " of the release" : "";
    const by = CERTIFICATE_ORIGIN_WORDS[verdict.by] && verdict.verdict !== "refused"
      ? `, ${CERTIFICATE_ORIGIN_WORDS[verdict.by]}` : "";
    const more = verdict.is_last ? "" : "; looking for another one…";
    return `says ${program.version || program.path}${release}${by}${more}`;
  }

  /** Shows the report: words, faults and fixes. */
  showReport() {
    const { verdict, explanation } = this, box = elementById("report");
    box.classList.toggle("old", !this.isCurrent);
    box.replaceChildren();
    if (this.isCurrent && this.isTextEmpty) {
      box.append(newElement("p", "The circuit is empty, and nothing is drawn.", "soft"));
      return;
    }
    const isEmpty = this.desk.circuit !== null && this.desk.circuit.outputs.length === 0;
    const yes = isEmpty ? "The layout ends as it should, but the circuit has no outputs yet."
      : "For all inputs the layout computes the circuit.";
    const title = { yes, no: "The layout does not compute the circuit with this certificate." }[verdict.verdict];
    if (title) box.append(newElement("p", title, verdict.verdict === "yes" ? "good" : "bad"));
    if (verdict.line) box.append(newElement("p",
      `Line ${verdict.line}: ${this.desk.model.lines[verdict.line - 1] ?? ""}`, "code"));
    const isChecked = ["no", "refused", "none"].includes(verdict.verdict);
    if (explanation) this.showFix(box, explanation);
    else if (verdict.is_last && isChecked) box.append(newElement("p", "Looking for fixes…", "soft"));
    for (const words of [...verdict.words, ...(verdict.rule ? [`Rule: ${verdict.rule}`] : []), ...verdict.hints])
        box.append(appendTextWithCode(newElement("p"), words));
    if (!verdict.is_last) box.append(newElement("p", "The lab makes a certificate…", "soft"));
    for (const fault of verdict.faults) this.showFault(box, fault);
    this.sketch.faults = this.isCurrent
      ? verdict.faults.filter(({ cell }) => cell).slice(0, MAX_CIRCLES).map(({ cell }) => cell) : [];
    this.sketch.requestPaint();
  }

  /** Shows the fix of the whole text, or what was tried. */
  showFix(box, { headline, fix, tried }) {
    for (const words of headline) box.append(appendTextWithCode(newElement("p"), words));
    if (fix) box.append(this.fixBox(fix));
    for (const words of tried) box.append(appendTextWithCode(newElement("p", "", "soft"), words));
  }

  /** Returns what a fix changes, with a button that takes it. It was tried. */
  fixBox({ words, text }) {
    const box = newElement("div", "", "fix-box"), what = newElement("p");
    what.append(newElement("strong", "Fix: "));
    words.forEach((word, index) => appendTextWithCode(what, index ? ` ${word}` : word));
    box.append(what, newButton("apply this fix", () => { if (this.isCurrent) this.desk.model.setText(text, "fix"); },
      "fix"));
    return box;
  }

  /** Shows a line of the report with its words and its fix. A press goes to its time and cell. */
  showFault(box, fault) {
    const entry = this.explanation ? this.explanation.entries.find(({ line }) => line === fault.text) : null;
    box.append(newButton(fault.text, () => this.goToFault(fault), "fault"));
    for (const words of entry ? entry.what : []) box.append(appendTextWithCode(newElement("p"), words));
    if (entry && entry.fix) box.append(this.fixBox(entry.fix));
  }

  /** Shows a fault where and when it is. */
  goToFault({ cell, time, on }) {
    const { desk, sketch } = this;
    if (on) {
      for (const name of desk.player.names) if (desk.player.on.has(name) !== on.includes(name)) desk.setInput(name,
          on.includes(name));
      if (this.onInputs) this.onInputs();
    }
    if (time !== undefined) desk.player.seek(time);
    if (cell) sketch.lookAt([cell[0] + 0.5, cell[1] + 0.5], null);
    elementById("whole").scrollIntoView({ block: "nearest" });
  }
}

export { VerdictPanel };
