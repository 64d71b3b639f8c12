/**
 * What searches in the background, with its progress and with cancel: the button that routes the circuit of the text,
 * and the tool that leads the ball of an output to an input.
 */
import { countWithNoun } from "../view/stage.js";
import { askInDialog, newButton, elementById, newElement } from "./page_parts.js";
import { server } from "./server_link.js";

const ROUTE_SECONDS = 60, CONNECT_SECONDS = 60;

/** Returns a field for a number with its words. */
function numberField(words, value, least, most) {
  const field = Object.assign(newElement("input"), { type: "number", value, min: least, max: most });
  const label = newElement("label", `${words} `);
  label.append(field);
  return { field, label };
}

class RouterPanel {
  desk;
  say;
  isRunning = false;
  seed = 1;

  /** @param {EditedLayout} desk @param {(text: string, isBad?: boolean) => void} say */
  constructor(desk, say) {
    this.desk = desk;
    this.say = say;
    elementById("route").addEventListener("click", () => this.askAndRoute());
  }

  /** Asks how long to search, and begins. */
  async askAndRoute() {
    const { circuit } = this.desk;
    if (this.isRunning) {
      this.say("A search is running.");
      return;
    }
    if (!circuit || circuit.outputs.length === 0) {
      this.say("The circuit cannot be read, or has no outputs: there is nothing to route.", true);
      return;
    }
    const seconds = numberField("seconds", ROUTE_SECONDS, 1, 3600);
    const seed = numberField("seed", this.seed, 0, 2147483647);
    const gates = countWithNoun(circuit.gates.length, "gate", "gates");
    const words = `The lab searches a layout for the circuit with ${gates}. `
      + "It takes the place of the text; undo brings the old one back.";
    const wanted = await askInDialog("Route the circuit", [newElement("p", words), seconds.label, seed.label],
      [["route", () => [Number(seconds.field.value), Number(seed.field.value)]], ["cancel", () => null]]);
    if (wanted) this.routeCircuit(...wanted);
  }

  /** Begins a search for a layout. */
  async routeCircuit(seconds, seed) {
    this.seed = seed + 1;
    const head = this.desk.model.headText;
    const answer = await this.runSearch("route", { text: `${head}\n`, seconds, seed }, "Routing");
    this.applyResult(answer, () => this.desk.model.headText === head, { label: "route", none: "There is no route.",
      done: () => "Routed. The verdict is asked for the text as it is now." });
  }

  /** Begins to lead the ball of an output to an input. What is found was checked by the program. */
  async connect(output, input) {
    if (this.isRunning) {
      this.say("A search is running.");
      return;
    }
    const { text } = this.desk.model, wanted = { text, seconds: CONNECT_SECONDS, seed: 1, output, input };
    const answer = await this.runSearch("connect", wanted, `Leading the ball of ${output} to ${input}`);
    this.applyResult(answer, () => this.desk.model.text === text,
      { label: "connect", none: "Nothing is changed.", done: (said) => said.at(-1) });
  }

  /** Begins a search, and shows what it does until it ends. Returns its last answer. */
  async runSearch(name, wanted, words) {
    this.isRunning = true;
    this.showProgress("Begins…");
    let answer = await server.request(name, wanted);
    while (answer.state === "runs") {
      const [about = ""] = answer.said;
      this.showProgress(`${words} since ${Math.floor(answer.seconds)} of ${wanted.seconds} s. ${about}`);
      answer = await server.request("routed");
    }
    this.isRunning = false;
    this.hide();
    return answer;
  }

  /** Shows the progress, with a button that ends the search. */
  showProgress(text) {
    const box = elementById("routing");
    if (box.hidden) box.replaceChildren(newElement("span"),
      newButton("cancel", () => { server.request("unroute"); }, "cancel"));
    box.hidden = false;
    box.firstChild.textContent = text;
  }

  hide() { elementById("routing").hidden = true; }

  /** Takes the text that was found, or says why there is none. If the text is another one now, it asks first. */
  async applyResult({ state, text, said = [], error }, isCurrent, { label, none, done }) {
    if (state !== "found") {
      const why = error || (state === "cancelled" ? "The search was cancelled."
        : `${none} ${said.filter((line) => !/first side|verdict yes/.test(line)).join(" ")}`);
      this.say(why, state !== "cancelled");
      return;
    }
    if (!isCurrent()) {
      const isTaken = await askInDialog("The text has changed",
        [newElement("p", "What was found is of the circuit and the layout as they were when the search began.")],
        [["take it in place of the text", () => true], ["keep the text", () => false]]);
      if (!isTaken) return;
    }
    this.desk.model.setText(text, label);
    this.say(done(said));
  }
}

export { RouterPanel };
