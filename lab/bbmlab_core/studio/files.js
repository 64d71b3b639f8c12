/** Opens, saves and exports texts, and keeps and offers drafts. */
import { countWithNoun } from "../view/stage.js";
import * as drafts from "./drafts.js";
import { askInDialog, debounced, elementById, newElement, showNotice } from "./page_parts.js";
import { server } from "./server_link.js";

const DRAFT_DELAY_MILLISECONDS = 250;
const EXPORT_FILE_TYPES = { svg: ["SVG picture", "svg", "image/svg+xml"], golly: ["Golly pattern", "rle", "text/plain"],
  page: ["page for a browser", "html", "text/html"] };

/** Returns a list in which one can be chosen, with a name. */
function labelledSelect(label, groups) {
  const list = newElement("select"), frame = newElement("label", `${label} `);
  for (const [title, options] of groups) {
    const group = newElement("optgroup");
    group.label = title;
    for (const [value, text] of options) group.append(Object.assign(newElement("option", text), { value }));
    list.append(group);
  }
  frame.append(list);
  return { list, frame };
}

class Files {
  desk;
  verdicts;
  say;
  folder = "";
  name = "";
  digest = null;
  saved = null;
  isFree = false;
  opened = 0;
  hasOffer = false;
  keepSoon;

  /** @param {EditedLayout} desk @param {VerdictPanel} verdicts @param {(text: string, isBad?: boolean) => void} say */
  constructor(desk, verdicts, say) {
    this.desk = desk;
    this.verdicts = verdicts;
    this.say = say;
    this.keepSoon = debounced(DRAFT_DELAY_MILLISECONDS, () => this.keepDraft());
    desk.listen("change", () => {
      this.showFileState();
      this.keepSoon();
    });
    for (const [id, action] of [["save", () => this.save()], ["open", () => this.askAndOpenFile()],
      ["new", () => this.askAndMakeLayout()],
      ["export", () => this.askAndExport()]]) elementById(id).addEventListener("click", action);
    addEventListener("beforeunload", (event) => {
      this.keepDraft();
      if (this.isChanged) event.preventDefault();
    });
    server.keepAndDescribeDraft = () => this.keepAndDescribeDraft();
  }

  /** Whether the text differs from the file. */
  get isChanged() { return this.saved !== null && this.desk.model.text !== this.saved; }

  showFileState() {
    const shown = `${this.name}${this.isChanged ? " *" : ""}`;
    if (elementById("name").textContent !== shown) {
      elementById("name").textContent = shown;
      document.title = `${this.isChanged ? "* " : ""}${this.name} · bbmlab studio`;
    }
    elementById("undo").disabled = this.desk.model.past.length === 0;
    elementById("redo").disabled = this.desk.model.future.length === 0;
  }

  /** Takes a file that the server read. */
  switchToFile({ name, text, digest }) {
    this.name = name;
    this.digest = digest;
    this.saved = text;
    this.isFree = false;
    this.opened = this.opened + 1;
    this.verdicts.earlier = "";
    this.say("");
    drafts.setDraftAside(this.folder, name, text);
    // The draft that is offered is one of the file that was open.
    if (this.hasOffer) showNotice("");
    this.hasOffer = false;
    this.desk.open(text);
    this.showFileState();
    this.offerDraft();
  }

  // ---- drafts

  /** Keeps the text in the browser while it differs from the file. Returns whether it is kept. */
  keepDraft() {
    if (this.saved === null) return false;
    if (!this.isChanged) {
      drafts.forgetDraft(this.folder, this.name);
      return false;
    }
    if (drafts.keepDraft(this.folder, this.name, this.desk.model.text, this.digest)) return true;
    this.say("The browser has no room for a draft: save the file.", true);
    return false;
  }

  /** Keeps the draft if the server does not answer, and says what becomes of the text. */
  keepAndDescribeDraft() {
    const isKept = this.keepDraft();
    if (!this.isChanged) return "";
    return isKept ? "Your draft is kept in this browser. "
      : "Your text is not kept in this browser, so copy it before you close the page. ";
  }

  /** Offers the newest draft that differs from the file. */
  async offerDraft() {
    const { name, folder, opened } = this;
    const draft = (await drafts.findDrafts(folder, name)).find(({ text }) => text !== this.saved);
    if (!draft || opened !== this.opened) return;
    this.hasOffer = true;
    const forget = () => {
      this.hasOffer = false;
      drafts.forgetDraft(folder, name, draft.tab);
    };
    const what = draft.digest === this.digest ? "that was not saved"
      : "that began from another version of the file, which was written since";
    showNotice(`There is a draft of ${name} from ${new Date(draft.at).toLocaleString()} ${what}. `, [
      ["take the draft", () => {
        forget();
        // It goes on from the version of the file from which it began, so that saving it asks about a newer one.
        this.digest = draft.digest;
        this.desk.model.setText(draft.text, "draft");
      }], ["throw it away", forget]]);
  }

  // ---- save

  /** Puts the certificate that was checked into the text, if the text has none that got a yes. */
  insertCheckedCertificate() {
    const { verdicts, desk } = this, { verdict } = verdicts;
    if (!verdicts.isCurrent || verdict.verdict !== "yes" || verdict.by === "own") return;
    const place = verdict.bundle.indexOf("\ncertificate ") + 1;
    if (place) desk.model.setTail(verdict.bundle.slice(place));
  }

  /**
   * Asks whether the file gets the one spelling that the program reads, if the text has another. Returns whether to go
   * on.
   */
  async askAboutSpelling() {
    const { model } = this.desk, { text, comments } = await server.request("spelling", { text: model.text });
    if (text === undefined || text === model.text || this.isFree) return true;
    const more = comments ? `, with ${countWithNoun(comments, "comment", "comments")}` : "";
    const words = `The program reads texts of one spelling, and this is another one${more}.`;
    const what = await askInDialog("How to write the text", [newElement("p", words)], [
      ["write it as it is", () => "free"],
      [comments ? "write the one spelling, without comments" : "write the one spelling", () => "one"],
      ["cancel", () => null]]);
    if (what === "one") model.setText(text, "spelling");
    this.isFree = what === "free";
    return what !== null;
  }

  /** Writes the text to the file. */
  async save(name = this.name, isForced = false) {
    const { opened } = this;
    this.insertCheckedCertificate();
    if (!await this.askAboutSpelling() || opened !== this.opened) return;
    const { text } = this.desk.model;
    const answer = await server.request("save", { name, text, digest: name === this.name ? this.digest : null,
      force: isForced });
    if (answer.changed && opened === this.opened) {
      this.askAboutChangedFile(name, answer);
      return;
    }
    if (answer.error) {
      this.say(answer.error, true);
      return;
    }
    const { name: old, digest } = this;
    // If another file was opened meanwhile, the page shows that one.
    if (opened !== this.opened) return;
    this.name = name;
    this.digest = answer.digest;
    this.saved = text;
    drafts.forgetDraft(this.folder, old);
    if (old === name) {
      if (this.hasOffer) showNotice("");
      this.hasOffer = false;
      await drafts.forgetReplacedDrafts(this.folder, name, digest);
      if (opened !== this.opened) return;
    }
    this.keepDraft();
    this.showFileState();
    this.say(`Saved ${name}.`);
  }

  /** Asks what to do with a file that changed since the page read it. */
  async askAboutChangedFile(name, { error }) {
    const field = Object.assign(newElement("input"), { type: "text", value: name.replace(/(_\d+)?\.txt$/, "_2.txt"),
      ariaLabel: "Another name" });
    const what = await askInDialog("The file is another one now", [newElement("p", `${error}. Nothing was written.`),
      field], [["write over it", () => "over"], ["save under this name", () => field.value],
        ["open the file again", () => "again"], ["cancel", () => null]]);
    if (what === "over") this.save(name, true);
    else if (what === "again") this.openFile(name);
    else if (what) this.save(what);
  }

  // ---- open, new, export

  /** Opens a file of the folder. */
  async openFile(name) {
    const { opened } = this;
    this.keepDraft();
    const answer = await server.request("open", { name });
    if (answer.error) this.say(answer.error, true);
    else if (opened === this.opened) this.switchToFile(answer);
  }

  /** Asks which file to open. */
  async askAndOpenFile() {
    const { files, error } = await server.request("files");
    if (error) {
      this.say(error, true);
      return;
    }
    const { list, frame } = labelledSelect("File", [[this.folder, files.map((name) => [name, name])]]);
    const name = await askInDialog("Open a file of this folder",
      files.length ? [frame] : [newElement("p", "The folder has no .txt files.")],
      [...(files.length ? [["open", () => list.value]] : []), ["cancel", () => null]]);
    if (name) this.openFile(name);
  }

  /** Asks for a template and a name. */
  async askAndMakeLayout() {
    const { list, frame } = labelledSelect("Begin with", [["Empty", [["empty", "an empty layout"]]],
      ["Standard cells", this.templates.filter((name) => name !== "empty").map((name) => [name, name])],
      ["Examples", this.examples.map((name) => [`example ${name}`, name])]]);
    const field = Object.assign(newElement("input"), { type: "text", value: "new.txt" });
    const label = newElement("label", "File ");
    label.append(field);
    const chosen = await askInDialog("New layout", [frame, label],
      [["make", () => [list.value, field.value]], ["cancel", () => null]]);
    if (!chosen) return;
    const answer = await server.request("template", { name: chosen[0] });
    if (answer.error) {
      this.say(answer.error, true);
      return;
    }
    const there = await server.request("open", { name: chosen[1] });
    if (there.error) {
      this.say(there.error, true);
      return;
    }
    if (there.digest !== null) {
      this.say(`${chosen[1]} exists: choose another name.`, true);
      return;
    }
    this.keepDraft();
    this.switchToFile({ name: chosen[1], text: answer.text, digest: null });
  }

  /** Asks for a form, and downloads the text in it. */
  async askAndExport() {
    const forms = Object.entries(EXPORT_FILE_TYPES).map(([form, [title]]) => [form, title]);
    const { list, frame } = labelledSelect("As", [["Forms", forms]]);
    const form = await askInDialog("Export", [frame], [["export", () => list.value], ["cancel", () => null]]);
    if (!form) return;
    const { verdicts, desk } = this, { verdict } = verdicts;
    const bundle = verdicts.isCurrent && ["yes", "no"].includes(verdict.verdict) ? verdict.bundle : "";
    const on = desk.player.names.filter((name) => desk.player.on.has(name));
    const answer = await server.request("export", { text: desk.model.text, bundle, form, name: this.name, on });
    if (answer.error || answer.text === undefined) {
      this.say(answer.error || "Nothing was exported: another export was begun.", true);
      return;
    }
    const [, ending, type] = EXPORT_FILE_TYPES[form], link = newElement("a");
    link.href = URL.createObjectURL(new Blob([answer.text], { type }));
    link.download = this.name.replace(/\.txt$/, "") + `.${ending}`;
    link.click();
    setTimeout(() => URL.revokeObjectURL(link.href), 10000);
  }
}

export { Files };
