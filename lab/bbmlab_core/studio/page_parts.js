/** Small helpers for elements of the page and its dialog. Texts are set as text, never as HTML. */
import { elementById, newElement } from "../view/boxes.js";

/** Returns a new button. */
function newButton(text, action, className = "") {
  const found = newElement("button", text, className);
  found.type = "button";
  found.addEventListener("click", action);
  return found;
}

/** Appends a text in which words between backticks are code. */
function appendTextWithCode(parent, text) {
  text.split("`").forEach((part, index) => parent.append(index % 2 ? newElement("code", part) : part));
  return parent;
}

/** Calls an action when calls have stopped for some milliseconds. */
function debounced(milliseconds, action) {
  let timer = 0;
  return () => {
    clearTimeout(timer);
    timer = setTimeout(action, milliseconds);
  };
}

// Resolves the question in the dialog to null.
let cancelAsked = () => {};

/**
 * Asks something in the dialog, and resolves to the value of the button that is pressed, or to null.
 * @returns {Promise<any>}
 */
function askInDialog(title, body, choices) {
  const dialog = elementById("dialog");
  if (dialog.open) {
    dialog.close();
    cancelAsked();
  }
  elementById("dialog-title").textContent = title;
  elementById("dialog-body").replaceChildren(...body);
  return new Promise((resolve) => {
    const end = (value) => {
      dialog.onclose = null;
      dialog.close();
      resolve(value);
    };
    cancelAsked = () => resolve(null);
    // The event of a dialog that was open before comes late: this one is open then.
    dialog.onclose = () => { if (!dialog.open) resolve(null); };
    elementById("dialog-buttons").replaceChildren(
      ...choices.map(([text, value]) => newButton(text, () => end(value()))));
    dialog.showModal();
  });
}

/** Shows a text above the page, with buttons, or nothing. */
function showNotice(text, choices = []) {
  const box = elementById("notice");
  box.hidden = text === "";
  box.replaceChildren(text, ...choices.map(([words, action]) => newButton(words, () => {
    box.hidden = true;
    action();
  })));
}

export { elementById, newElement, newButton, appendTextWithCode, debounced, askInDialog, showNotice };
