/** Makes elements, and fills boxes that list very much. */

// A box shows so many items at first, and as many more where it is scrolled to their end: to lay out 20,480 switches
// and 40,960 outputs takes three seconds.
const ITEMS_AT_ONCE = 500;

const elementById = (id) => document.getElementById(id);

/** Returns a new element with a text. */
function newElement(tag, text = "", className = "") {
  const found = document.createElement(tag);
  found.textContent = text;
  found.className = className;
  return found;
}

/**
 * Puts items in the place of what a box shows, the first ones at once.
 * @param {HTMLElement} box
 * @param {Array} items
 * @param {(item: *) => HTMLElement} itemOf
 */
function fillBox(box, items, itemOf) {
  let count = 0;
  const more = () => {
    const fresh = items.slice(count, count + ITEMS_AT_ONCE);
    count += fresh.length;
    box.append(...fresh.map(itemOf));
  };
  box.replaceChildren();
  more();
  box.onscroll = () => { if (count < items.length && box.scrollTop + 2 * box.clientHeight > box.scrollHeight) more(); };
}

/** Returns the switch of an input. `take` gets each new value. */
function inputSwitch(name, isOn, take) {
  const label = newElement("label");
  const box = Object.assign(newElement("input"), { type: "checkbox", value: name, checked: isOn });
  box.addEventListener("change", () => take(box.checked));
  label.append(box, name);
  return label;
}

export { elementById, fillBox, inputSwitch, newElement };
