/**
 * Writes what is shown as the part of an address behind "#", and reads it again.
 *
 * @typedef {{time?: number, on?: string[], zoom?: number[], fault?: number, trails?: boolean}} Shown what differs from
 * the page as it is opened; `zoom` is the scale in pixels for a cell, and the x and y of the place in the middle
 * @typedef {{steps: number, names: string[], faults: number}} Limits
 */
import * as limits from "./limits.js";

const MAX_HASH_LENGTH = 65536;
const MIN_SCALE = 0.05, MAX_SCALE = 80, MAX_PLACE = 2 * limits.SECOND_LIMITS.maxSide;

/** Returns a number that is written plainly and lies in a range, or undefined. */
function readNumber(text, least, most) {
  if (!/^-?[0-9]{1,6}(\.[0-9]{1,3})?$/.test(text)) return undefined;
  return Number(text) >= least && Number(text) <= most ? Number(text) : undefined;
}

/** Returns a whole number of a range, or undefined. */
function readWholeNumber(text, least, most) {
  const value = readNumber(text, least, most);
  return Number.isInteger(value) ? value : undefined;
}

/** Returns scale and middle, or undefined. */
function readZoom(text) {
  const parts = text.split(",");
  if (parts.length !== 3) return undefined;
  const zoom = [readNumber(parts[0], MIN_SCALE, MAX_SCALE),
    ...parts.slice(1).map((part) => readNumber(part, -MAX_PLACE, MAX_PLACE))];
  return zoom.includes(undefined) ? undefined : zoom;
}

/**
 * Reads an address. Anybody may have written it: what is not as `addressFragment` writes it is left out.
 * @type {(hash: string, limits: Limits) => Shown}
 */
function readAddress(hash, { steps, names, faults }) {
  if (hash.length > MAX_HASH_LENGTH) return {};
  const said = new Map(hash.replace(/^#/, "").split("&").map((part) => part.split("="))
    .filter((pair) => pair.length === 2)), shown = {};
  const known = new Set(names);
  const readers = { t: ["time", (text) => readWholeNumber(text, 0, steps)], z: ["zoom", readZoom],
    fault: ["fault", (text) => readWholeNumber(text, 1, faults)],
    on: ["on", (text) => text.split(",").filter((name) => known.has(name))],
    trails: ["trails", (text) => ({ 0: false, 1: true })[readWholeNumber(text, 0, 1)]] };
  for (const [key, [member, reader]] of Object.entries(readers)) {
    const value = said.has(key) ? reader(said.get(key)) : undefined;
    if (value !== undefined) shown[member] = value;
  }
  return shown;
}

/** Returns the part of an address behind "#". @type {(shown: Shown) => string} */
function addressFragment({ time, on, zoom, fault, trails }) {
  const parts = [];
  if (time !== undefined) parts.push(`t=${time}`);
  if (on !== undefined) parts.push(`on=${on.join(",")}`);
  if (zoom !== undefined) parts.push(`z=${zoom.map((part) => Number(part.toFixed(3))).join(",")}`);
  if (fault !== undefined) parts.push(`fault=${fault}`);
  if (trails !== undefined) parts.push(`trails=${Number(trails)}`);
  return parts.join("&");
}

export { readAddress, addressFragment, MIN_SCALE, MAX_SCALE };
