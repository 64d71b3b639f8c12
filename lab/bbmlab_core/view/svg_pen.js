/** A pen that writes SVG: as much of a canvas's 2D context as `painting` uses. */

/** Writes a number with at most two digits after the point. */
const shortNumber = (value) => String(Math.round(value * 100) / 100);

/** Writes a text for XML, between tags and in attributes. */
const escaped = (text) => String(text).replace(/[&<>"']/g, (sign) => `&#${sign.charCodeAt(0)};`);

const TEXT_ANCHORS = { left: "start", start: "start", center: "middle", right: "end", end: "end" };

class SvgPen {
  wide;
  high;
  measure;
  parts = [];
  path = [];
  dash = [];
  fillStyle = "#000";
  strokeStyle = "#000";
  lineWidth = 1;
  globalAlpha = 1;
  font = "10px sans-serif";
  textAlign = "left";

  /**
   * @param {number} wide
   * @param {number} high
   * @param {(text: string, font: string) => number} measure the width of a text
   */
  constructor(wide, high, measure) {
    this.wide = wide;
    this.high = high;
    this.measure = measure;
  }

  measureText(text) { return { width: this.measure(text, this.font) }; }

  setLineDash(dash) { this.dash = dash; }

  beginPath() { this.path = []; }

  moveTo(x, y) { this.path.push(`M${shortNumber(x)} ${shortNumber(y)}`); }

  lineTo(x, y) { this.path.push(`L${shortNumber(x)} ${shortNumber(y)}`); }

  /** Adds a whole circle. Arcs of other angles are not needed. */
  arc(x, y, radius) {
    const r = shortNumber(radius), across = shortNumber(2 * radius);
    const start = `${shortNumber(x - radius)} ${shortNumber(y)}`;
    this.path.push(`M${start}a${r} ${r} 0 1 0 ${across} 0a${r} ${r} 0 1 0 -${across} 0`);
  }

  rect(x, y, wide, high) {
    const start = `${shortNumber(x)} ${shortNumber(y)}`;
    this.path.push(`M${start}h${shortNumber(wide)}v${shortNumber(high)}h${shortNumber(-wide)}z`);
  }

  /** Files an element, unless its path is empty. */
  addPath(attributes) {
    const opacity = this.globalAlpha === 1 ? "" : ` opacity="${shortNumber(this.globalAlpha)}"`;
    if (this.path.length) this.parts.push(`<path d="${this.path.join("")}" ${attributes}${opacity}/>`);
  }

  fill() { this.addPath(`fill="${escaped(this.fillStyle)}"`); }

  stroke() {
    const dash = this.dash.length ? ` stroke-dasharray="${this.dash.map(shortNumber).join(" ")}"` : "";
    const width = shortNumber(this.lineWidth);
    this.addPath(`fill="none" stroke="${escaped(this.strokeStyle)}" stroke-width="${width}"${dash}`);
  }

  fillRect(...box) {
    this.beginPath();
    this.rect(...box);
    this.fill();
  }

  strokeRect(...box) {
    this.beginPath();
    this.rect(...box);
    this.stroke();
  }

  fillText(text, x, y) {
    const style = `text-anchor="${TEXT_ANCHORS[this.textAlign]}" style="font:${escaped(this.font)}" `
      + `fill="${escaped(this.fillStyle)}"`;
    this.parts.push(`<text x="${shortNumber(x)}" y="${shortNumber(y)}" ${style}>${escaped(text)}</text>`);
  }

  /** Returns the picture on a ground. @type {(ground: string, title: string) => string} */
  svgDocument(ground, title) {
    const size = `${shortNumber(this.wide)} ${shortNumber(this.high)}`;
    const sides = `width="${shortNumber(this.wide)}" height="${shortNumber(this.high)}"`;
    return `<svg xmlns="http://www.w3.org/2000/svg" viewBox="0 0 ${size}" ${sides} role="img">`
      + `<title>${escaped(title)}</title>\n<rect width="100%" height="100%" fill="${escaped(ground)}"/>\n`
      + `${this.parts.join("\n")}\n</svg>\n`;
  }
}

export { SvgPen };
