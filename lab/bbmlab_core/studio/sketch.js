/**
 * Shows a layout that is being drawn: the viewer's picture with ways, marks, the selection and what a tool would do.
 */
import { chooseNamePlaces } from "../view/labels.js";
import * as painting from "../view/painting.js";
import { Stage } from "../view/stage.js";
import { SquareIndex, changedIndexes } from "../view/tiles.js";
import * as geometry from "./geometry.js";
import * as surveys from "./survey.js";

const { RULER_SIZE } = painting;
// A way in a survey has five numbers: x, y, x, y and a colour.
const WIRE_INK_COUNT = 8, NUMBERS_PER_WAY = 5, PORT_FONT = "600 12px system-ui, sans-serif";

/** Returns the colours of wires as the page is shown now. */
function wireInks() {
  const style = getComputedStyle(document.documentElement);
  return [...Array(WIRE_INK_COUNT).keys()].map((index) => style.getPropertyValue(`--wire-${index}`).trim());
}

class EditorStage extends Stage {
  desk;
  ghost = null;
  selected = [];
  frame2 = null;
  cursor = null;
  faults = [];
  base;
  isStale = true;
  isBaseStale = true;

  /** @param {EditedLayout} desk @param {Object<string, HTMLElement>} parts */
  constructor(desk, parts) {
    super(desk.player, parts);
    // What a tool would do: parts, why they cannot be, ports of a cell; the selected parts, a frame, the keyboard's
    // cell, faults' cells.
    this.desk = desk;
    this.hasTrails = false;
    // The canvas that holds the layout with its ways, whether they changed since the last frame, and whether since the
    // canvas was drawn.
    this.base = document.createElement("canvas");
  }

  /** Shows the desk's layout as it is now. */
  showEditedLayout() {
    const { layout, player } = this.desk;
    const isOther = layout.width !== this.layout.width || layout.height !== this.layout.height;
    this.player = player;
    this.layout = layout;
    this.good = null;
    this.updateMirrors();
    if (isOther && this.isFit) this.fitWholeLayout();
    else this.requestPaint();
  }

  /** Draws the waveform, if it is open. */
  paintWave() { if (this.desk.hasWave) super.paintWave(); }

  /** Returns the colour of a wire by its number in the survey's order. */
  inkOfColour(colour, inks, place) {
    if (colour === surveys.CONSTANT_COLOUR) return place.inks.soft;
    return colour === surveys.OTHER_COLOUR ? place.inks.border : inks[(colour - 1) % WIRE_INK_COUNT];
  }

  /** Draws at the next frame. The layout with its ways is drawn again too. */
  requestPaint() {
    this.isStale = true;
    super.requestPaint();
  }

  /** Draws at the next frame what changes while one draws: only what lies over the layout. */
  requestOver() { super.requestPaint(); }

  /**
   * Draws the layout with its ways, and what lies over it. While only that changes, the layout comes from a canvas that
   * holds it. While the picture moves, such a canvas would be drawn in vain.
   */
  paintWhole(place, pointed = this.pointed) {
    const { pen, wide, high } = place, { width, height } = pen.canvas;
    if (this.isStale) this.paintLayout(place);
    else {
      if (this.isBaseStale || this.base.width !== width || this.base.height !== height) this.paintBaseCanvas(place);
      pen.drawImage(this.base, 0, 0, wide, high);
    }
    this.isBaseStale ||= this.isStale;
    this.isStale = false;
    pen.save();
    pen.beginPath();
    pen.rect(RULER_SIZE.wide, RULER_SIZE.high, place.wide, place.high);
    pen.clip();
    for (const { box } of this.selected) painting.paintBoxOutline(place, box, place.inks.box, [], -2, 3);
    if (this.ghost) this.paintGhost(place, this.ghost);
    if (this.frame2) painting.paintBoxOutline(place, this.frame2, place.inks.box, [5, 4], 0, 1.5);
    if (this.cursor) painting.paintBoxOutline(place, [...this.cursor, 1, 1], place.inks.box, [], 1, 2);
    pen.restore();
    painting.paintRulers(place, this.layout, pointed);
  }

  /** Draws the layout with its ways on a canvas of its own, which is then shown at each frame. */
  paintBaseCanvas(shown) {
    this.base.width = shown.pen.canvas.width;
    this.base.height = shown.pen.canvas.height;
    const place = { ...shown, pen: this.base.getContext("2d") };
    place.pen.setTransform(shown.pen.getTransform());
    this.isBaseStale = false;
    this.paintLayout(place);
  }

  /** Draws the layout with its ways and marks. */
  paintLayout(place) {
    super.paintWhole(place, null);
    if (this.desk.survey) this.paintSurveyMarks(place);
    for (const { box } of this.desk.unstable) painting.paintBoxOutline(place, box, place.inks.bad, [], -2, 2.5);
    for (const cell of this.faults) painting.paintCellCircle(place, cell);
  }

  /** Files the ways by the squares of the layout, once for each survey. */
  indexWays() {
    const { ways } = this.desk.survey;
    if (this.filedOf === ways) return;
    this.filed = new SquareIndex();
    for (let index = 0; index < ways.length; index += NUMBERS_PER_WAY) this.filed.addPiece(ways[index], ways[index + 1],
        ways[index + 2], ways[index + 3]);
    this.filedOf = ways;
  }

  /** Draws new ways at the next frame, and only the tiles again that show another way. */
  showChangedWays() {
    const { survey } = this.desk, fresh = survey ? survey.ways : [], old = this.shownWays || [];
    const changed = new SquareIndex();
    if (fresh === old) return;
    const { gone, added } = changedIndexes(old, fresh, NUMBERS_PER_WAY);
    for (const [list, places] of [[old, gone], [fresh, added]]) for (const at of places) changed.addPiece(list[at],
        list[at + 1], list[at + 2], list[at + 3]);
    this.shownWays = fresh;
    this.tiles.forget(changed);
    this.requestPaint();
  }

  /** Draws the ways of the balls in a range of cells, in the colours of their wires. */
  drawWays({ pen, scale, left, top, inks: shown }, range) {
    if (!this.desk.survey) return;
    const { ways } = this.desk.survey, inks = wireInks(), paths = new Map();
    this.indexWays();
    this.filed.visitRange(range, (number) => {
      const colour = ways[NUMBERS_PER_WAY * number + 4];
      if (!paths.has(colour)) paths.set(colour, []);
      paths.get(colour).push(NUMBERS_PER_WAY * number);
    });
    pen.lineWidth = Math.max(1.2, Math.min(0.16 * scale, 3));
    pen.globalAlpha = 0.75;
    for (const [colour, places] of paths) {
      pen.strokeStyle = this.inkOfColour(colour, inks, { inks: shown });
      pen.beginPath();
      for (const index of places) {
        pen.moveTo((ways[index] + 0.5 - left) * scale, (ways[index + 1] + 0.5 - top) * scale);
        pen.lineTo((ways[index + 2] + 0.5 - left) * scale, (ways[index + 3] + 0.5 - top) * scale);
      }
      pen.stroke();
    }
    pen.globalAlpha = 1;
  }

  /** Marks where balls meet, where one meets a mirror, where one breaks a mirror, and where one leaves. */
  paintSurveyMarks(place) {
    const { pen, scale, left, top, inks } = place, { marks } = this.desk.survey;
    if (scale < 4) return;
    for (let index = 0; index < marks.length; index += 3) {
      const x = (marks[index] + 1 - left) * scale, y = (marks[index + 1] + 1 - top) * scale, kind = marks[index + 2];
      if (x < 0 || y < 0 || x > place.wide || y > place.high) continue;
      const isBad = kind === "broken" || kind === "left", size = isBad ? 6 : Math.min(4, scale * 0.22);
      pen.beginPath();
      if (kind === "bounce") pen.rect(x - size / 2, y - size / 2, size, size);
      else pen.arc(x, y, size, 0, 2 * Math.PI);
      pen.lineWidth = isBad ? 2.5 : 1.5;
      pen.strokeStyle = isBad ? inks.bad : inks.box;
      pen.fillStyle = inks.paper;
      if (kind === "meet") pen.fill();
      pen.stroke();
    }
  }

  /** Draws what a tool would do: in red if it cannot. */
  paintGhost(place, { parts, reason, ports = [], wanted = null, time = 0, link = null }) {
    const { pen, scale } = place, ink = reason ? place.inks.bad : place.inks.good;
    if (link) this.paintLink(place, link, ink);
    if (wanted) painting.paintBoxOutline(place, wanted, place.inks.bad, [3, 3], 0, 1.5);
    for (const { kind, name, box } of parts) {
      pen.globalAlpha = 0.3;
      pen.fillStyle = ink;
      pen.fillRect((box[0] - place.left) * scale, (box[1] - place.top) * scale, box[2] * scale, box[3] * scale);
      pen.globalAlpha = 1;
      painting.paintBoxOutline(place, box, ink, kind === "mirror" ? [] : [3, 2], 0, 2);
      if (kind !== "mirror" && kind !== "waste" && ports.length === 0) this.paintArrow(place, box,
          geometry.flightDirection(box[0], box[1], kind === "out" ? time : 0), ink);
      if (name && ports.length === 0 && parts.length <= 2) this.paintWord(place, box, name, ink);
    }
    if (ports.length) this.paintGhostPorts(place, ports, parts);
  }

  /** Draws the ports of a standard cell, each with its name and its time, off each other. */
  paintGhostPorts(place, ports, parts) {
    const { pen, scale, left, top, inks } = place;
    const words = ports.map(({ role, name, time }) => `${role} ${name} at time ${time}`);
    const rect = ([x, y, w, h]) => ({ x: (x - left) * scale, y: (y - top) * scale, width: w * scale,
      height: h * scale });
    pen.font = PORT_FONT;
    const names = ports.map(({ cell: [x, y], direction: [dx, dy] }, index) =>
      ({ isAbove: dy > 0, height: 15, width: pen.measureText(words[index]).width + 4,
      cell: rect([x - Number(dx < 0), y - Number(dy < 0), 2, 2]) }));
    chooseNamePlaces(names, parts.map(({ box }) => rect(box)), []).forEach(({ box, away }, index) => {
      const { cell: [x, y], direction } = ports[index], middle = rect([x + 0.5, y + 0.5, 0, 0]);
      this.paintArrow(place, [x, y], direction, inks.box);
      if (away > 0) {
        pen.lineWidth = 1;
        pen.beginPath();
        pen.moveTo(box.x + box.width / 2, box.y + (box.y > middle.y ? 0 : box.height));
        pen.lineTo(middle.x, middle.y);
        pen.stroke();
      }
      this.paintText(place, words[index], box.x + 2, box.y + 11, inks.box);
    });
  }

  /** Draws a dashed line between the middles of two cells. */
  paintLink({ pen, scale, left, top }, [from, to], ink) {
    pen.strokeStyle = ink;
    pen.lineWidth = 2;
    pen.setLineDash([6, 4]);
    pen.beginPath();
    pen.moveTo((from[0] + 0.5 - left) * scale, (from[1] + 0.5 - top) * scale);
    pen.lineTo((to[0] + 0.5 - left) * scale, (to[1] + 0.5 - top) * scale);
    pen.stroke();
    pen.setLineDash([]);
  }

  /** Draws an arrow from a cell in the direction of its ball. */
  paintArrow(place, [x, y], [dx, dy], ink) {
    const { pen, scale } = place, u = (x + 0.5 - place.left) * scale, v = (y + 0.5 - place.top) * scale;
    const far = Math.max(10, 1.6 * scale);
    pen.strokeStyle = ink;
    pen.lineWidth = 2;
    pen.beginPath();
    pen.moveTo(u, v);
    pen.lineTo(u + dx * far, v + dy * far);
    pen.moveTo(u + dx * far, v + dy * (far - 6));
    pen.lineTo(u + dx * far, v + dy * far);
    pen.lineTo(u + dx * (far - 6), v + dy * far);
    pen.stroke();
  }

  /** Writes a word next to a cell. */
  paintWord(place, [x, y], text, ink) { this.paintText(place, text, (x + 1.3 - place.left) * place.scale,
    (y - 0.2 - place.top) * place.scale, ink); }

  /** Writes a text on a plate at a place of the canvas. */
  paintText({ pen, inks }, text, x, y, ink) {
    pen.font = PORT_FONT;
    pen.textAlign = "left";
    pen.fillStyle = inks.paper;
    pen.globalAlpha = 0.85;
    pen.fillRect(x - 2, y - 11, pen.measureText(text).width + 4, 14);
    pen.globalAlpha = 1;
    pen.fillStyle = ink;
    pen.fillText(text, x, y);
  }
}

export { EditorStage, wireInks };
