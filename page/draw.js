// @ts-check
// What is drawn: the yard, and the pictures of slots, bills and marks. Each state has a shape of its own, so no one needs to tell colours apart.

/** @typedef {import('./cells.js').Cells} Cells */
/** @typedef {Record<string, string>} Colours */

/**
 * What the yard shows.
 * @typedef {{
 *   cells: Cells, rails: Uint16Array, at: Uint16Array, goal: Uint16Array,
 *   moves: { carrier: number, from: number, to: number }[], part: number,
 *   bad: { bays: Set<number>, carriers: Set<number>, crossing: { from: number, to: number } | null },
 *   cursor: number | null, held: { carrier: number, goal: boolean, x: number, y: number } | null, editing: boolean,
 * }} Scene
 */

const NAMES = [
  'card', 'ink', 'quiet', 'edge', 'wall', 'wall-line', 'bay', 'rail', 'away', 'on-away', 'home', 'on-home', 'moving', 'on-moving', 'goal', 'bad',
  'kept', 'saved', 'billed', 'second', 'focus',
];

/**
 * The colours of the style sheet, by name.
 * @returns {Colours}
 */
export function coloursNow() {
  const style = getComputedStyle(document.documentElement);
  return Object.fromEntries(NAMES.map((name) => [name, style.getPropertyValue(`--${name}`).trim()]));
}

/** Pixels of the screen for a pixel of the page. */
export function sharpness() {
  return Math.min(3, window.devicePixelRatio || 1);
}

/**
 * A canvas made as sharp as its screen, and its pen in CSS pixels.
 * @param {HTMLCanvasElement} canvas @param {number} width @param {number} height
 */
export function penOf(canvas, width, height) {
  const ratio = sharpness();
  const w = Math.max(1, Math.round(width * ratio));
  const h = Math.max(1, Math.round(height * ratio));
  if (canvas.width !== w || canvas.height !== h) {
    canvas.width = w;
    canvas.height = h;
  }
  const pen = /** @type {CanvasRenderingContext2D} */ (canvas.getContext('2d'));
  pen.setTransform(ratio, 0, 0, ratio, 0, 0);
  return pen;
}

/**
 * Stripes that mark what was refused.
 * @param {CanvasRenderingContext2D} pen @param {number} x @param {number} y @param {number} side @param {string} colour
 */
function stripes(pen, x, y, side, colour) {
  pen.save();
  pen.beginPath();
  pen.rect(x, y, side, side);
  pen.clip();
  pen.strokeStyle = colour;
  pen.lineWidth = Math.max(1.5, side / 14);
  pen.beginPath();
  for (let d = -side; d < side; d += side / 4) {
    pen.moveTo(x + d, y + side);
    pen.lineTo(x + d + side, y);
  }
  pen.stroke();
  pen.strokeRect(x, y, side, side);
  pen.restore();
}

/**
 * The part of the yard that stays while a plan is played: walls, bays, rails, goals. Drawn once to a canvas of its own.
 * @param {CanvasRenderingContext2D} pen @param {Cells} cells @param {Uint16Array} rails @param {Uint16Array} goal
 * @param {number} side @param {Colours} colour
 */
export function drawGround(pen, cells, rails, goal, side, colour) {
  const { width, height, bayAt, cellOf } = cells;
  pen.clearRect(0, 0, width * side, height * side);
  for (let cell = 0; cell < width * height; cell++) {
    const x = (cell % width) * side;
    const y = Math.floor(cell / width) * side;
    if (bayAt[cell] < 0) {
      pen.fillStyle = colour.wall;
      pen.fillRect(x, y, side, side);
      pen.strokeStyle = colour['wall-line'];
      pen.lineWidth = 1;
      pen.beginPath();
      pen.moveTo(x, y + side);
      pen.lineTo(x + side, y);
      pen.moveTo(x, y + side / 2);
      pen.lineTo(x + side / 2, y);
      pen.moveTo(x + side / 2, y + side);
      pen.lineTo(x + side, y + side / 2);
      pen.stroke();
    } else {
      pen.fillStyle = colour.bay;
      pen.fillRect(x + side * 0.05, y + side * 0.05, side * 0.9, side * 0.9);
    }
  }
  pen.strokeStyle = colour.rail;
  pen.lineWidth = Math.max(1, side * 0.07);
  pen.beginPath();
  for (let r = 0; r + 1 < rails.length; r += 2) {
    const a = cellOf[rails[r]];
    const b = cellOf[rails[r + 1]];
    pen.moveTo((a % width) * side + side / 2, Math.floor(a / width) * side + side / 2);
    pen.lineTo((b % width) * side + side / 2, Math.floor(b / width) * side + side / 2);
  }
  pen.stroke();
  for (const bay of goal) if (bay < cellOf.length) drawGoal(pen, (cellOf[bay] % width) * side, Math.floor(cellOf[bay] / width) * side, side, colour);
}

/**
 * The mark of a goal: a square outline.
 * @param {CanvasRenderingContext2D} pen @param {number} x @param {number} y @param {number} side @param {Colours} colour
 */
function drawGoal(pen, x, y, side, colour) {
  const inset = side * 0.08;
  pen.strokeStyle = colour.goal;
  pen.lineWidth = Math.max(1, side * 0.045);
  pen.strokeRect(x + inset, y + inset, side - 2 * inset, side - 2 * inset);
}

/**
 * The tab of a goal, which names its carrier. It stands above a carrier that is in the bay.
 * @param {CanvasRenderingContext2D} pen @param {number} x @param {number} y @param {number} side @param {number} carrier @param {Colours} colour
 */
function drawTab(pen, x, y, side, carrier, colour) {
  if (side < 18) return;
  const inset = side * 0.06;
  pen.font = `600 ${Math.max(7, side * 0.21)}px system-ui, "DejaVu Sans", sans-serif`;
  const words = String(carrier);
  const wide = pen.measureText(words).width + side * 0.08;
  pen.fillStyle = colour.goal;
  pen.fillRect(x + side - inset - wide, y + side - inset - side * 0.24, wide, side * 0.24);
  pen.fillStyle = colour.card;
  pen.textAlign = 'center';
  pen.textBaseline = 'middle';
  pen.fillText(words, x + side - inset - wide / 2, y + side - inset - side * 0.11);
}

/**
 * @param {CanvasRenderingContext2D} pen @param {number} x @param {number} y @param {number} side
 * @param {number} carrier @param {'away' | 'home' | 'moving'} how @param {Colours} colour
 */
function drawCarrier(pen, x, y, side, carrier, how, colour) {
  const radius = side * 0.33;
  pen.beginPath();
  pen.arc(x, y, radius, 0, Math.PI * 2);
  pen.fillStyle = colour[how];
  pen.fill();
  if (how === 'home') {
    pen.lineWidth = Math.max(1.5, side * 0.09);
    pen.strokeStyle = colour['on-home'];
    pen.stroke();
  } else if (how === 'moving') {
    pen.lineWidth = Math.max(1.5, side * 0.05);
    pen.strokeStyle = colour.ink;
    pen.stroke();
  }
  if (side < 14) return;
  pen.fillStyle = colour[`on-${how}`];
  pen.font = `600 ${Math.max(7, side * (carrier > 99 ? 0.27 : 0.33))}px system-ui, "DejaVu Sans", sans-serif`;
  pen.textAlign = 'center';
  pen.textBaseline = 'middle';
  pen.fillText(String(carrier), x, y + side * 0.02);
}

/** The states in which a carrier is drawn, and the tab of its goal. */
const LOOKS = /** @type {const} */ (['away', 'home', 'moving', 'tab']);
const SHEET_COLUMNS = 32;
/** The most pixels of a sheet. A larger one is drawn smaller and stretched. */
const SHEET_PIXELS = 16e6;

/** Every carrier in every state and every goal's tab, drawn once: a frame only copies them. */
export class Sheet {
  /** @param {number} carriers @param {number} side @param {Colours} colour */
  constructor(carriers, side, colour) {
    this.carriers = carriers;
    const count = Math.max(1, carriers) * LOOKS.length;
    this.tile = Math.max(4, Math.min(Math.round(side * sharpness()), Math.floor(Math.sqrt(SHEET_PIXELS / count))));
    this.canvas = document.createElement('canvas');
    this.canvas.width = this.tile * SHEET_COLUMNS;
    this.canvas.height = this.tile * Math.ceil(count / SHEET_COLUMNS);
    const pen = /** @type {CanvasRenderingContext2D} */ (this.canvas.getContext('2d'));
    const scale = this.tile / side;
    for (let c = 0; c < carriers; c++) {
      LOOKS.forEach((look, i) => {
        const { x, y } = this.place(c, i);
        pen.setTransform(scale, 0, 0, scale, x, y);
        if (look === 'tab') drawTab(pen, 0, 0, side, c, colour);
        else drawCarrier(pen, side / 2, side / 2, side, c, look, colour);
      });
    }
  }

  /** @param {number} carrier @param {number} look */
  place(carrier, look) {
    const i = carrier * LOOKS.length + look;
    return { x: (i % SHEET_COLUMNS) * this.tile, y: Math.floor(i / SHEET_COLUMNS) * this.tile };
  }

  /**
   * @param {CanvasRenderingContext2D} pen @param {number} carrier @param {typeof LOOKS[number]} look
   * @param {number} x @param {number} y @param {number} side
   */
  draw(pen, carrier, look, x, y, side) {
    if (carrier >= this.carriers) return;
    const from = this.place(carrier, LOOKS.indexOf(look));
    pen.drawImage(this.canvas, from.x, from.y, this.tile, this.tile, x, y, side, side);
  }
}

/** Paints the yard, frame by frame: only the bays that changed, and what rolls between them. */
export class Painter {
  constructor() {
    /** What each bay shows: the carrier, whether it is home, and whether the goal's tab is shown. */
    this.shown = new Int32Array(0);
    /** Whether the whole yard is painted next: its size, colours or marks have changed. */
    this.stale = true;
  }

  /**
   * @param {CanvasRenderingContext2D} pen @param {{ ground: HTMLCanvasElement, sheet: Sheet, side: number, colour: Colours }} drawn
   * @param {Scene} scene
   */
  paint(pen, drawn, scene) {
    const { cells, bad } = scene;
    const wide = cells.width * drawn.side;
    const tall = cells.height * drawn.side;
    const marked = bad.bays.size > 0 || bad.carriers.size > 0 || bad.crossing !== null || scene.cursor !== null || scene.held !== null;
    if (this.stale || marked || this.shown.length !== cells.cellOf.length) {
      pen.clearRect(0, 0, wide, tall);
      pen.drawImage(drawn.ground, 0, 0, wide, tall);
      this.shown = new Int32Array(cells.cellOf.length).fill(NOTHING);
    }
    this.stale = marked;
    this.paintBays(pen, drawn, scene);
    this.paintMoves(pen, drawn, scene);
    if (!marked) return;
    drawBad(pen, drawn, scene);
    drawHand(pen, drawn, scene);
  }

  /** @param {CanvasRenderingContext2D} pen @param {{ ground: HTMLCanvasElement, sheet: Sheet, side: number }} drawn @param {Scene} scene */
  paintBays(pen, { ground, sheet, side }, { cells, at, goal, moves }) {
    const bays = cells.cellOf.length;
    const moving = new Set(moves.map((move) => move.carrier));
    const next = new Int32Array(bays).fill(NOTHING);
    for (let c = 0; c < at.length; c++) if (at[c] < bays && !moving.has(c)) next[at[c]] = c * 1024 + (at[c] === goal[c] ? 512 : 0);
    for (let c = 0; c < goal.length; c++) if (goal[c] < bays && (at[c] !== goal[c] || moving.has(c))) next[goal[c]] = (next[goal[c]] & ~511) + c + 1;
    const scale = ground.width / (cells.width * side);
    for (let bay = 0; bay < bays; bay++) {
      const now = next[bay];
      const before = this.shown[bay];
      if (now === before) continue;
      const x = (cells.cellOf[bay] % cells.width) * side;
      const y = Math.floor(cells.cellOf[bay] / cells.width) * side;
      if (before !== NOTHING) {
        pen.clearRect(x, y, side, side);
        pen.drawImage(ground, x * scale, y * scale, side * scale, side * scale, x, y, side, side);
      }
      const tab = (now & 511) - 1;
      if (now >= 0) sheet.draw(pen, now >> 10, now & 512 ? 'home' : 'away', x, y, side);
      if (tab >= 0) sheet.draw(pen, tab, 'tab', x, y, side);
      this.shown[bay] = now;
    }
  }

  /** @param {CanvasRenderingContext2D} pen @param {{ sheet: Sheet, side: number }} drawn @param {Scene} scene */
  paintMoves(pen, { sheet, side }, { cells, moves, part }) {
    const { width, cellOf } = cells;
    for (const { carrier, from, to } of moves) {
      if (from >= cellOf.length || to >= cellOf.length) continue;
      const [x, y] = [cellOf[from] % width, Math.floor(cellOf[from] / width)];
      const [toX, toY] = [cellOf[to] % width, Math.floor(cellOf[to] / width)];
      sheet.draw(pen, carrier, 'moving', (x + (toX - x) * part) * side, (y + (toY - y) * part) * side, side);
      // what it rolls over is painted anew in the next frame; between bays that are no neighbours that may be more
      this.shown[from] = this.shown[to] = CHANGED;
      if (Math.abs(toX - x) + Math.abs(toY - y) > 1) this.stale = true;
    }
  }
}

/** What a bay shows that has neither carrier nor tab: no carrier, in the layout of `shown`. And one that must be painted. */
const NOTHING = -1024;
const CHANGED = -1;

/**
 * What was refused: bays and carriers with stripes, a crossing as an arrow.
 * @param {CanvasRenderingContext2D} pen @param {{ sheet: Sheet, side: number, colour: Colours }} drawn @param {Scene} scene
 */
function drawBad(pen, { sheet, side, colour }, { cells, at, bad }) {
  const { width, cellOf } = cells;
  const xOf = (/** @type {number} */ bay) => (cellOf[bay] % width) * side;
  const yOf = (/** @type {number} */ bay) => Math.floor(cellOf[bay] / width) * side;
  for (const bay of bad.bays) if (bay < cellOf.length) stripes(pen, xOf(bay), yOf(bay), side, colour.bad);
  for (const c of bad.carriers) {
    if (!(at[c] < cellOf.length)) continue;
    stripes(pen, xOf(at[c]) + side * 0.02, yOf(at[c]) + side * 0.02, side * 0.96, colour.bad);
    sheet.draw(pen, c, 'away', xOf(at[c]), yOf(at[c]), side);
  }
  if (!bad.crossing) return;
  const { from, to } = bad.crossing;
  drawArrow(pen, xOf(from) + side / 2, yOf(from) + side / 2, xOf(to) + side / 2, yOf(to) + side / 2, side, colour.bad);
}

/**
 * The keyboard's cursor, and what is held by pointer or keyboard.
 * @param {CanvasRenderingContext2D} pen @param {{ sheet: Sheet, side: number, colour: Colours }} drawn @param {Scene} scene
 */
function drawHand(pen, { sheet, side, colour }, { cursor, held, cells }) {
  if (cursor !== null) {
    pen.strokeStyle = colour.focus;
    pen.lineWidth = Math.max(2, side * 0.08);
    pen.strokeRect((cursor % cells.width) * side + 1.5, Math.floor(cursor / cells.width) * side + 1.5, side - 3, side - 3);
  }
  if (!held) return;
  const x = held.x - side / 2;
  const y = held.y - side / 2;
  if (held.goal) drawGoal(pen, x, y, side, colour);
  sheet.draw(pen, held.carrier, held.goal ? 'tab' : 'moving', x, y, side);
}

/**
 * @param {CanvasRenderingContext2D} pen @param {number} x @param {number} y @param {number} toX @param {number} toY
 * @param {number} side @param {string} colour
 */
function drawArrow(pen, x, y, toX, toY, side, colour) {
  const turn = Math.atan2(toY - y, toX - x);
  const point = side * 0.28;
  pen.strokeStyle = colour;
  pen.fillStyle = colour;
  pen.lineWidth = Math.max(2, side * 0.1);
  pen.setLineDash([side * 0.16, side * 0.1]);
  pen.beginPath();
  pen.moveTo(x + Math.cos(turn) * side * 0.36, y + Math.sin(turn) * side * 0.36);
  pen.lineTo(toX - Math.cos(turn) * point * 0.5, toY - Math.sin(turn) * point * 0.5);
  pen.stroke();
  pen.setLineDash([]);
  pen.beginPath();
  pen.moveTo(toX, toY);
  pen.lineTo(toX - point * Math.cos(turn - 0.5), toY - point * Math.sin(turn - 0.5));
  pen.lineTo(toX - point * Math.cos(turn + 0.5), toY - point * Math.sin(turn + 0.5));
  pen.fill();
}

/** Where a picture's axes begin and end, from the left and from the right. */
export const PICTURE_LEFT = 38;
export const PICTURE_RIGHT = 4;

/** The font of a picture's figures, in the reader's own size. */
function smallFont() {
  return `${0.7 * parseFloat(getComputedStyle(document.documentElement).fontSize)}px system-ui, "DejaVu Sans", sans-serif`;
}

/**
 * Clears a picture and writes the least and the most of its upright axis.
 * @param {CanvasRenderingContext2D} pen @param {number} width @param {number} height @param {number} foot @param {number} most @param {Colours} colour
 * @returns {(n: number) => number} where a number stands
 */
function axis(pen, width, height, foot, most, colour) {
  const tall = height - foot - 8;
  const y = (/** @type {number} */ n) => 8 + tall - (n / most) * tall;
  pen.clearRect(0, 0, width, height);
  pen.font = smallFont();
  pen.fillStyle = colour.quiet;
  pen.textAlign = 'right';
  pen.textBaseline = 'middle';
  pen.fillText(String(most), PICTURE_LEFT - 4, y(most) + 4);
  pen.fillText('0', PICTURE_LEFT - 4, y(0) - 4);
  return y;
}

/**
 * What the picture of slots shows. `secondShare` is the second edition's length as a part of the first's, `place` a part of the first's too.
 * @typedef {{ first: Float64Array, second: Float64Array | null, secondShare: number, most: number, place: number }} SlotCounts
 */

/**
 * Crossings in each slot, over time: the first edition as an area, the second as a dashed line on the same time axis.
 * @param {CanvasRenderingContext2D} pen @param {number} width @param {number} height @param {SlotCounts} slots @param {Colours} colour
 */
export function drawSlots(pen, width, height, slots, colour) {
  const wide = width - PICTURE_LEFT - PICTURE_RIGHT;
  const y = axis(pen, width, height, 4, slots.most, colour);
  pen.strokeStyle = colour.edge;
  pen.lineWidth = 1;
  pen.strokeRect(PICTURE_LEFT, y(slots.most), wide, y(0) - y(slots.most));
  const bar = wide / slots.first.length;
  pen.fillStyle = colour.kept;
  slots.first.forEach((n, i) => pen.fillRect(PICTURE_LEFT + i * bar, y(n), Math.max(0.7, bar - (bar > 3 ? 1 : 0)), y(0) - y(n)));
  if (slots.second) {
    const step = (wide * slots.secondShare) / slots.second.length;
    pen.strokeStyle = colour.second;
    pen.lineWidth = 2;
    pen.setLineDash([5, 3]);
    pen.beginPath();
    slots.second.forEach((n, i) => {
      pen.lineTo(PICTURE_LEFT + i * step, y(n));
      pen.lineTo(PICTURE_LEFT + (i + 1) * step, y(n));
    });
    pen.stroke();
    pen.setLineDash([]);
  }
  drawPlace(pen, PICTURE_LEFT + slots.place * wide, height, colour.ink);
}

/**
 * The present place, as a line with a head.
 * @param {CanvasRenderingContext2D} pen @param {number} x @param {number} height @param {string} colour
 */
function drawPlace(pen, x, height, colour) {
  pen.fillStyle = colour;
  pen.fillRect(x - 1, 2, 2, height - 4);
  pen.beginPath();
  pen.moveTo(x - 5, 0);
  pen.lineTo(x + 5, 0);
  pen.lineTo(x, 7);
  pen.fill();
}

/**
 * A bar for each carrier: billed after shortening, saved by it on top, and how much of it the log has billed so far.
 * @param {CanvasRenderingContext2D} pen @param {number} width @param {number} height
 * @param {{ before: number[], after: number[], billed: number[] }} bills @param {Colours} colour
 */
export function drawBills(pen, width, height, bills, colour) {
  const k = bills.before.length;
  pen.clearRect(0, 0, width, height);
  if (k === 0) return;
  const y = axis(pen, width, height, 18, Math.max(1, ...bills.before), colour);
  const wide = (width - PICTURE_LEFT - PICTURE_RIGHT) / k;
  const bar = Math.min(26, Math.max(1, wide - (wide > 4 ? 2 : wide > 2 ? 0.5 : 0)));
  const every = Math.ceil(pen.measureText('0000').width / wide);
  pen.textAlign = 'center';
  for (let c = 0; c < k; c++) {
    const x = PICTURE_LEFT + c * wide + (wide - bar) / 2;
    pen.fillStyle = colour.kept;
    pen.fillRect(x, y(bills.after[c]), bar, y(0) - y(bills.after[c]));
    if (bills.before[c] > bills.after[c]) hatch(pen, x, y(bills.before[c]), bar, y(bills.after[c]) - y(bills.before[c]), colour.saved);
    pen.fillStyle = colour.billed;
    if (bills.billed[c] > 0) pen.fillRect(x - 1, y(bills.billed[c]) - 1.5, bar + 2, 3);
    pen.fillStyle = colour.quiet;
    if (c % every === 0) pen.fillText(String(c), PICTURE_LEFT + (c + 0.5) * wide, height - 6);
  }
}

/**
 * A box filled with slanting lines.
 * @param {CanvasRenderingContext2D} pen @param {number} x @param {number} y @param {number} wide @param {number} tall @param {string} colour
 */
function hatch(pen, x, y, wide, tall, colour) {
  pen.save();
  pen.beginPath();
  pen.rect(x, y, wide, tall);
  pen.clip();
  pen.strokeStyle = colour;
  pen.lineWidth = 2;
  pen.beginPath();
  for (let d = -wide; d < tall + wide; d += 5) {
    pen.moveTo(x, y + d + wide);
    pen.lineTo(x + wide, y + d);
  }
  pen.stroke();
  pen.strokeRect(x, y, wide, tall);
  pen.restore();
}

/**
 * The marks as a strip, in plan order: how much of each part is done.
 * @param {CanvasRenderingContext2D} pen @param {number} width @param {number} height @param {Uint8Array} marks @param {Colours} colour
 */
export function drawMarks(pen, width, height, marks, colour) {
  pen.clearRect(0, 0, width, height);
  pen.fillStyle = colour.bay;
  pen.fillRect(0, 0, width, height);
  const columns = Math.min(marks.length, Math.max(1, Math.floor(width)));
  pen.fillStyle = colour.kept;
  for (let i = 0; i < columns; i++) {
    const from = Math.floor((i * marks.length) / columns);
    const to = Math.floor(((i + 1) * marks.length) / columns);
    let done = 0;
    for (let m = from; m < to; m++) done += marks[m];
    const tall = (done / (to - from)) * height;
    const gap = width / columns > 4 ? 1 : 0;
    pen.fillRect((i * width) / columns, height - tall, width / columns - gap, tall);
  }
}
