// @ts-check
// Where each bay of a map is drawn. The library says which cell is which bay: it is asked to read a scenario of one carrier that stands there.

import { ACCEPTED, MISSING } from './library.js';

/** @typedef {{ width: number, height: number, bayAt: Int32Array, cellOf: Uint16Array }} Cells bayAt is -1 for a wall */

const text = new TextEncoder();

/**
 * The line of one carrier, from one cell to another, as a scenario has it.
 * @param {Cells | { width: number, height: number }} cells @param {string} map
 * @param {number} startX @param {number} startY @param {number} goalX @param {number} goalY
 */
function carrierLine({ width, height }, map, startX, startY, goalX, goalY) {
  return `0\t${map}\t${width}\t${height}\t${startX}\t${startY}\t${goalX}\t${goalY}\t0\n`;
}

/**
 * The cells of a map that the library has read, or null if it has no reader of scenarios.
 * @param {import('./library.js').Library} library @param {Uint8Array} map @param {number} bays @returns {Cells | null}
 */
export function cellsOf(library, map, bays) {
  const [, height, width] = new TextDecoder().decode(map).split('\n', 3).map((line) => Number(line.match(/\d+/)?.[0] ?? 0));
  const cells = { width, height, bayAt: new Int32Array(width * height).fill(-1), cellOf: new Uint16Array(bays) };
  for (let cell = 0; cell < width * height; cell++) {
    const x = cell % width;
    const y = (cell - x) / width;
    const said = library.scenario(map, text.encode(`version 1\n${carrierLine(cells, 'm', x, y, x, y)}`));
    if (said.answer === MISSING) return null;
    if (said.answer !== ACCEPTED) continue;
    const bay = said.orders.start[0];
    cells.bayAt[cell] = bay;
    cells.cellOf[bay] = cell;
  }
  return cells;
}

/**
 * A scenario file for these carriers.
 * @param {Cells} cells @param {import('./library.js').Orders} orders @param {string} map @returns {Uint8Array}
 */
export function scenarioFile(cells, orders, map) {
  const name = map.replace(/[^\x21-\x7e]/g, '-').slice(0, 128) || 'map';
  const place = (/** @type {number} */ bay) => [cells.cellOf[bay] % cells.width, Math.floor(cells.cellOf[bay] / cells.width)];
  let file = 'version 1\n';
  for (let c = 0; c < orders.start.length; c++) {
    const [startX, startY] = place(orders.start[c]);
    const [goalX, goalY] = place(orders.goal[c]);
    file += carrierLine(cells, name, startX, startY, goalX, goalY);
  }
  return text.encode(file);
}

/**
 * A cell for a reader: its column and row, from 0 at top left, as in a scenario.
 * @param {Cells} cells @param {number} bay
 */
export function cellWords(cells, bay) {
  const cell = cells.cellOf[bay];
  return `column ${cell % cells.width}, row ${Math.floor(cell / cells.width)}`;
}
