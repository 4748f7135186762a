// @ts-check
// What kind of file was handed in, the lines of a file for a reader, and the files that the log writes.

import { ACCEPTED, ALREADY } from './library.js';
import { UNTOUCHED } from './books.js';
import { valued } from './words.js';

/** @typedef {'map' | 'scenario' | 'plan' | 'marks' | 'reports' | 'bill'} Kind */

/**
 * What a file is, by its name's ending or else its first bytes. Reading it is the library's.
 * @param {string} name @param {Uint8Array} bytes @returns {Kind}
 */
export function kindOf(name, bytes) {
  const ending = name.toLowerCase().match(/\.([a-z]+)$/)?.[1] ?? '';
  /** @type {Record<string, Kind>} */
  const endings = { map: 'map', scen: 'scenario', plan: 'plan', out: 'plan', marks: 'marks', reports: 'reports', csv: 'bill' };
  if (endings[ending]) return endings[ending];
  if (bytes.length > 0 && bytes.every((byte) => byte < 2)) return 'marks';
  const head = new TextDecoder().decode(bytes.subarray(0, 32));
  if (head.startsWith('version')) return 'scenario';
  if (/^\s*[(;]/.test(head)) return 'plan';
  if (/^[a-z]+,/.test(head)) return 'bill';
  if (/^\d+\r?\n/.test(head)) return 'reports';
  return 'map';
}

/**
 * A line of a file, from 1, for a reader; null past the end.
 * @param {Uint8Array} bytes @param {number} line @returns {string | null}
 */
export function lineOf(bytes, line) {
  return new TextDecoder().decode(bytes).split(/\r?\n/)[line - 1] ?? null;
}

/** @typedef {{ name: number, answer: number, value: number }} Answered */

/**
 * What a bill is written from.
 * @typedef {{ answers: Answered[], orders: { start: Uint16Array }, record: { at: Uint16Array }, lines: { billed: number, last: number }[] }} Billed
 */

/**
 * An answer as three fields of a bill.
 * @param {Answered} said @returns {string}
 */
function fieldsOf({ answer, value }) {
  if (answer === ACCEPTED) return 'accepted,,';
  if (answer === ALREADY) return 'already,,';
  return `refused,${answer},${valued(answer) ? value : ''}`;
}

/**
 * The bill as `./vault --bill` prints it: each report with its answer, from 1, then each carrier's account.
 * @param {Billed} books @returns {string}
 */
export function billOf(books) {
  const rows = ['report,name,answer,number,value'];
  books.answers.forEach((said, i) => rows.push(`${i + 1},${said.name},${fieldsOf(said)}`));
  rows.push('', 'carrier,start,now,billed,last');
  const { at } = books.record;
  books.lines.forEach(({ billed, last }, c) => {
    rows.push(`${c},${books.orders.start[c]},${at[c]},${billed},${last === UNTOUCHED ? '' : last}`);
  });
  return `${rows.join('\n')}\n`;
}

/**
 * The names that a bill's reports have, in order; null if it is no bill.
 * @param {string} bill @returns {number[] | null}
 */
export function namesOf(bill) {
  const rows = bill.split(/\r?\n/);
  const end = rows.indexOf('');
  if (!rows[0].startsWith('report,name,') || !rows[end + 1]?.startsWith('carrier,')) return null;
  const names = rows.slice(1, end).map((row) => row.split(',')[1] ?? '');
  return names.every((name) => /^\d{1,15}$/.test(name)) ? names.map(Number) : null;
}

/**
 * The reports in the order in which they came, one name a line.
 * @param {{ name: number }[]} answers @returns {string}
 */
export function reportsOf(answers) {
  return answers.map(({ name }) => `${name}\n`).join('');
}
