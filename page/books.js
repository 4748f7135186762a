// @ts-check
// The log of one plan: marks, record and account lines as the library keeps them, and every answer in the order in which it came. Beside them the
// accepted crossings are played in the order of acceptance, so that a reader can see both placements agree.

import { ACCEPTED, ALREADY, linesOf, recordOf } from './library.js';

/** @typedef {import('./library.js').Library} Library */
/** @typedef {import('./library.js').Yard} Yard */
/** @typedef {import('./library.js').Orders} Orders */
/** @typedef {import('./library.js').Answer} Answer */
/** @typedef {import('./track.js').Crossings} Crossings */

/** The last name in the line of a carrier to which nothing is billed. */
export const UNTOUCHED = 65536;

export class Books {
  /** @param {Library} library @param {Yard} yard @param {Orders} orders @param {BigUint64Array} plan @param {Crossings} crossings */
  constructor(library, yard, orders, plan, crossings) {
    this.library = library;
    this.yard = yard;
    this.orders = orders;
    this.plan = plan;
    this.crossings = crossings;
    this.marks = new Uint8Array(plan.length);
    /** @type {import('./library.js').Bytes} */
    this.books = { record: new Uint8Array(520), lines: new Uint8Array(0) };
    /** @type {({ name: number } & Answer)[]} */
    this.answers = [];
    this.played = orders.start.slice();
    this.tally = { accepted: 0, already: 0, refused: 0 };
  }

  /**
   * Opens the books at these marks. A refusal changes nothing.
   * @param {Uint8Array} marks @returns {Answer}
   */
  open(marks) {
    const said = this.library.open(this.yard, this.orders, this.plan, marks);
    if (said.answer !== ACCEPTED) return said;
    this.marks = marks;
    this.books = said.books;
    this.answers = [];
    this.tally = { accepted: 0, already: 0, refused: 0 };
    this.played = this.orders.start.slice();
    marks.forEach((mark, name) => {
      if (mark === 1) this.play(name);
    });
    return said;
  }

  /** @param {number} name */
  play(name) {
    this.played[this.crossings.carrier[name]] = this.crossings.to[name];
  }

  /** @param {number} name @returns {Answer} */
  report(name) {
    const said = this.library.report(this.yard, this.orders, this.plan, this.marks, name, this.books);
    this.marks = said.marks;
    this.books = said.books;
    const told = { answer: said.answer, value: said.value };
    this.answers.push({ name, ...told });
    if (said.answer === ACCEPTED) {
      this.tally.accepted++;
      this.play(name);
    } else if (said.answer === ALREADY) this.tally.already++;
    else this.tally.refused++;
    return told;
  }

  get record() {
    return recordOf(this.books.record, this.orders.start.length);
  }

  get lines() {
    return linesOf(this.books.lines);
  }

  /** Whether the library says that record and lines agree with plan, start and marks. */
  agrees() {
    const said = this.library.agrees(this.yard, this.orders, this.plan, this.marks, this.books);
    return said.answer === ACCEPTED && said.value === 1;
  }

  /**
   * Where the carriers stand by the marks alone, worked out afresh by the library.
   * @returns {Uint16Array}
   */
  byMarks() {
    const said = this.library.placement(this.yard, this.orders, this.plan, this.marks);
    if (said.answer === ACCEPTED) return said.at;
    // an older module has no function for it alone, and says it when the books are opened
    return recordOf(this.library.open(this.yard, this.orders, this.plan, this.marks).books.record, this.orders.start.length).at;
  }

  /**
   * The carriers whose two placements differ.
   * @returns {number[]}
   */
  differing() {
    const marked = this.byMarks();
    return [...marked.keys()].filter((c) => marked[c] !== this.played[c]);
  }
}
