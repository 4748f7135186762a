// @ts-check
// A plan with all that the library says of it: its check, its print, both editions of slots, and its bill when all is done.

import { ACCEPTED, linesOf, recordOf } from './library.js';
import { Books } from './books.js';
import { Track, byName, bySlot, crossingsOf } from './track.js';

/** @typedef {import('./library.js').Library} Library */
/** @typedef {import('./library.js').Yard} Yard */
/** @typedef {import('./library.js').Orders} Orders */
/** @typedef {'name' | 'slot' | 'train'} By */

export class Plan {
  /** @param {Library} library @param {Yard} yard @param {Orders} orders @param {BigUint64Array} plan */
  constructor(library, yard, orders, plan) {
    this.plan = plan;
    this.orders = orders;
    this.crossings = crossingsOf(plan);
    this.check = library.check(yard, orders, plan);
    this.printed = library.printPlan(plan);
    /**
     * The printed lines, one for each crossing.
     * @type {string[]}
     */
    this.lines = this.printed.answer === ACCEPTED ? new TextDecoder().decode(this.printed.print).split('\n') : [];
    this.good = this.check.answer === ACCEPTED;
    this.first = this.good ? library.slots(1, yard, orders, plan) : null;
    this.second = this.good ? library.slots(2, yard, orders, plan) : null;
    this.books = this.good ? new Books(library, yard, orders, plan, this.crossings) : null;
    this.books?.open(new Uint8Array(plan.length));
    const whole = this.good ? library.open(yard, orders, plan, new Uint8Array(plan.length).fill(1)) : null;
    /** What each carrier is billed when all is done. */
    this.bills = whole && whole.answer === ACCEPTED ? linesOf(whole.books.lines).map((line) => line.billed) : [];
    this.highest = whole && whole.answer === ACCEPTED ? recordOf(whole.books.record, 0).highest : 0;
    /** @type {Map<By, Track>} */
    this.tracks = new Map();
    this.steps = {
      slot: this.first?.answer === ACCEPTED ? bySlot(this.first.slots) : null,
      train: this.second?.answer === ACCEPTED ? bySlot(this.second.slots) : null,
    };
  }

  /**
   * Whether the plan can be played so.
   * @param {By} by
   */
  can(by) {
    return by === 'name' || this.steps[by] !== null;
  }

  /** @param {By} by @returns {Track} */
  track(by) {
    const how = this.can(by) ? by : 'name';
    let track = this.tracks.get(how);
    if (!track) {
      track = new Track(this.crossings, this.orders.start, (how !== 'name' && this.steps[how]) || byName(this.plan.length));
      this.tracks.set(how, track);
    }
    return track;
  }

  /**
   * A crossing as it is printed on the docket.
   * @param {number} name @returns {string}
   */
  line(name) {
    const { carrier, from, to } = this.crossings;
    return this.lines[name] ?? `carrier ${carrier[name]} from bay ${from[name]} to bay ${to[name]}`;
  }
}
