// @ts-check
// A line between a depot and the log that loses, repeats and reorders, from a fixed seed. The depot drives the plan's crossings in a given order,
// reports each, and reports again whatever has no answer yet. What the log answers is asked of the caller.

import { ACCEPTED, ALREADY } from './library.js';

/** @typedef {{ loss: number, repeat: number, reorder: number, seed: number }} Faults chances from 0 to 1 */

/** @typedef {{ answer: number, value: number }} Told */

/**
 * Something that happened, for the reader.
 * @typedef {'drives' | 'sends' | 'again' | 'lost' | 'twice' | 'late' | 'arrives' | 'answer lost' | 'answered'} Kind of happening
 * @typedef {{ time: number, kind: Kind, name: number, told?: Told }} Happening
 */

/** @typedef {{ due: number, name: number, told: Told | null }} Message a report, or the answer to one */

/** Ticks that a message takes, the most that a late one takes besides, and how long a depot waits for an answer. */
const TRAVEL = 2;
const LATE = 9;
const PATIENCE = 14;
/** Reports without an answer that a depot lets stand before it drives on. */
const OPEN = 12;

/**
 * Numbers from 0 to below 1, the same for the same seed (mulberry32).
 * @param {number} seed @returns {() => number}
 */
export function dice(seed) {
  let state = seed >>> 0;
  return () => {
    state = (state + 0x6d2b79f5) >>> 0;
    let t = Math.imul(state ^ (state >>> 15), state | 1);
    t ^= t + Math.imul(t ^ (t >>> 7), t | 61);
    return ((t ^ (t >>> 14)) >>> 0) / 4294967296;
  };
}

export class LossyLine {
  /**
   * @param {Faults} faults may be changed while it runs
   * @param {ArrayLike<number>} order the names in the order in which the depot drives them
   * @param {(name: number) => Told} report hands a report to the log
   */
  constructor(faults, order, report) {
    this.faults = faults;
    this.order = order;
    this.report = report;
    this.roll = dice(faults.seed);
    this.time = 0;
    /** How many crossings the depot has driven. */
    this.driven = 0;
    /**
     * Names without an answer, and when each is reported again.
     * @type {Map<number, number>}
     */
    this.waiting = new Map();
    /**
     * What is under way.
     * @type {Message[]}
     */
    this.underWay = [];
    this.counts = { sent: 0, lost: 0, twice: 0, late: 0 };
  }

  /** Whether every crossing is driven and answered. Repeats may still be under way. */
  get finished() {
    return this.driven === this.order.length && this.waiting.size === 0 && this.underWay.length === 0;
  }

  /** @param {Message} message @param {Happening[]} happened */
  send(message, happened) {
    const answer = message.told !== null;
    const note = (/** @type {Happening['kind']} */ kind) => happened.push({ time: this.time, kind, name: message.name });
    this.counts.sent++;
    const copies = this.roll() < this.faults.repeat ? 2 : 1;
    if (copies === 2) {
      this.counts.twice++;
      if (!answer) note('twice');
    }
    for (let i = 0; i < copies; i++) {
      if (this.roll() < this.faults.loss) {
        this.counts.lost++;
        note(answer ? 'answer lost' : 'lost');
        continue;
      }
      let due = this.time + TRAVEL;
      if (this.roll() < this.faults.reorder) {
        due += 1 + Math.floor(this.roll() * LATE);
        this.counts.late++;
        if (!answer) note('late');
      }
      this.underWay.push({ ...message, due });
    }
  }

  /**
   * One tick: what arrives, what is sent again, and a crossing more.
   * @returns {Happening[]}
   */
  tick() {
    /** @type {Happening[]} */
    const happened = [];
    this.time++;
    const arriving = this.underWay.filter((m) => m.due <= this.time).sort((a, b) => a.due - b.due);
    this.underWay = this.underWay.filter((m) => m.due > this.time);
    for (const { name, told } of arriving) {
      if (told === null) {
        const said = this.report(name);
        happened.push({ time: this.time, kind: 'arrives', name, told: said });
        this.send({ due: 0, name, told: said }, happened);
      } else if (told.answer === ACCEPTED || told.answer === ALREADY) {
        if (this.waiting.delete(name)) happened.push({ time: this.time, kind: 'answered', name, told });
      }
    }
    for (const [name, due] of this.waiting) {
      if (due > this.time) continue;
      happened.push({ time: this.time, kind: 'again', name });
      this.waiting.set(name, this.time + PATIENCE);
      this.send({ due: 0, name, told: null }, happened);
    }
    if (this.driven < this.order.length && this.waiting.size < OPEN) {
      const name = this.order[this.driven++];
      happened.push({ time: this.time, kind: 'drives', name });
      happened.push({ time: this.time, kind: 'sends', name });
      this.waiting.set(name, this.time + PATIENCE);
      this.send({ due: 0, name, told: null }, happened);
    }
    return happened;
  }
}
