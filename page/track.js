// @ts-check
// A plan laid out in time, to be played: its steps are its crossings one by one, or its slots, all crossings of a slot at once. A carrier is moved
// to where its crossing says. Whether it may go there is the library's to say, not this file's.

/**
 * Crossings taken apart by the header's layout of a number.
 * @typedef {{ length: number, carrier: Uint32Array, from: Uint16Array, to: Uint16Array }} Crossings
 */

/** Steps from one kept placement to the next. */
const KEPT = 256;

/** @param {BigUint64Array} plan @returns {Crossings} */
export function crossingsOf(plan) {
  const length = plan.length;
  const words = new DataView(plan.buffer, plan.byteOffset, plan.byteLength);
  const carrier = new Uint32Array(length);
  const from = new Uint16Array(length);
  const to = new Uint16Array(length);
  for (let i = 0; i < length; i++) {
    to[i] = words.getUint16(i * 8, true);
    from[i] = words.getUint16(i * 8 + 2, true);
    carrier[i] = words.getUint32(i * 8 + 4, true);
  }
  return { length, carrier, from, to };
}

/**
 * Names by rising slot, those of one slot in plan order, and where each slot begins.
 * @param {Uint32Array} slots
 */
export function bySlot(slots) {
  let highest = 0;
  for (const slot of slots) if (slot > highest) highest = slot;
  const bounds = new Uint32Array(highest + 1);
  for (const slot of slots) bounds[slot]++;
  for (let s = 1; s <= highest; s++) bounds[s] += bounds[s - 1];
  const next = bounds.slice();
  const order = new Uint32Array(slots.length);
  slots.forEach((slot, name) => {
    order[next[slot - 1]++] = name;
  });
  return { order, bounds };
}

/**
 * One step for each crossing.
 * @param {number} length
 */
export function byName(length) {
  return { order: Uint32Array.from({ length }, (_, i) => i), bounds: Uint32Array.from({ length: length + 1 }, (_, i) => i) };
}

export class Track {
  /**
   * @param {Crossings} crossings
   * @param {Uint16Array} start
   * @param {{ order: Uint32Array, bounds: Uint32Array }} steps step s has the names order[bounds[s]] to before order[bounds[s + 1]]
   */
  constructor(crossings, start, steps) {
    this.crossings = crossings;
    this.order = steps.order;
    this.bounds = steps.bounds;
    this.steps = steps.bounds.length - 1;
    /**
     * Every KEPT-th placement, so that any step is near one.
     * @type {Uint16Array[]}
     */
    this.kept = [];
    /** The step of each name. */
    this.stepOf = new Uint32Array(crossings.length);
    const at = start.slice();
    for (let s = 0; s < this.steps; s++) {
      if (s % KEPT === 0) this.kept.push(at.slice());
      this.move(at, s);
      for (let i = this.bounds[s]; i < this.bounds[s + 1]; i++) this.stepOf[this.order[i]] = s;
    }
    if (this.steps % KEPT === 0) this.kept.push(at.slice());
  }

  /**
   * Moves the carriers of one step.
   * @param {Uint16Array} at @param {number} step
   */
  move(at, step) {
    const { carrier, to } = this.crossings;
    for (let i = this.bounds[step]; i < this.bounds[step + 1]; i++) {
      const name = this.order[i];
      if (carrier[name] < at.length) at[carrier[name]] = to[name];
    }
  }

  /**
   * The placement before a step; after the last for `steps`.
   * @param {number} step @returns {Uint16Array}
   */
  before(step) {
    const at = this.kept[Math.floor(step / KEPT)].slice();
    for (let s = step - (step % KEPT); s < step; s++) this.move(at, s);
    return at;
  }

  /**
   * The names of a step.
   * @param {number} step @returns {Uint32Array}
   */
  names(step) {
    return this.order.subarray(this.bounds[step], this.bounds[step + 1]);
  }
}

/**
 * How many crossings each step has.
 * @param {Uint32Array} bounds @returns {Uint32Array}
 */
export function sizes(bounds) {
  return Uint32Array.from({ length: bounds.length - 1 }, (_, s) => bounds[s + 1] - bounds[s]);
}

/**
 * The same in at most so many columns, each the mean of its steps, for a picture of that width.
 * @param {Uint32Array} counts @param {number} columns @returns {Float64Array}
 */
export function columnsOf(counts, columns) {
  const n = Math.min(columns, counts.length);
  const means = new Float64Array(n);
  for (let c = 0; c < n; c++) {
    const from = Math.floor((c * counts.length) / n);
    const to = Math.floor(((c + 1) * counts.length) / n);
    let sum = 0;
    for (let s = from; s < to; s++) sum += counts[s];
    means[c] = sum / (to - from);
  }
  return means;
}
