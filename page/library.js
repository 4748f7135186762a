// @ts-check
// The compiled library, asked in the page's words. Only this file touches the module: every reading, plan, check, slot and bill that the page
// shows is an answer that was given here. Lists are copied in and out, so nothing is kept between calls.

/**
 * The number that a function returned, and what it stored beside it. A function that the module does not have answers MISSING.
 * @typedef {{ answer: number, value: number }} Answer
 */

/** @typedef {{ bays: number, rails: Uint16Array }} Yard */

/**
 * The bay of each carrier at the start and at the end.
 * @typedef {{ start: Uint16Array, goal: Uint16Array }} Orders
 */

/**
 * A plan's running books. The bytes are those of the header's record and lines.
 * @typedef {{ record: Uint8Array, lines: Uint8Array }} Bytes
 */

/** No number of the library: its module lacks the function. */
export const MISSING = -1;
export const ACCEPTED = 0;
export const ALREADY = 100;

/** The longest plan that the library takes, and the most rails that a map of 64 rows and columns has. */
export const CROSSINGS = 65536;
const MAP_ENDS = 16384;
const MAP_CARRIERS = 4096;
const RECORD_BYTES = 520;
const LINE_BYTES = 12;
const PAGE = 65536;

export class Library {
  /** @param {WebAssembly.Exports} exports */
  constructor(exports) {
    /** @type {any} */
    this.exports = exports;
    /** @type {WebAssembly.Memory} */
    this.memory = this.exports.memory;
    this.base = (Number(this.exports.__heap_base.value) + 15) & ~15;
    this.top = this.base;
    /**
     * Names of functions that were asked for and are not in the module.
     * @type {Set<string>}
     */
    this.missing = new Set();
  }

  /** @param {BufferSource} bytes @returns {Promise<Library>} */
  static async open(bytes) {
    const { instance } = await WebAssembly.instantiate(bytes, {});
    return new Library(instance.exports);
  }

  /** @param {string} name */
  has(name) {
    const there = typeof this.exports[name] === 'function';
    if (!there) this.missing.add(name);
    return there;
  }

  /**
   * Room of so many bytes, until the next call.
   * @param {number} bytes @returns {number}
   */
  room(bytes) {
    const at = this.top;
    this.top = (at + bytes + 15) & ~15;
    const short = this.top - this.memory.buffer.byteLength;
    if (short > 0) this.memory.grow(Math.ceil(short / PAGE));
    return at;
  }

  /**
   * A copy of a list in the module's memory.
   * @param {Uint8Array | Uint16Array | Uint32Array | BigUint64Array} list @returns {number}
   */
  lend(list) {
    const at = this.room(list.byteLength);
    new Uint8Array(this.memory.buffer, at, list.byteLength).set(new Uint8Array(list.buffer, list.byteOffset, list.byteLength));
    return at;
  }

  /** @param {number} at @param {number} bytes @returns {ArrayBuffer} */
  copy(at, bytes) {
    return this.memory.buffer.slice(at, at + bytes);
  }

  /** @param {number} at @returns {number} */
  number(at) {
    return Number(new DataView(this.memory.buffer).getBigUint64(at, true));
  }

  /**
   * Calls a function whose last argument is where it stores its value.
   * @param {string} name
   * @param {() => (number | bigint)[]} lent lends the arguments before that one
   * @returns {Answer}
   */
  ask(name, lent) {
    this.top = this.base;
    if (!this.has(name)) return { answer: MISSING, value: 0 };
    const value = this.room(8);
    const args = lent();
    const answer = this.exports[name](...args, value);
    return { answer: Number(BigInt.asUintN(64, answer)), value: this.number(value) };
  }

  /** @param {Yard} yard @param {Orders} orders @returns {(number | bigint)[]} */
  yard(yard, orders) {
    return [
      BigInt(yard.bays),
      this.lend(yard.rails), BigInt(yard.rails.length),
      this.lend(orders.start), BigInt(orders.start.length),
      this.lend(orders.goal), BigInt(orders.goal.length),
    ];
  }

  /** @param {Uint8Array} file @returns {Answer & { yard: Yard }} */
  map(file) {
    let bays = 0;
    let rails = 0;
    const said = this.ask('sejjekoru_map', () => {
      bays = this.room(8);
      rails = this.room(MAP_ENDS * 2);
      return [this.lend(file), BigInt(file.length), bays, rails, BigInt(MAP_ENDS)];
    });
    const good = said.answer === ACCEPTED;
    const yard = {
      bays: good ? this.number(bays) : 0,
      rails: new Uint16Array(this.copy(rails, good ? said.value * 2 : 0)),
    };
    return { ...said, yard };
  }

  /** @param {Uint8Array} map @param {Uint8Array} file @returns {Answer & { orders: Orders }} */
  scenario(map, file) {
    let start = 0;
    let goal = 0;
    const said = this.ask('sejjekoru_scenario', () => {
      start = this.room(MAP_CARRIERS * 2);
      goal = this.room(MAP_CARRIERS * 2);
      return [
        this.lend(map), BigInt(map.length), this.lend(file), BigInt(file.length),
        start, BigInt(MAP_CARRIERS), goal, BigInt(MAP_CARRIERS),
      ];
    });
    const bytes = said.answer === ACCEPTED ? said.value * 2 : 0;
    return { ...said, orders: { start: new Uint16Array(this.copy(start, bytes)), goal: new Uint16Array(this.copy(goal, bytes)) } };
  }

  /**
   * The plan, and how many vacates in it filled a bay of three rails or more.
   * @param {Yard} yard @param {Orders} orders @returns {Answer & { plan: BigUint64Array, parked: number }}
   */
  plan(yard, orders) {
    let plan = 0;
    let parked = 0;
    const said = this.ask('sejjekoru_plan', () => {
      const args = this.yard(yard, orders);
      plan = this.room(CROSSINGS * 8);
      parked = this.room(8);
      return [...args, plan, BigInt(CROSSINGS), parked];
    });
    const accepted = said.answer === ACCEPTED;
    return {
      ...said,
      plan: new BigUint64Array(this.copy(plan, accepted ? said.value * 8 : 0)),
      parked: accepted ? Number(new BigUint64Array(this.copy(parked, 8))[0]) : 0,
    };
  }

  /** @param {Yard} yard @param {Orders} orders @param {BigUint64Array} plan @returns {Answer} */
  check(yard, orders, plan) {
    return this.ask('sejjekoru_check', () => [...this.yard(yard, orders), this.lend(plan), BigInt(plan.length)]);
  }

  /**
   * The slot of each crossing, by the first edition or the second.
   * @param {1 | 2} edition @param {Yard} yard @param {Orders} orders @param {BigUint64Array} plan
   * @returns {Answer & { slots: Uint32Array }}
   */
  slots(edition, yard, orders, plan) {
    let slots = 0;
    const first = edition === 1;
    const said = this.ask(first ? 'sejjekoru_slots' : 'sejjekoru_slots_of', () => {
      const args = [...this.yard(yard, orders), this.lend(plan), BigInt(plan.length)];
      slots = this.room(plan.length * 4);
      args.push(slots, BigInt(plan.length));
      return first ? args : [BigInt(edition), ...args];
    });
    return { ...said, slots: new Uint32Array(this.copy(slots, said.answer === ACCEPTED ? plan.length * 4 : 0)) };
  }

  /** @param {Yard} yard @param {Orders} orders @param {BigUint64Array} plan @returns {Answer & { plan: BigUint64Array }} */
  shorten(yard, orders, plan) {
    let out = 0;
    const said = this.ask('sejjekoru_shorten', () => {
      const args = [...this.yard(yard, orders), this.lend(plan), BigInt(plan.length)];
      args.push(this.lend(new Uint8Array(plan.length)), BigInt(plan.length));
      out = this.room(plan.length * 8);
      return [...args, out, BigInt(plan.length)];
    });
    return { ...said, plan: new BigUint64Array(this.copy(out, said.answer === ACCEPTED ? said.value * 8 : 0)) };
  }

  /**
   * Where the carriers stand by the marks: the start, then the done crossings in plan order.
   * @param {Yard} yard @param {Orders} orders @param {BigUint64Array} plan @param {Uint8Array} marks
   * @returns {Answer & { at: Uint16Array }}
   */
  placement(yard, orders, plan, marks) {
    const k = orders.start.length;
    let at = 0;
    const said = this.ask('sejjekoru_placement', () => {
      const args = [...this.yard(yard, orders), this.lend(plan), BigInt(plan.length), this.lend(marks), BigInt(marks.length)];
      at = this.room(k * 2);
      return [...args, at, BigInt(k)];
    });
    return { ...said, at: new Uint16Array(this.copy(at, said.answer === ACCEPTED ? k * 2 : 0)) };
  }

  /**
   * Record and lines as plan, start and marks give them.
   * @param {Yard} yard @param {Orders} orders @param {BigUint64Array} plan @param {Uint8Array} marks
   * @returns {Answer & { books: Bytes }}
   */
  open(yard, orders, plan, marks) {
    const k = orders.start.length;
    let record = 0;
    let lines = 0;
    const said = this.ask('sejjekoru_open', () => {
      const args = [...this.yard(yard, orders), this.lend(plan), BigInt(plan.length), this.lend(marks), BigInt(marks.length)];
      record = this.lend(new Uint8Array(RECORD_BYTES));
      lines = this.lend(new Uint8Array(k * LINE_BYTES));
      return [...args, record, lines, BigInt(k)];
    });
    return { ...said, books: this.booksAt(record, lines, k) };
  }

  /** @param {number} record @param {number} lines @param {number} k @returns {Bytes} */
  booksAt(record, lines, k) {
    return { record: new Uint8Array(this.copy(record, RECORD_BYTES)), lines: new Uint8Array(this.copy(lines, k * LINE_BYTES)) };
  }

  /**
   * Whether record and lines agree with plan, start and marks: value 1 for yes.
   * @param {Yard} yard @param {Orders} orders @param {BigUint64Array} plan @param {Uint8Array} marks @param {Bytes} books
   * @returns {Answer}
   */
  agrees(yard, orders, plan, marks, books) {
    return this.ask('sejjekoru_agrees', () => [
      ...this.yard(yard, orders), this.lend(plan), BigInt(plan.length), this.lend(marks), BigInt(marks.length),
      this.lend(books.record), this.lend(books.lines), BigInt(books.lines.length / LINE_BYTES),
    ]);
  }

  /**
   * Reports a crossing. Marks, record and lines come back as the library left them.
   * @param {Yard} yard @param {Orders} orders @param {BigUint64Array} plan @param {Uint8Array} marks @param {number} name @param {Bytes} books
   * @returns {Answer & { marks: Uint8Array, books: Bytes }}
   */
  report(yard, orders, plan, marks, name, books) {
    const k = books.lines.length / LINE_BYTES;
    let at = 0;
    let record = 0;
    let lines = 0;
    const said = this.ask('sejjekoru_report_billed', () => {
      const args = [...this.yard(yard, orders), this.lend(plan), BigInt(plan.length)];
      at = this.lend(marks);
      record = this.lend(books.record);
      lines = this.lend(books.lines);
      return [...args, at, BigInt(marks.length), BigInt(name), record, lines, BigInt(k)];
    });
    if (said.answer === MISSING) return { ...said, marks, books };
    return { ...said, marks: new Uint8Array(this.copy(at, marks.length)), books: this.booksAt(record, lines, k) };
  }

  /**
   * The crossings of a printed plan.
   * @param {Uint8Array} file @returns {Answer & { plan: BigUint64Array }}
   */
  readPlan(file) {
    let plan = 0;
    const said = this.ask('sejjekoru_read_plan', () => {
      const bytes = this.lend(file);
      plan = this.room(CROSSINGS * 8);
      return [bytes, BigInt(file.length), plan, BigInt(CROSSINGS)];
    });
    return { ...said, plan: new BigUint64Array(this.copy(plan, said.answer === ACCEPTED ? said.value * 8 : 0)) };
  }

  /**
   * The names of a file of reports.
   * @param {Uint8Array} file @returns {Answer & { names: number[] }}
   */
  readReports(file) {
    let names = 0;
    const said = this.ask('sejjekoru_read_reports', () => {
      const bytes = this.lend(file);
      names = this.room(file.length * 8);
      return [bytes, BigInt(file.length), names, BigInt(file.length)];
    });
    const list = new BigUint64Array(this.copy(names, said.answer === ACCEPTED ? said.value * 8 : 0));
    return { ...said, names: Array.from(list, Number) };
  }

  /**
   * A plan as it is printed.
   * @param {BigUint64Array} plan @returns {Answer & { print: Uint8Array }}
   */
  printPlan(plan) {
    let out = 0;
    // a crossing's line is at most `(move c4294967295 b65535 b65535)` and its end; the comment line is shorter than 64 bytes
    const most = plan.length * 33 + 64;
    const said = this.ask('sejjekoru_print_plan', () => {
      const crossings = this.lend(plan);
      out = this.room(most);
      return [crossings, BigInt(plan.length), out, BigInt(most)];
    });
    return { ...said, print: new Uint8Array(this.copy(out, said.answer === ACCEPTED ? said.value : 0)) };
  }
}

/**
 * What a record says, by the header's layout.
 * @param {Uint8Array} record @param {number} k
 */
export function recordOf(record, k) {
  const view = new DataView(record.buffer, record.byteOffset);
  const at = new Uint16Array(k);
  for (let c = 0; c < k; c++) at[c] = view.getUint16(c * 2, true);
  return { at, done: view.getUint32(512, true), highest: view.getUint32(516, true) };
}

/**
 * What the account lines say, by the header's layout.
 * @param {Uint8Array} lines
 */
export function linesOf(lines) {
  const view = new DataView(lines.buffer, lines.byteOffset);
  return Array.from({ length: lines.length / LINE_BYTES }, (_, c) => ({
    carrier: view.getUint32(c * LINE_BYTES, true),
    billed: view.getUint32(c * LINE_BYTES + 4, true),
    last: view.getUint32(c * LINE_BYTES + 8, true),
  }));
}
