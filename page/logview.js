// @ts-check
// The log on the page: reports by hand or over a line that fails, each answer as it comes, and the promise checked in the open.

import { ACCEPTED, CROSSINGS } from './library.js';
import { drawMarks, penOf } from './draw.js';
import { el, make, say, seldom, terms } from './dom.js';
import { billOf, namesOf } from './files.js';
import { LossyLine } from './line.js';
import { counted, grouped, inWords, reportWord } from './words.js';

/** @typedef {import('./main.js').App} App */
/** @typedef {import('./plans.js').Plan} Plan */
/** @typedef {import('./line.js').Happening} Happening */

/**
 * What a reader sees of the line for one plan.
 * @typedef {{ line: LossyLine, again: number, rows: { time: string, name: number, text: string, bad: boolean }[] }} Day
 */

/** The buttons that need a log. */
const NEED_A_LOG = ['line-run', 'line-tick', 'line-end', 'fresh', 'save-bill', 'save-marks', 'save-reports', 'report', 'report-now'];
const ROWS = 60;
/** Milliseconds of a frame that the line may take. */
const BUDGET = 10;

/** @type {Record<Happening['kind'], string>} */
const HAPPENS = {
  drives: 'the depot drives it and reports',
  sends: '',
  again: 'no answer: reported again',
  lost: 'the line loses the report',
  twice: 'the line repeats the report',
  late: 'the line holds the report up',
  arrives: 'arrives',
  'answer lost': 'the line loses the answer',
  answered: 'the depot has its answer',
};

export class LogView {
  /** @param {App} app */
  constructor(app) {
    this.app = app;
    /** @type {WeakMap<Plan, Day>} */
    this.days = new WeakMap();
    this.running = false;
    this.hurry = false;
    this.shown = seldom(100, () => this.show());
  }

  /** The plan whose log is open, if it has one. */
  get plan() {
    const plan = this.app.plan;
    return plan?.books ? plan : null;
  }

  /** @returns {import('./line.js').Faults} */
  faults() {
    const part = (/** @type {string} */ id) => Number(el(id).value) / 100;
    return { loss: part('loss'), repeat: part('repeat'), reorder: part('reorder'), seed: Number(el('seed').value) >>> 0 };
  }

  /**
   * The day of a plan: its line, begun when first asked for.
   * @param {Plan} plan @returns {Day}
   */
  day(plan) {
    let day = this.days.get(plan);
    if (!day) {
      const order = plan.track(el('drives').value === 'slot' ? 'slot' : 'name').order;
      const books = plan.books;
      const line = new LossyLine(this.faults(), order, (name) => books?.report(name) ?? { answer: 12, value: 0 });
      day = { line, again: 0, rows: [] };
      this.days.set(plan, day);
    }
    return day;
  }

  /**
   * A report by hand.
   * @param {number} name
   */
  hand(name) {
    const { plan } = this;
    if (!plan?.books) return;
    const told = plan.books.report(name);
    this.note(plan, 'hand', name, reportWord(told), told.answer !== ACCEPTED && told.answer !== 100);
    say(el('loaded'), `Crossing ${name}: ${reportWord(told)}. ${told.answer && told.answer !== 100 ? inWords(told).text : ''}`);
    this.show();
  }

  /** @param {Plan} plan @param {string} time @param {number} name @param {string} text @param {boolean} bad */
  note(plan, time, name, text, bad) {
    const { rows } = this.day(plan);
    rows.unshift({ time, name, text, bad });
    rows.length = Math.min(rows.length, ROWS);
  }

  /**
   * One tick of the line.
   * @returns {boolean} whether there is more to come
   */
  tick() {
    const { plan } = this;
    if (!plan) return false;
    const day = this.day(plan);
    Object.assign(day.line.faults, this.faults());
    for (const { time, kind, name, told } of day.line.tick()) {
      if (kind === 'sends') continue;
      if (kind === 'again') day.again++;
      const refused = kind === 'arrives' && told !== undefined && told.answer !== ACCEPTED && told.answer !== 100;
      this.note(plan, String(time), name, kind === 'arrives' && told ? `arrives: ${reportWord(told)}` : HAPPENS[kind], refused);
    }
    return !day.line.finished;
  }

  /** @param {boolean} on @param {boolean} [hurry] as many ticks as a frame has time for */
  run(on, hurry = false) {
    this.running = on && this.plan !== null;
    this.hurry = hurry;
    el('line-run').textContent = this.running ? 'Pause the line' : 'Run the line';
    if (this.running) requestAnimationFrame(() => this.frame());
    else this.show();
  }

  frame() {
    if (!this.running) return;
    const until = performance.now() + BUDGET;
    let left = this.hurry ? Infinity : Number(el('ticks').value);
    let more = true;
    while (more && left-- > 0 && performance.now() < until) more = this.tick();
    if (!more) return this.run(false);
    this.shown();
    requestAnimationFrame(() => this.frame());
  }

  /** Begins the log of the plan anew. */
  fresh() {
    const { plan } = this;
    if (!plan?.books) return;
    this.run(false);
    this.days.delete(plan);
    plan.books.open(new Uint8Array(plan.plan.length));
    this.show();
  }

  /**
   * Opens the log at marks from a file.
   * @param {Uint8Array} marks
   */
  loadMarks(marks) {
    const { plan } = this;
    if (!plan?.books) return;
    const said = plan.books.open(marks);
    if (said.answer !== ACCEPTED) {
      const words = inWords(said, 'sejjekoru_open');
      return say(el('loaded'), `Refused ${said.answer}, ${words.title}. ${words.text} The log stays as it was.`);
    }
    this.days.delete(plan);
    say(el('loaded'), `Marks loaded: ${counted(plan.books.record.done, 'crossing')} done.`);
    this.show();
  }

  /**
   * Reports again what a bill has reported, and compares the bills.
   * @param {string} bill
   */
  loadBill(bill) {
    const { plan } = this;
    const names = namesOf(bill);
    if (!plan?.books) return;
    if (!names) return say(el('loaded'), 'This is no bill: it needs rows of reports, an empty line, then rows of carriers.');
    this.fresh();
    for (const name of names) plan.books.report(name);
    const again = billOf(plan.books).split('\n');
    const lines = bill.split(/\r?\n/);
    const other = again.findIndex((line, i) => line !== lines[i]);
    const same = other < 0 && again.length === lines.length;
    const found = same ? 'The bill is the same.' : `The bill differs at line ${(other < 0 ? again.length : other) + 1}.`;
    say(el('loaded'), `${counted(names.length, 'report')} made again. ${found}`);
    this.show();
  }

  /**
   * Makes the reports of a file, in a new log.
   * @param {Uint8Array} file
   */
  loadReports(file) {
    const { plan } = this;
    if (!plan?.books) return;
    const said = this.app.library.readReports(file);
    if (said.answer !== ACCEPTED) {
      const words = inWords(said, 'sejjekoru_read_reports');
      return say(el('loaded'), `${words.docket ? `Refused ${said.answer}, ${words.title}. ` : ''}${words.text}`);
    }
    this.fresh();
    for (const name of said.names) plan.books.report(name);
    const { accepted, already, refused } = plan.books.tally;
    say(el('loaded'), `${counted(said.names.length, 'report')} made: ${accepted} accepted, ${already} already, ${refused} refused.`);
    this.show();
  }

  /** Shows marks, record, lines, answers, and whether the promise holds. */
  show() {
    const { plan } = this;
    for (const id of NEED_A_LOG) el(id).disabled = !plan;
    if (!plan?.books) {
      for (const id of ['depot', 'wire', 'record', 'answers']) el(id).replaceChildren();
      el('promise').className = 'promise broken';
      return say(el('promise'), 'No log: it needs a plan that passes the check.');
    }
    const { books } = plan;
    const { line, again, rows } = this.day(plan);
    const total = plan.plan.length;
    const record = books.record;
    const of = (/** @type {number} */ part, /** @type {number} */ whole) => `${grouped(part)} of ${grouped(whole)}`;
    terms(el('depot'), [['driven', of(line.driven, total)], ['no answer yet', grouped(line.waiting.size)], ['reported again', grouped(again)]]);
    terms(el('wire'), [
      ['under way', grouped(line.underWay.length)], ['sent', grouped(line.counts.sent)], ['lost', grouped(line.counts.lost)],
      ['repeated', grouped(line.counts.twice)], ['late', grouped(line.counts.late)],
    ]);
    terms(el('record'), [
      ['done', of(record.done, total)], ['highest slot', of(record.highest, plan.highest)],
      ['accepted', grouped(books.tally.accepted)], ['already', grouped(books.tally.already)], ['refused', grouped(books.tally.refused)],
    ]);
    el('answers').replaceChildren(...rows.map(({ time, name, text, bad }) => {
      return make('tr', [make('td', time), make('td', grouped(name)), make('td', text)], bad ? 'bad' : '');
    }));
    this.showPromise(plan);
    this.app.logged();
  }

  /** @param {Plan} plan */
  showPromise(plan) {
    const { books } = plan;
    if (!books) return;
    const differ = books.differing();
    const agrees = books.agrees();
    const k = plan.orders.start.length;
    const holds = agrees && differ.length === 0;
    el('promise').className = holds ? 'promise' : 'promise broken';
    const placed = differ.length === 0
      ? `All ${k} carriers stand where the marks say: accepted crossings, played in the order accepted, end where the same in plan order do.`
      : `The placement by the marks and the one played differ for carrier ${differ.slice(0, 5).join(', ')}.`;
    say(el('promise'), `${holds ? '✓' : '✗'} Record and lines ${agrees ? 'agree' : 'do not agree'} with plan, start and marks. ${placed}`);
    const canvas = el('marks');
    drawMarks(penOf(canvas, canvas.clientWidth, canvas.clientHeight), canvas.clientWidth, canvas.clientHeight, books.marks, this.app.stage.colour);
    canvas.setAttribute('aria-label', `Marks: ${books.record.done} of ${plan.plan.length} crossings done`);
  }

  listen() {
    el('hand').addEventListener('submit', (/** @type {Event} */ event) => {
      event.preventDefault();
      const name = Number(el('name').value);
      if (Number.isInteger(name) && name >= 0) this.hand(Math.min(name, CROSSINGS * CROSSINGS));
    });
    el('report-now').addEventListener('click', () => {
      const { stage } = this.app;
      const step = stage.present ?? 0;
      for (const name of stage.track?.names(step) ?? []) this.hand(name);
    });
    el('line-run').addEventListener('click', () => this.run(!this.running));
    el('line-end').addEventListener('click', () => this.run(true, true));
    el('line-tick').addEventListener('click', () => {
      this.run(false);
      this.tick();
      this.show();
    });
    el('fresh').addEventListener('click', () => this.fresh());
    for (const id of ['seed', 'drives']) el(id).addEventListener('change', () => this.fresh());
    for (const id of ['loss', 'repeat', 'reorder', 'ticks']) {
      const says = () => say(document.querySelector(`output[for="${id}"]`) ?? el(id), id === 'ticks' ? el(id).value : `${el(id).value} %`);
      el(id).addEventListener('input', says);
      says();
    }
  }
}
