// @ts-check
// The pictures: crossings in each slot, bills by carrier, and what shortening saves.

import { PICTURE_LEFT, PICTURE_RIGHT, drawBills, drawSlots, penOf } from './draw.js';
import { el, make, say } from './dom.js';
import { columnsOf, sizes } from './track.js';
import { counted, grouped } from './words.js';

/** @typedef {import('./main.js').App} App */

export class Pictures {
  /** @param {App} app */
  constructor(app) {
    this.app = app;
    /** @type {Omit<import('./draw.js').SlotCounts, 'place'> & { plan: object, wide: number, slots: number } | null} */
    this.counts = null;
  }

  /**
   * The columns of the picture of slots, kept while plan and width stay.
   * @param {number} wide
   */
  columns(wide) {
    const { plan } = this.app;
    if (!plan?.steps.slot) return null;
    if (this.counts?.plan === plan && this.counts.wide === wide) return this.counts;
    const { slot, train } = plan.steps;
    const firstSizes = sizes(slot.bounds);
    const secondSizes = train ? sizes(train.bounds) : null;
    const first = columnsOf(firstSizes, Math.max(50, Math.floor(wide / 2)));
    const share = secondSizes && firstSizes.length ? secondSizes.length / firstSizes.length : 1;
    const second = secondSizes ? columnsOf(secondSizes, Math.max(50, Math.floor((wide * share) / 2))) : null;
    let most = 1;
    for (const n of first) most = Math.max(most, n);
    for (const n of second ?? []) most = Math.max(most, n);
    this.counts = { plan, wide, first, second, secondShare: share, most: Math.ceil(most), slots: firstSizes.length };
    this.describeSlots(firstSizes, secondSizes);
    return this.counts;
  }

  /** @param {Uint32Array} first @param {Uint32Array | null} second */
  describeSlots(first, second) {
    let most = 0;
    for (const n of first) most = Math.max(most, n);
    const mean = first.length ? ((this.app.plan?.plan.length ?? 0) / first.length).toFixed(1) : '0';
    el('train-key').hidden = !second;
    const train = second ? `; ${counted(second.length, 'train slot')}` : '';
    say(el('slots-says'), `${counted(first.length, 'slot')}, ${mean} crossings a slot, ${most} at most${train}`);
    el('slots').setAttribute('aria-label', `Crossings in each slot: ${el('slots-says').textContent}`);
  }

  drawSlots() {
    const canvas = el('slots');
    const wide = canvas.clientWidth;
    const tall = canvas.clientHeight;
    const pen = penOf(canvas, wide, tall);
    const columns = this.columns(wide);
    if (!columns) {
      pen.clearRect(0, 0, wide, tall);
      return say(el('slots-says'), '');
    }
    drawSlots(pen, wide, tall, { ...columns, place: this.place(columns.slots) }, this.app.stage.colour);
  }

  /**
   * How far the present place is along the first edition's slots.
   * @param {number} slots
   */
  place(slots) {
    const { app } = this;
    const track = app.stage.track;
    if (!track || !app.plan?.first || slots === 0) return 0;
    if (app.by !== 'name') return app.stage.place / slots;
    const present = app.stage.present;
    return present === null ? 0 : app.plan.first.slots[present] / slots;
  }

  /**
   * Goes to the slot that was pointed at.
   * @param {MouseEvent} event
   */
  point(event) {
    const { app } = this;
    const plan = app.plan;
    const track = app.stage.track;
    if (!plan?.steps.slot || !track || !this.counts) return;
    const box = el('slots').getBoundingClientRect();
    const share = Math.max(0, Math.min(1, (event.clientX - box.left - PICTURE_LEFT) / (box.width - PICTURE_LEFT - PICTURE_RIGHT)));
    const slot = Math.min(this.counts.slots - 1, Math.floor(share * this.counts.slots));
    const name = plan.steps.slot.order[plan.steps.slot.bounds[slot]];
    app.stage.play(false);
    app.stage.seek(app.by === 'name' ? track.stepOf[name] + 1 : app.by === 'slot' ? slot + 1 : Math.min(track.steps, slot + 1));
  }

  drawBills() {
    const { app } = this;
    const canvas = el('bills');
    const pen = penOf(canvas, canvas.clientWidth, canvas.clientHeight);
    const { planned, shortened, loaded } = app.plans;
    const shown = app.which === 'loaded' ? loaded : planned;
    const after = app.which === 'loaded' ? loaded : shortened ?? planned;
    const bills = { before: shown?.bills ?? [], after: after?.bills ?? [], billed: app.plan?.books?.lines.map((line) => line.billed) ?? [] };
    drawBills(pen, canvas.clientWidth, canvas.clientHeight, bills, app.stage.colour);
    const billed = bills.billed.reduce((sum, n) => sum + n, 0);
    say(el('bills-says'), bills.before.length ? `${counted(Math.max(...bills.before), 'crossing')} at most; ${grouped(billed)} billed so far` : '');
    canvas.setAttribute('aria-label', `Crossings billed to each carrier: ${el('bills-says').textContent}. The table of carriers has the figures.`);
  }

  /** Before and after shortening. */
  versus() {
    const { planned, shortened } = this.app.plans;
    if (!planned?.good || !shortened?.good) return el('versus').replaceChildren();
    /** @type {[string, number, number][]} */
    const rows = [['Crossings', planned.plan.length, shortened.plan.length], ['Slots', planned.highest, shortened.highest]];
    const [before, after] = [planned.steps.train, shortened.steps.train];
    if (before && after) rows.push(['Train slots', before.bounds.length - 1, after.bounds.length - 1]);
    el('versus').replaceChildren(...rows.map(([what, before, after]) => {
      const share = before ? ` (${(((before - after) * 100) / before).toFixed(1)} %)` : '';
      const head = make('th', what);
      head.setAttribute('scope', 'row');
      return make('tr', [head, make('td', grouped(before)), make('td', grouped(after)), make('td', `${grouped(before - after)}${share}`)]);
    }));
  }

  draw() {
    this.drawSlots();
    this.drawBills();
    this.versus();
  }
}
