// @ts-check
// The yard on the page: what it shows, playing it, and editing the scenario on it.

import { Painter, Sheet, coloursNow, drawGround, penOf, sharpness } from './draw.js';
import { cellWords } from './cells.js';
import { el, make, say, seldom } from './dom.js';
import { counted, grouped } from './words.js';

/** @typedef {import('./main.js').App} App */
/** @typedef {import('./track.js').Track} Track */

const PLAY = 'M4 2v12l10-6z';
const PAUSE = 'M3 2h4v12H3zM9 2h4v12H9z';
/** Steps a second at which a single step is shown. */
const STEP_RATE = 5;
const SHOWN_LINES = 9;

/**
 * Steps a second for a place of the slider, from one in two seconds to 5,000.
 * @param {number} slider
 */
export function rateOf(slider) {
  return 0.5 * 10 ** (slider / 10);
}

export class Stage {
  /** @param {App} app */
  constructor(app) {
    this.app = app;
    this.colour = coloursNow();
    this.ground = document.createElement('canvas');
    this.side = 32;
    this.sheet = new Sheet(0, this.side, this.colour);
    this.painter = new Painter();
    /** Steps done, with the part of the one that is under way. */
    this.place = 0;
    this.at = new Uint16Array(0);
    this.atStep = 0;
    this.playing = false;
    /**
     * Where a single step glides to.
     * @type {number | null}
     */
    this.target = null;
    /** @type {number | null} */
    this.cursor = null;
    /** @type {{ carrier: number, goal: boolean, x: number, y: number, keys: boolean } | null} */
    this.held = null;
    this.lastTime = 0;
    this.asked = false;
    this.times = { frames: 0, spent: 0, worst: 0, since: 0 };
    this.slowly = seldom(120, () => this.describe());
  }

  /** @returns {Track | null} */
  get track() {
    return this.app.plan?.track(this.app.by) ?? null;
  }

  /** Draws in the next frame, once. */
  draw() {
    if (this.asked) return;
    this.asked = true;
    requestAnimationFrame((time) => this.frame(time));
  }

  /** Fits the yard to its place on the page, and draws what stays and what is copied. */
  fit() {
    const { cells, yard, orders } = this.app;
    this.colour = coloursNow();
    const canvas = el('yard');
    canvas.hidden = !cells;
    if (!cells) return;
    const wide = el('frame').clientWidth;
    const tall = Math.max(220, window.innerHeight * (window.innerWidth < 992 ? 0.6 : 0.62));
    // whole pixels of the screen, so that a bay can be painted alone
    const side = Math.min(wide / cells.width, tall / cells.height, Math.max(96, window.innerWidth / 24));
    this.side = Math.max(7, Math.floor(side * sharpness()) / sharpness());
    canvas.style.width = `${this.side * cells.width}px`;
    canvas.style.height = `${this.side * cells.height}px`;
    const pen = penOf(this.ground, this.side * cells.width, this.side * cells.height);
    drawGround(pen, cells, yard.rails, orders.goal, this.side, this.colour);
    this.sheet = new Sheet(orders.start.length, this.side, this.colour);
    this.painter.stale = true;
    this.draw();
  }

  /**
   * Goes to a place, and stays there.
   * @param {number} place
   */
  seek(place) {
    if (place > 0) this.app.leaveEditing();
    this.place = Math.max(0, Math.min(this.track?.steps ?? 0, place));
    this.target = null;
    this.draw();
  }

  /**
   * Shows another plan, or the same in other steps, near the place of the same crossing.
   * @param {number} place
   */
  restart(place) {
    this.atStep = -1;
    this.seek(place);
    el('scrub').max = String(this.track?.steps ?? 0);
    this.draw();
  }

  /** @param {boolean} on */
  play(on) {
    const steps = this.track?.steps ?? 0;
    if (on) this.app.leaveEditing();
    if (on && this.place >= steps) this.place = 0;
    this.playing = on && steps > 0;
    this.target = null;
    this.lastTime = 0;
    this.times = { frames: 0, spent: 0, worst: 0, since: 0 };
    el('run').setAttribute('aria-label', this.playing ? 'Pause' : 'Play');
    el('run-icon').setAttribute('d', this.playing ? PAUSE : PLAY);
    if (!this.playing) this.place = Math.round(this.place);
    this.draw();
  }

  /**
   * One step on or back.
   * @param {1 | -1} way
   */
  step(way) {
    this.app.leaveEditing();
    if (this.playing) this.play(false);
    if (this.target !== null) this.place = this.target;
    const to = Math.max(0, Math.min(this.track?.steps ?? 0, Math.round(this.place) + way));
    if (matchMedia('(prefers-reduced-motion: reduce)').matches) this.seek(to);
    else this.target = to;
    this.lastTime = 0;
    this.draw();
  }

  /**
   * Moves on by the time since the last frame.
   * @param {number} time @returns {boolean} whether there is more to come
   */
  advance(time) {
    const track = this.track;
    const passed = this.lastTime ? Math.min(0.1, (time - this.lastTime) / 1000) : 0;
    this.lastTime = time;
    if (!track) return false;
    if (this.playing) {
      this.place = Math.min(track.steps, this.place + passed * rateOf(this.app.speed));
      if (this.place >= track.steps) this.play(false);
      return this.playing;
    }
    if (this.target === null) return false;
    const far = this.target - this.place;
    const reach = passed * STEP_RATE;
    if (Math.abs(far) <= reach) {
      this.place = this.target;
      this.target = null;
      return false;
    }
    this.place += Math.sign(far) * reach;
    return true;
  }

  /**
   * The placement at the place, kept from frame to frame.
   * @param {Track} track
   */
  placement(track) {
    const step = Math.min(track.steps, Math.floor(this.place));
    if (this.atStep < 0 || step < this.atStep || step > this.atStep + 256) this.at = track.before(step);
    else for (let s = this.atStep; s < step; s++) track.move(this.at, s);
    this.atStep = step;
    return this.at;
  }

  /** @param {number} time */
  frame(time) {
    this.asked = false;
    const began = performance.now();
    const more = this.advance(time);
    const { app } = this;
    if (app.cells) {
      const pen = penOf(el('yard'), this.side * app.cells.width, this.side * app.cells.height);
      this.painter.paint(pen, this, this.scene());
    }
    if (more) {
      this.slowly();
      this.measure(performance.now() - began, time);
      this.draw();
    } else this.describe();
  }

  /** @returns {import('./draw.js').Scene} */
  scene() {
    const { app } = this;
    const track = this.track;
    const at = track ? this.placement(track) : app.orders.start;
    const step = Math.floor(this.place);
    const part = this.place - step;
    const moves = [];
    if (track && part > 0 && step < track.steps) {
      const { carrier, from, to } = track.crossings;
      for (const name of track.names(step)) moves.push({ carrier: carrier[name], from: from[name], to: to[name] });
    }
    return {
      cells: /** @type {import('./cells.js').Cells} */ (app.cells),
      rails: app.yard.rails, at, goal: app.orders.goal, moves, part,
      bad: app.bad, cursor: document.activeElement === el('yard') ? this.cursor : null, held: this.held, editing: app.editing,
    };
  }

  /**
   * Keeps count of frames, and says how long they take.
   * @param {number} spent @param {number} time
   */
  measure(spent, time) {
    const { times } = this;
    if (!times.since) times.since = time;
    times.frames++;
    times.spent += spent;
    times.worst = Math.max(times.worst, spent);
    if (time - times.since < 1000) return;
    const rate = (times.frames * 1000) / (time - times.since);
    const mean = times.spent / times.frames;
    say(el('frames'), `${rate.toFixed(0)} frames a second; ${mean.toFixed(1)} ms to draw one, ${times.worst.toFixed(1)} at most.`);
    this.times = { frames: 0, spent: 0, worst: 0, since: time };
  }

  /** Says in words where the plan is. */
  describe() {
    const track = this.track;
    el('scrub').value = String(Math.floor(this.place));
    el('scrub').setAttribute('aria-valuetext', `${Math.floor(this.place)} of ${track?.steps ?? 0}`);
    this.describeNow();
    this.describeDocket();
    this.app.placed();
  }

  /** The step under way, or the last one done, or null at the start. */
  get present() {
    const track = this.track;
    if (!track || track.steps === 0) return null;
    if (this.place > Math.floor(this.place)) return Math.floor(this.place);
    return this.place > 0 ? this.place - 1 : null;
  }

  describeNow() {
    const { plan, by } = this.app;
    const track = this.track;
    if (!plan || !track) return say(el('now'), '');
    const present = this.present;
    const done = Math.floor(this.place);
    const what = by === 'name' ? 'crossing' : by === 'slot' ? 'slot' : 'train slot';
    const ended = done === track.steps;
    if (present === null) {
      say(el('now'), track.steps ? `At the start: ${counted(track.steps, what)} to come.` : 'Nothing to do: every carrier is home.');
    } else {
      const names = [...track.names(present)];
      const lines = names.slice(0, 3).map((name) => plan.line(name)).join(' ');
      const more = names.length > 3 ? ` and ${names.length - 3} more` : '';
      const slot = `${by === 'slot' ? 'Slot' : 'Train slot'} ${present + 1}, ${counted(names.length, 'crossing')}`;
      const rest = `${more}. ${grouped(done)} of ${counted(track.steps, what)} done.${ended ? ' That is all.' : ''}`;
      el('now').replaceChildren(`${by === 'name' ? `Crossing ${names[0]}` : slot}: `, make('code', lines), rest);
    }
    if (!this.playing && this.target === null) say(el('said'), el('now').textContent ?? '');
  }

  describeDocket() {
    const { plan } = this.app;
    const track = this.track;
    if (!plan || !track || plan.plan.length === 0) return el('docket').replaceChildren();
    const present = this.present;
    const first = track.bounds[present ?? 0];
    const last = present === null ? first : track.bounds[present + 1];
    const total = track.order.length;
    const from = Math.max(0, Math.min(total - SHOWN_LINES, last - first >= SHOWN_LINES ? first : Math.floor((first + last - SHOWN_LINES) / 2)));
    const rows = [];
    for (let i = from; i < Math.min(total, from + SHOWN_LINES); i++) {
      const name = track.order[i];
      const row = make('li', [make('span', grouped(name)), make('code', plan.line(name))]);
      const slots = this.app.by === 'train' ? plan.second?.slots : plan.first?.slots;
      if (slots?.length) row.append(make('span', `slot ${slots[name]}`));
      row.className = this.app.bad.name === name ? 'bad' : i >= first && i < last ? 'present' : i < first ? 'past' : '';
      if (row.className === 'present') row.setAttribute('aria-current', 'step');
      rows.push(row);
    }
    el('docket').replaceChildren(...rows);
  }

  /**
   * The cell under a pointer, or null.
   * @param {PointerEvent} event
   */
  cellAt(event) {
    const { cells } = this.app;
    if (!cells) return null;
    const box = el('yard').getBoundingClientRect();
    const x = (event.clientX - box.left) / this.side;
    const y = (event.clientY - box.top) / this.side;
    if (x < 0 || y < 0 || x >= cells.width || y >= cells.height) return null;
    return { cell: Math.floor(y) * cells.width + Math.floor(x), corner: x % 1 > 0.55 && y % 1 > 0.6, x: x * this.side, y: y * this.side };
  }

  /**
   * Says what is in a cell.
   * @param {number | null} cell
   */
  describeCell(cell) {
    const { app } = this;
    if (cell === null || !app.cells) return say(el('cell'), '');
    const bay = app.cells.bayAt[cell];
    const width = app.cells.width;
    if (bay < 0) return say(el('cell'), `Wall, column ${cell % width}, row ${Math.floor(cell / width)}.`);
    const stands = app.editing || !this.track ? app.orders.start : this.at;
    const here = [...stands.keys()].filter((c) => stands[c] === bay);
    const goals = [...app.orders.goal.keys()].filter((c) => app.orders.goal[c] === bay);
    const said = [`Bay ${bay}, ${cellWords(app.cells, bay)}`];
    if (here.length) said.push(`carrier ${here.join(', ')} ${app.editing ? 'starts' : 'stands'} here`);
    if (goals.length) said.push(`goal of carrier ${goals.join(', ')}`);
    say(el('cell'), `${said.join('; ')}.`);
  }

  /**
   * What can be picked up in a cell.
   * @param {number} cell @param {boolean} goalFirst
   */
  pick(cell, goalFirst) {
    const { orders, cells } = this.app;
    const bay = cells?.bayAt[cell] ?? -1;
    const start = orders.start.indexOf(bay);
    const goal = orders.goal.indexOf(bay);
    const wantsGoal = goal >= 0 && (goalFirst || start < 0);
    if (bay < 0 || (start < 0 && goal < 0)) return null;
    return { carrier: wantsGoal ? goal : start, goal: wantsGoal };
  }

  /**
   * Puts what is held into a cell. The library says whether it may be there.
   * @param {number | null} cell
   */
  drop(cell) {
    const { app, held } = this;
    this.held = null;
    el('yard').classList.remove('held');
    if (!held || !app.cells) return;
    const bay = cell === null ? -1 : app.cells.bayAt[cell];
    if (bay >= 0) app.moveOrder(held.carrier, held.goal, bay);
    else say(el('cell'), 'There is no bay there.');
    this.draw();
  }

  /**
   * The middle of a cell.
   * @param {number} cell
   */
  middle(cell) {
    const width = this.app.cells?.width ?? 1;
    return { x: ((cell % width) + 0.5) * this.side, y: (Math.floor(cell / width) + 0.5) * this.side };
  }

  /**
   * Arrows, Enter and Escape on the yard.
   * @param {KeyboardEvent} event
   */
  key(event) {
    const { cells, editing } = this.app;
    if (!cells) return;
    const ways = /** @type {Record<string, [number, number]>} */ ({ ArrowLeft: [-1, 0], ArrowRight: [1, 0], ArrowUp: [0, -1], ArrowDown: [0, 1] });
    const way = ways[event.key];
    if (way) {
      const now = this.cursor ?? 0;
      const x = Math.max(0, Math.min(cells.width - 1, (now % cells.width) + way[0]));
      const y = Math.max(0, Math.min(cells.height - 1, Math.floor(now / cells.width) + way[1]));
      this.cursor = y * cells.width + x;
      if (this.held) Object.assign(this.held, this.middle(this.cursor));
      this.describeCell(this.cursor);
    } else if (event.key === 'Enter' && editing && this.cursor !== null) {
      if (this.held) this.drop(this.cursor);
      else {
        const found = this.pick(this.cursor, event.shiftKey);
        if (found) this.held = { ...found, ...this.middle(this.cursor), keys: true };
        say(el('cell'), found ? `Picked up the ${found.goal ? 'goal' : 'start'} of carrier ${found.carrier}.` : 'Nothing to pick up here.');
      }
    } else if (event.key === 'Escape' && this.held) {
      this.held = null;
      say(el('cell'), 'Put back.');
    } else return;
    event.preventDefault();
    event.stopPropagation();
    this.draw();
  }

  /** Listens to pointer and keys on the yard. */
  listen() {
    const canvas = el('yard');
    canvas.addEventListener('keydown', (/** @type {KeyboardEvent} */ event) => this.key(event));
    canvas.addEventListener('focus', () => {
      this.cursor ??= 0;
      this.draw();
    });
    canvas.addEventListener('blur', () => this.draw());
    canvas.addEventListener('pointerdown', (/** @type {PointerEvent} */ event) => {
      const under = this.cellAt(event);
      if (!under) return;
      this.cursor = under.cell;
      const found = this.app.editing ? this.pick(under.cell, under.corner) : null;
      if (found) {
        this.held = { ...found, x: under.x, y: under.y, keys: false };
        canvas.setPointerCapture(event.pointerId);
        canvas.classList.add('held');
      }
      this.draw();
    });
    canvas.addEventListener('pointermove', (/** @type {PointerEvent} */ event) => {
      const under = this.cellAt(event);
      this.describeCell(under?.cell ?? null);
      if (!this.held || this.held.keys || !under) return;
      Object.assign(this.held, { x: under.x, y: under.y });
      this.draw();
    });
    canvas.addEventListener('pointerup', (/** @type {PointerEvent} */ event) => {
      if (this.held && !this.held.keys) this.drop(this.cellAt(event)?.cell ?? null);
    });
    canvas.addEventListener('pointercancel', () => {
      this.held = null;
      this.draw();
    });
  }
}
