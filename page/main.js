// @ts-check
// The page: what is loaded, which plan is shown, and who hears of a change.

import { ACCEPTED, Library, MISSING } from './library.js';
import { cellWords, cellsOf, scenarioFile } from './cells.js';
import { download, el, make, picked, radio, say, seldom } from './dom.js';
import { billOf, kindOf, lineOf, reportsOf } from './files.js';
import { LogView } from './logview.js';
import { Pictures } from './pictures.js';
import { Plan } from './plans.js';
import { Stage, rateOf } from './stage.js';
import { counted, grouped, inWords } from './words.js';
import { UNTOUCHED } from './books.js';

/** @typedef {import('./plans.js').By} By */
/** @typedef {'planned' | 'shortened' | 'loaded'} Which */
/** @typedef {{ name: string, bytes: Uint8Array }} Handed a file that was handed in */
/** @typedef {{ title: string, map: string, scenario: string, mapName: string }} Example */

const THEMES = ['system', 'light', 'dark'];
/** The most carriers that are added by hand: more than any yard takes, so that it is the library that says no. */
const HAND_CARRIERS = 300;

export class App {
  /** @param {Library} library @param {Example[]} examples */
  constructor(library, examples) {
    this.library = library;
    this.examples = examples;
    this.mapName = '';
    this.map = new Uint8Array(0);
    /** @type {import('./library.js').Yard} */
    this.yard = { bays: 0, rails: new Uint16Array(0) };
    /** @type {import('./cells.js').Cells | null} */
    this.cells = null;
    /** @type {import('./library.js').Orders} */
    this.orders = { start: new Uint16Array(0), goal: new Uint16Array(0) };
    /** @type {Record<Which, Plan | null>} */
    this.plans = { planned: null, shortened: null, loaded: null };
    /** @type {Which} */
    this.which = 'planned';
    /** @type {By} */
    this.by = 'name';
    this.speed = Number(el('speed').value);
    this.editing = false;
    /** What the last refusal points at. */
    this.bad = this.nothingBad();
    /**
     * The rows of the table of carriers.
     * @type {Element[][]}
     */
    this.rows = [];
    this.stage = new Stage(this);
    this.log = new LogView(this);
    this.pictures = new Pictures(this);
    this.placesSoon = seldom(250, () => this.showPlaces());
  }

  /**
   * The plan that is shown, if there is one.
   * @returns {Plan | null}
   */
  get plan() {
    return this.plans[this.which];
  }

  nothingBad() {
    return {
      bays: /** @type {Set<number>} */ (new Set()),
      carriers: /** @type {Set<number>} */ (new Set()),
      crossing: /** @type {{ from: number, to: number } | null} */ (null),
      name: /** @type {number | null} */ (null),
    };
  }

  /** Takes what an earlier refusal showed off the page. */
  accept() {
    this.bad = this.nothingBad();
    el('refusal').hidden = true;
    el('refusal').replaceChildren();
    for (const id of ['cell', 'loaded', 'frames']) say(el(id), '');
  }

  /**
   * Shows a refusal in words and on the map.
   * @param {{ answer: number, value: number }} said @param {string} asked the function @param {(string | Node)[]} [more]
   */
  refuse(said, asked, more = []) {
    const words = inWords(said, asked);
    const { points } = words;
    const head = make('strong', words.docket ? `Refused ${said.answer}, ${words.title}.` : `${words.title}.`);
    const where = [];
    if (points.bay !== undefined) {
      this.bad.bays.add(points.bay);
      if (this.cells && points.bay < this.cells.cellOf.length) where.push(` It is at ${cellWords(this.cells, points.bay)}.`);
    }
    if (points.carrier !== undefined) this.pointCarrier(said.answer, points.carrier, where);
    el('refusal').replaceChildren(head, ` ${words.text}`, ...where, ...more);
    el('refusal').hidden = false;
    this.stage.draw();
  }

  /** @param {number} answer @param {number} carrier @param {(string | Node)[]} where */
  pointCarrier(answer, carrier, where) {
    if (answer !== 6) this.bad.carriers.add(carrier);
    if (answer !== 5 && answer !== 6) return;
    const list = answer === 5 ? this.orders.start : this.orders.goal;
    const bay = list[carrier];
    const other = list.findIndex((there, c) => there === bay && c !== carrier);
    this.bad.bays.add(bay);
    if (other >= 0) where.push(` Bay ${bay} is carrier ${other}'s.`);
  }

  /**
   * Opens files: maps before scenarios, and plans, marks and bills last.
   * @param {Handed[]} files
   */
  openFiles(files) {
    const kinds = ['map', 'scenario', 'plan', 'marks', 'reports', 'bill'];
    const known = files.map((file) => ({ ...file, kind: kindOf(file.name, file.bytes) }));
    for (const file of known.sort((a, b) => kinds.indexOf(a.kind) - kinds.indexOf(b.kind))) {
      if (file.kind === 'map') this.openMap(file);
      else if (file.kind === 'scenario') this.openScenario(file);
      else if (file.kind === 'plan') this.openPlan(file);
      else if (file.kind === 'marks') this.log.loadMarks(file.bytes);
      else if (file.kind === 'reports') this.log.loadReports(file.bytes);
      else this.log.loadBill(new TextDecoder().decode(file.bytes));
    }
  }

  /**
   * The line of a file that a refusal points at.
   * @param {Handed} file @param {number} line
   */
  quote(file, line) {
    const text = lineOf(file.bytes, line);
    if (!text) return [` ${file.name}, line ${line} is missing or empty.`];
    return [` ${file.name}, line ${line}:`, make('code', text.replaceAll('\t', ' → '))];
  }

  /** @param {Handed} file */
  openMap(file) {
    this.accept();
    const said = this.library.map(file.bytes);
    this.plans = { planned: null, shortened: null, loaded: null };
    this.orders = { start: new Uint16Array(0), goal: new Uint16Array(0) };
    this.mapName = file.name;
    if (said.answer !== ACCEPTED) {
      this.cells = null;
      this.refuse(said, 'sejjekoru_map', said.answer === 14 ? this.quote(file, said.value) : []);
      return this.changed();
    }
    this.map = file.bytes;
    this.yard = said.yard;
    this.cells = cellsOf(this.library, file.bytes, said.yard.bays);
    if (this.cells) return this.makePlan();
    this.changed();
    this.refuse({ answer: MISSING, value: 0 }, 'sejjekoru_scenario');
  }

  /** @param {Handed} file */
  openScenario(file) {
    this.accept();
    if (!this.cells) return this.refuseWords('A scenario needs a map first.');
    const said = this.library.scenario(this.map, file.bytes);
    if (said.answer !== ACCEPTED) {
      this.plans = { planned: null, shortened: null, loaded: null };
      this.orders = { start: new Uint16Array(0), goal: new Uint16Array(0) };
      this.changed();
      return this.refuse(said, 'sejjekoru_scenario', said.answer === 15 ? this.quote(file, said.value) : []);
    }
    this.orders = said.orders;
    this.makePlan();
  }

  /** @param {string} text */
  refuseWords(text) {
    el('refusal').replaceChildren(text);
    el('refusal').hidden = false;
  }

  /** Plans and shortens. */
  makePlan() {
    this.accept();
    const said = this.library.plan(this.yard, this.orders);
    this.plans = { planned: null, shortened: null, loaded: null };
    this.which = 'planned';
    if (said.answer === ACCEPTED) {
      this.plans.planned = new Plan(this.library, this.yard, this.orders, said.plan);
      const short = this.library.shorten(this.yard, this.orders, said.plan);
      if (short.answer === ACCEPTED) this.plans.shortened = new Plan(this.library, this.yard, this.orders, short.plan);
    }
    this.changed();
    if (said.answer !== ACCEPTED) this.refuse(said, 'sejjekoru_plan');
  }

  /**
   * Reads a printed plan and has it checked.
   * @param {Handed} file
   */
  openPlan(file) {
    this.accept();
    if (!this.cells) return this.refuseWords('A plan needs a map and a scenario first.');
    const said = this.library.readPlan(file.bytes);
    if (said.answer !== ACCEPTED) return this.refuse(said, 'sejjekoru_read_plan', said.answer === 26 ? this.quote(file, said.value) : []);
    const plan = new Plan(this.library, this.yard, this.orders, said.plan);
    this.plans.loaded = plan;
    this.which = 'loaded';
    this.changed();
    if (!plan.good) this.showFault(plan);
  }

  /**
   * Shows why a plan from a file does not pass: it is played to the crossing that the library names.
   * @param {Plan} plan
   */
  showFault(plan) {
    const { answer, value } = plan.check;
    if (answer !== 9) {
      this.stage.seek(plan.plan.length);
      return this.refuse(plan.check, 'sejjekoru_check');
    }
    const from = plan.crossings.from[value];
    const to = plan.crossings.to[value];
    const carrier = plan.crossings.carrier[value];
    const at = plan.track('name').before(value);
    const n = this.yard.bays;
    this.bad.name = value;
    if (from < n && to < n) this.bad.crossing = { from, to };
    if (carrier < at.length) this.bad.carriers.add(carrier);
    const there = at.indexOf(to);
    const facts = [
      `${plan.line(value)}.`,
      carrier < at.length ? `Carrier ${carrier} stands in bay ${at[carrier]}.` : `There is no carrier ${carrier}.`,
      there < 0 ? `No carrier stands in bay ${to}.` : `Carrier ${there} stands in bay ${to}.`,
    ];
    this.stage.seek(value);
    this.refuse(plan.check, 'sejjekoru_check', [` ${facts.join(' ')}`]);
  }

  /** Starts and goals are moved at the start of a plan: what leaves it ends the editing. */
  leaveEditing() {
    if (this.editing) el('edit-box').open = false;
  }

  /**
   * Moves a carrier's start or goal, and plans again.
   * @param {number} carrier @param {boolean} goal @param {number} bay
   */
  moveOrder(carrier, goal, bay) {
    const start = this.orders.start.slice();
    const goals = this.orders.goal.slice();
    (goal ? goals : start)[carrier] = bay;
    this.orders = { start, goal: goals };
    this.makePlan();
    say(el('cell'), `The ${goal ? 'goal' : 'start'} of carrier ${carrier} is now bay ${bay}.`);
  }

  /**
   * A carrier more, in the cursor's bay, or the last one gone.
   * @param {1 | -1} way
   */
  resize(way) {
    const k = this.orders.start.length + way;
    if (!this.cells || k < 0 || k > HAND_CARRIERS) return;
    const here = Math.max(0, this.cells.bayAt[this.stage.cursor ?? this.cells.cellOf[0]]);
    const grown = (/** @type {Uint16Array} */ list) => (way < 0 ? list.slice(0, k) : Uint16Array.from([...list, here]));
    this.orders = { start: grown(this.orders.start), goal: grown(this.orders.goal) };
    this.makePlan();
  }

  /** Another plan is shown, or none. */
  changed() {
    this.log.run(false);
    this.stage.play(false);
    this.showChoices();
    this.stage.fit();
    this.stage.restart(0);
    this.makeRows();
    this.log.show();
    this.pictures.draw();
    this.showStatus();
  }

  /** What can be chosen with the plans there are. */
  showChoices() {
    for (const which of /** @type {Which[]} */ (['planned', 'shortened', 'loaded'])) radio('which', which).disabled = !this.plans[which];
    radio('which', this.which).checked = true;
    for (const by of /** @type {By[]} */ (['name', 'slot', 'train'])) radio('by', by).disabled = by !== 'name' && !this.plan?.can(by);
    if (!this.plan?.can(this.by)) this.by = 'name';
    radio('by', this.by).checked = true;
    const second = this.plan?.second;
    radio('by', 'train').title = second && second.answer === MISSING ? 'The module in this page has no sejjekoru_slots_of.' : '';
    el('save-plan').disabled = this.plan?.printed.answer !== ACCEPTED;
    const lacks = [...this.library.missing];
    say(el('lacks'), lacks.length ? `The module in this page lacks ${lacks.join(', ')}: what needs it is switched off.` : '');
  }

  showStatus() {
    const k = this.orders.start.length;
    const yard = this.cells ? `${counted(this.yard.bays, 'bay')}, ${counted(this.yard.rails.length / 2, 'rail')}, ${counted(k, 'carrier')}` : '';
    say(el('status'), [this.mapName, yard].filter(Boolean).join(': '));
    el('yard').setAttribute('aria-label', `The yard: ${yard}`);
    const plan = this.plan;
    const from = this.which === 'loaded' ? 'The plan from the file' : this.which === 'shortened' ? 'The shortened plan' : 'The plan';
    if (!plan) return say(el('verdict'), 'No plan.');
    if (!plan.good) return say(el('verdict'), `✗ ${from} does not pass the check: ${inWords(plan.check).text}`);
    const size = `${counted(plan.plan.length, 'crossing')}, all legal, every carrier home, ${counted(plan.highest, 'slot')}`;
    say(el('verdict'), `✓ ${from} passes the check: ${size}.`);
  }

  /** The stage has moved. */
  placed() {
    this.pictures.drawSlots();
    if (this.stage.playing) this.placesSoon();
    else this.showPlaces();
  }

  /** The log has moved. */
  logged() {
    this.pictures.drawBills();
    this.showAccounts();
  }

  makeRows() {
    this.rows = [...this.orders.start.keys()].map(() => Array.from({ length: 8 }, () => make('td')));
    el('carriers').replaceChildren(...this.rows.map((cells) => make('tr', cells)));
    this.showPlaces();
    this.showAccounts();
  }

  /** Where each carrier stands in what is played. */
  showPlaces() {
    const { start } = this.orders;
    const shown = this.plan ? this.stage.at : start;
    this.rows.forEach((cells, c) => say(cells[2], `b${shown[c] ?? start[c]}`));
  }

  /** What the log says of each carrier. */
  showAccounts() {
    const { start, goal } = this.orders;
    const books = this.plan?.books ?? null;
    const marked = books?.byMarks();
    const lines = books?.lines;
    this.rows.forEach((cells, c) => {
      const line = lines?.[c];
      const last = !line ? '' : line.last === UNTOUCHED ? 'none' : grouped(line.last);
      say(cells[0], `c${c}`);
      say(cells[1], `b${start[c]}`);
      say(cells[3], `b${goal[c]}`);
      say(cells[4], marked ? `b${marked[c]}` : '');
      say(cells[5], books ? `b${books.played[c]}` : '');
      say(cells[6], line ? grouped(line.billed) : '');
      say(cells[7], last);
    });
  }

  /** @param {number} index */
  openExample(index) {
    const example = this.examples[index];
    const text = new TextEncoder();
    this.openMap({ name: example.mapName, bytes: text.encode(example.map) });
    if (this.cells) this.openScenario({ name: `${example.title}, scenario`, bytes: text.encode(example.scenario) });
  }

  /**
   * Another plan or other steps, near the same crossing.
   * @param {Which} which @param {By} by
   */
  choose(which, by) {
    const other = which !== this.which;
    const track = this.stage.track;
    const present = this.stage.present;
    const name = track && present !== null ? track.names(present)[0] : null;
    this.which = which;
    this.by = by;
    if (other) {
      this.accept();
      this.changed();
      if (this.plan && !this.plan.good) this.showFault(this.plan);
      return;
    }
    this.stage.play(false);
    this.stage.restart(name === null ? 0 : (this.stage.track?.stepOf[name] ?? -1) + 1);
  }
}

/** @param {FileList | File[]} list @returns {Promise<Handed[]>} */
async function handedOf(list) {
  return Promise.all([...list].map(async (file) => ({ name: file.name, bytes: new Uint8Array(await file.arrayBuffer()) })));
}

/** @param {App} app */
function listenFiles(app) {
  for (const id of ['files', 'plan-file', 'log-file']) {
    el(id).addEventListener('change', async () => {
      const handed = await handedOf(el(id).files);
      el(id).value = '';
      app.openFiles(handed);
    });
  }
  el('example').addEventListener('change', () => app.openExample(Number(el('example').value)));
  const over = (/** @type {boolean} */ on) => document.body.classList.toggle('dropping', on);
  document.addEventListener('dragover', (event) => {
    event.preventDefault();
    over(true);
  });
  document.addEventListener('dragleave', (event) => {
    if (!event.relatedTarget) over(false);
  });
  document.addEventListener('drop', async (event) => {
    event.preventDefault();
    over(false);
    if (event.dataTransfer?.files.length) app.openFiles(await handedOf(event.dataTransfer.files));
  });
  const base = () => app.mapName.replace(/\.map$/, '') || 'vault';
  el('save-plan').addEventListener('click', () => app.plan && download(`${base()}.plan`, app.plan.printed.print));
  el('save-bill').addEventListener('click', () => app.plan?.books && download(`${base()}.csv`, billOf(app.plan.books)));
  el('save-marks').addEventListener('click', () => app.plan?.books && download(`${base()}.marks`, app.plan.books.marks));
  el('save-reports').addEventListener('click', () => app.plan?.books && download(`${base()}.reports`, reportsOf(app.plan.books.answers)));
  el('save-scenario').addEventListener('click', () => app.cells && download(`${base()}.scen`, scenarioFile(app.cells, app.orders, app.mapName)));
}

/** @param {App} app */
function listenPlaying(app) {
  const { stage } = app;
  el('run').addEventListener('click', () => stage.play(!stage.playing));
  el('step').addEventListener('click', () => stage.step(1));
  el('back').addEventListener('click', () => stage.step(-1));
  const jump = (/** @type {number} */ place) => {
    stage.play(false);
    stage.seek(place);
  };
  el('to-start').addEventListener('click', () => jump(0));
  el('to-end').addEventListener('click', () => jump(stage.track?.steps ?? 0));
  el('scrub').addEventListener('input', () => jump(Number(el('scrub').value)));
  const speed = () => {
    app.speed = Number(el('speed').value);
    const rate = rateOf(app.speed);
    say(el('speed-says'), `${rate < 10 ? rate.toFixed(1) : grouped(Math.round(rate))} a second`);
  };
  el('speed').addEventListener('input', speed);
  speed();
  el('by').addEventListener('change', () => app.choose(app.which, /** @type {By} */ (picked('by'))));
  el('which').addEventListener('change', () => app.choose(/** @type {Which} */ (picked('which')), app.by));
  el('slots').addEventListener('click', (/** @type {MouseEvent} */ event) => app.pictures.point(event));
  document.addEventListener('keydown', (event) => {
    const target = /** @type {HTMLElement} */ (event.target);
    if (event.ctrlKey || event.metaKey || event.altKey || target.closest('input, select, button, summary, label, .scroll')) return;
    /** @type {Record<string, () => void>} */
    const keys = {
      ' ': () => stage.play(!stage.playing),
      ArrowRight: () => stage.step(1),
      ArrowLeft: () => stage.step(-1),
      Home: () => jump(0),
      End: () => jump(stage.track?.steps ?? 0),
    };
    if (!keys[event.key]) return;
    event.preventDefault();
    keys[event.key]();
  });
}

/** @param {App} app */
function listenLooks(app) {
  const again = () => {
    app.stage.fit();
    app.pictures.draw();
    app.log.show();
  };
  el('theme').addEventListener('click', () => {
    const next = THEMES[(THEMES.indexOf(document.documentElement.dataset.theme ?? 'system') + 1) % THEMES.length];
    document.documentElement.dataset.theme = next;
    el('theme').textContent = `Theme: ${next}`;
    again();
  });
  matchMedia('(prefers-color-scheme: dark)').addEventListener('change', again);
  new ResizeObserver(() => requestAnimationFrame(again)).observe(el('frame'));
  el('edit-box').addEventListener('toggle', () => {
    app.editing = el('edit-box').open;
    el('yard').classList.toggle('editing', app.editing);
    if (app.editing) {
      app.stage.play(false);
      app.stage.seek(0);
    }
  });
  el('add').addEventListener('click', () => app.resize(1));
  el('remove').addEventListener('click', () => app.resize(-1));
}

/** Begins, with the module and the examples that the page carries. */
async function begin() {
  const module = Uint8Array.from(atob(el('module').textContent.trim()), (letter) => letter.charCodeAt(0));
  /** @type {Example[]} */
  const examples = JSON.parse(el('examples').textContent);
  const app = new App(await Library.open(module), examples);
  examples.forEach((example, i) => {
    const option = /** @type {HTMLOptionElement} */ (make('option', example.title));
    option.value = String(i);
    el('example').append(option);
  });
  app.stage.listen();
  app.log.listen();
  listenFiles(app);
  listenPlaying(app);
  listenLooks(app);
  app.openExample(0);
}

if (typeof document !== 'undefined') {
  begin().catch((error) => {
    el('refusal').hidden = false;
    const needs = 'It needs WebAssembly with 64-bit numbers, as every browser since 2021 has.';
    el('refusal').textContent = `This browser cannot run the page: ${error.message}. ${needs}`;
  });
}
