// @ts-check
// The library's numbers in words, and where on the map each points. The words explain an answer; they never make one.

import { ACCEPTED, ALREADY, MISSING } from './library.js';

/**
 * Where a refusal points.
 * @typedef {{ bay?: number, carrier?: number, rail?: number, name?: number, line?: number }} Pointed
 */

/** @typedef {{ title: string, says: (v: string) => string, points: (v: number) => Pointed }} Words */

const nowhere = () => ({});

/** @type {Record<number, Words>} */
export const REFUSALS = {
  1: {
    title: 'size',
    says: () => 'Outside the limits of a yard: 2 to 256 bays, at most 1,024 rails, as many goals as starts, and at most 65,536 crossings in a plan.',
    points: nowhere,
  },
  2: {
    title: 'rail',
    says: (v) => `Rail ${v} is bad: an end is no bay, both ends are one bay, or it is listed twice.`,
    points: (v) => ({ rail: v }),
  },
  3: { title: 'apart', says: (v) => `Bay ${v} cannot be reached from bay 0. It is the lowest such bay.`, points: (v) => ({ bay: v }) },
  4: { title: 'crowd', says: () => 'Too many carriers: two bays must stay empty.', points: nowhere },
  5: {
    title: 'start',
    says: (v) => `Carrier ${v} cannot start there: its start is no bay, or another carrier starts in it.`,
    points: (v) => ({ carrier: v }),
  },
  6: {
    title: 'goal',
    says: (v) => `Carrier ${v} cannot have that goal: it is no bay, or another carrier's goal.`,
    points: (v) => ({ carrier: v }),
  },
  7: {
    title: 'stopped',
    says: (v) => `The procedure found no way on for carrier ${v}. It does not say that there is no plan at all.`,
    points: (v) => ({ carrier: v }),
  },
  8: { title: 'room', says: (v) => `The result needs room for ${v}. A plan has at most 65,536 crossings.`, points: nowhere },
  9: {
    title: 'crossing',
    says: (v) => `Crossing ${v} of the plan is not legal. It is the first such crossing.`,
    points: (v) => ({ name: v }),
  },
  10: {
    title: 'goal missed',
    says: (v) => `The plan is legal, but carrier ${v} does not end at its goal.`,
    points: (v) => ({ carrier: v }),
  },
  11: {
    title: 'marks',
    says: () => 'The marks do not fit the plan: not one byte of 0 or 1 for each crossing, or a crossing done before one that it depends on.',
    points: nowhere,
  },
  12: { title: 'unknown', says: () => 'No crossing of the plan has this name.', points: nowhere },
  13: { title: 'early', says: (v) => `Too early: crossing ${v}, on which it depends, is not done.`, points: (v) => ({ name: v }) },
  14: { title: 'map', says: (v) => `The map file breaks its layout at line ${v}.`, points: (v) => ({ line: v }) },
  15: {
    title: 'scenario',
    says: (v) => `The scenario file breaks its layout at line ${v}, or does not fit this map there.`,
    points: (v) => ({ line: v }),
  },
  16: { title: 'survey', says: (v) => `The surveyor's file breaks its layout at line ${v}.`, points: (v) => ({ line: v }) },
  17: { title: 'ended', says: () => 'The scenario has ended: nothing more is taken.', points: nowhere },
  18: { title: 'long piece', says: () => 'A piece of a scenario has at most 256 bytes.', points: nowhere },
  19: { title: 'disagrees', says: () => 'Record and lines are not what plan, start and marks give.', points: nowhere },
  20: { title: 'edition', says: () => 'There are two editions of slots, 1 and 2.', points: nowhere },
  25: { title: 'begun', says: () => 'Some crossing of the plan is done, so it can no longer be shortened.', points: nowhere },
  26: { title: 'plan file', says: (v) => `The plan file breaks its layout at line ${v}.`, points: (v) => ({ line: v }) },
  27: { title: 'reports file', says: (v) => `The file of reports breaks its layout at line ${v}.`, points: (v) => ({ line: v }) },
};

/** Refusals with no value beside them. */
const BARE = new Set([1, 4, 11, 12, 17, 18, 19, 20, 25]);

/**
 * Whether a refusal carries a value.
 * @param {number} answer
 */
export function valued(answer) {
  return !BARE.has(answer);
}

/**
 * An answer as on the docket: `refused 3 6`.
 * @param {{ answer: number, value: number }} said @returns {string}
 */
export function docketOf({ answer, value }) {
  return BARE.has(answer) ? `refused ${answer}` : `refused ${answer} ${value}`;
}

/**
 * A refusal for a reader: its name, a sentence, and where it points.
 * @param {{ answer: number, value: number }} said @param {string} [asked] the function, where the module may lack it
 */
export function inWords(said, asked) {
  if (said.answer === MISSING) {
    const text = `The module in this page has no ${asked ?? 'such function'}. Build the page with a newer one.`;
    return { title: 'Not in this build', text, docket: '', points: {} };
  }
  const words = REFUSALS[said.answer];
  const docket = docketOf(said);
  if (!words) return { title: `answer ${said.answer}`, text: `The library answered ${said.answer} ${said.value}.`, docket, points: {} };
  return { title: words.title, text: words.says(grouped(said.value)), docket, points: words.points(said.value) };
}

/**
 * The answer to a report, in a word or two.
 * @param {{ answer: number, value: number }} said @returns {string}
 */
export function reportWord(said) {
  if (said.answer === ACCEPTED) return 'accepted';
  if (said.answer === ALREADY) return 'already';
  const title = REFUSALS[said.answer]?.title ?? '';
  return valued(said.answer) ? `${said.answer} ${title} ${said.value}` : `${said.answer} ${title}`;
}

/**
 * 65536 as 65,536.
 * @param {number} n @returns {string}
 */
export function grouped(n) {
  return String(n).replace(/\B(?=(\d{3})+$)/g, ',');
}

/**
 * One crossing, three crossings.
 * @param {number} n @param {string} one @param {string} [many]
 */
export function counted(n, one, many) {
  return `${grouped(n)} ${n === 1 ? one : many ?? `${one}s`}`;
}
