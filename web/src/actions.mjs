// What a user can do. Each action makes proved calls, keeps what they answered, and tells the listeners. A refusal changes nothing but the notice.
import { Refused, planPairs } from './crew.mjs';
import { pairKey, pairText, readPlan, readRoster, rosterPairs, writePlan, writeRoster } from './files.mjs';
import { page, tell } from './state.mjs';
import { decode, parse, print, Problem, Unreadable } from './text.mjs';

// Does something that may be refused. The notice is what was refused, with its number, its group, its words and the place if it is known.
function attempt(what, act, place = () => null) {
  try {
    act();
    page.notice = null;
  } catch (error) {
    if (error instanceof Refused) page.notice = { what, number: error.number, group: error.group, text: error.text, place: place(error.number) };
    else if (error instanceof Problem) page.notice = { what, line: error.line, text: error.what };
    else if (error instanceof Unreadable) page.notice = { what, text: error.message };
    else throw error;
  }
  tell();
  return page.notice === null;
}

// where this page's own reader stops, if it stops at the refusal's number
const placeIn = ({ stop }, number) => (stop !== undefined && stop.number === number ? { byte: stop.byte, words: stop.words } : null);

const MOST_TOLD = 50;
const log = (text) => {
  page.told = [...page.told, text].slice(-MOST_TOLD);
};
const copy = () => Object.assign(page.crew.desk(), { held: page.desk.held.slice() });

// ---- rosters

export const openRoster = (bytes, title) => attempt(title, () => load(bytes, title), (number) => placeIn(readRoster(bytes), number));

// a text, or what gives one and may find that there is none
export const openText = (given, title) =>
  attempt(title, () => {
    const text = typeof given === 'function' ? given() : given;
    load(writeRoster(parse(text)), title, text);
  });

function load(bytes, title, text) {
  const desk = page.crew.desk();
  desk.loadRoster(bytes);
  Object.assign(page, { desk, title, fresh: true, told: [], change: null, undo: null, draft: new Set(), chosen: null });
  took(desk.find());
  page.text = text ?? print(page.roster);
  page.view = 'roster';
  log(`${title} was opened.`);
}

// A file by its name's ending: a plan, a text, a roster's bytes. Of other names a file is a text if it has a letter, and no byte that no text has; the
// bytes of a roster have some.
export function openFile(bytes, title) {
  if (/\.plan$/.test(title)) return holdFile(bytes, title);
  const looksWritten = bytes.some((byte) => byte >= 97 && byte <= 122) && bytes.every((byte) => byte >= 9);
  if (!/\.txt$/.test(title) && (/\.roster$/.test(title) || !looksWritten)) return openRoster(bytes, title);
  return openText(() => decode(bytes), title);
}

// what the finder answers, and the roster that it was asked of
function took(found) {
  page.found = found;
  page.roster = readRoster(page.desk.roster()).value;
  page.step = found.diary.length;
}

// ---- plans

// the plan that is being made
export const draftFile = () => writePlan([...page.draft].map((key) => key.split(' ').map(Number)));
const drafted = (pairs) => new Set(pairs.map(pairKey));

export function setDraft(pairs) {
  Object.assign(page, { notice: null, draft: drafted(pairs) });
  tell();
}

export function toggleDraft(key) {
  page.notice = null;
  if (!page.draft.delete(key)) page.draft.add(key);
  tell();
}

const planPlace = (bytes) => (number) => (page.roster === null ? null : placeIn(readPlan(bytes, page.roster), number));

// holds a plan, and goes to where it is seen
export const holdFile = (bytes, title, view = 'desk') =>
  attempt(title, () => {
    (page.desk ?? page.crew.desk()).loadPlan(bytes);
    Object.assign(page, { view, undo: null, draft: drafted(planPairs(bytes)) });
    log(`${title} is held.`);
  }, planPlace(bytes));

export const proposeFile = (bytes, title) =>
  attempt(title, () => {
    page.desk.propose(bytes);
    page.undo = null;
    log(`${title} is proposed.`);
  }, planPlace(bytes));

export const commit = () =>
  attempt('The proposal', () => {
    page.desk.commit();
    Object.assign(page, { undo: null, draft: drafted(heldPlan()) });
    log('The proposal is held.');
  });

// the held plan's pairs, or null
export function heldPlan() {
  try {
    return planPairs(page.desk.plan());
  } catch (error) {
    if (error instanceof Refused) return null;
    throw error;
  }
}

// The open proposal's pairs, or null: what a desk like this one would hold behind a commit.
export function proposal() {
  const desk = copy();
  try {
    desk.commit();
    return planPairs(desk.plan());
  } catch (error) {
    if (error instanceof Refused) return null;
    throw error;
  }
}

// ---- joining and leaving

export const join = (quota, stands) => change('This joiner', `surveyor ${page.roster.surveyors.length + 1} joins`, (desk) => desk.join(quota, stands));
export const leave = (number) => change('This leaving', `surveyor ${number} leaves`, (desk) => desk.leave(number));

const summary = () => ({ kind: page.found.kind, plan: page.found.plan, held: heldPlan(), proposal: proposal() });

function change(name, what, act) {
  return attempt(name, () => {
    const before = summary();
    const undo = page.desk.held;
    took(act(page.desk));
    const known = drafted(rosterPairs(page.roster));
    const draft = new Set([...page.draft].filter((key) => known.has(key)));
    Object.assign(page, { undo, draft, chosen: null, text: print(page.roster), change: { what, before, after: summary() } });
    log(`${what[0].toUpperCase()}${what.slice(1)}: ${shortly(page.found)}.`);
  });
}

function shortly({ kind, plan, left, vote }) {
  if (kind === 'plan') return `the plan is ${plan.map(pairText).join(' ') || 'empty'}`;
  return kind === 'left' ? `no plan, ${left.length} pairs are left` : `no plan, the candidate's vote is ${vote}`;
}

// takes the last change back: the desk is again the one that went into it
export function takeBack() {
  page.desk.held = page.undo;
  took(page.desk.find());
  log(`Taken back: ${page.change.what}.`);
  Object.assign(page, { undo: null, change: null, chosen: null, notice: null, text: print(page.roster) });
  tell();
}

// says that something could not be read
export const note = (what, text) =>
  attempt(what, () => {
    throw new Unreadable(text);
  });
