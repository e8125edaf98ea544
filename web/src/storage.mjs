// What the page holds, kept in the browser's storage on this device, so that it is there again after a reload, also without a network. The desk is kept
// as its bytes: a desk is what its bytes are read to, so the planner judges them anew.
import { $ } from './dom.mjs';
import { readRoster } from './files.mjs';
import { page } from './state.mjs';

const KEY = 'crew';
const NAMES = ['title', 'view', 'step', 'chosen', 'told', 'text', 'change'];

const toText = (bytes) => (bytes === null ? null : btoa(Array.from(bytes, (byte) => String.fromCharCode(byte)).join('')));
export const toBytes = (text) => (text === null ? null : Uint8Array.from(atob(text), (letter) => letter.charCodeAt(0)));

// Keeps what is held; what became of that is said at the foot of the page.
export function keep() {
  const names = Object.fromEntries(NAMES.map((name) => [name, page[name]]));
  const kept = { ...names, draft: [...page.draft], undo: toText(page.undo), desk: toText(page.desk?.held ?? null) };
  try {
    localStorage.setItem(KEY, JSON.stringify(kept));
    say(true);
  } catch {
    say(false);
  }
}

// What was kept, taken up again; what cannot be read any more is forgotten.
export function restore() {
  try {
    const kept = JSON.parse(localStorage.getItem(KEY));
    if (kept === null) return;
    const names = Object.fromEntries(NAMES.map((name) => [name, kept[name]]));
    const held = kept.desk === null ? {} : taken(toBytes(kept.desk));
    Object.assign(page, names, held, { draft: new Set(kept.draft), undo: toBytes(kept.undo) });
  } catch {
    forget();
  }
}

// a desk of these bytes, with its roster and what the finder answers; refused where they hold no roster
function taken(bytes) {
  const desk = Object.assign(page.crew.desk(), { held: bytes });
  return { desk, found: desk.find(), roster: readRoster(desk.roster()).value };
}

export function forget() {
  try {
    localStorage.removeItem(KEY);
  } catch {
    // there is no storage, so nothing is kept in it
  }
}

function say(kept) {
  $('kept').textContent = kept
    ? 'Kept in this browser on this device: after a reload, or without a network, all of it is here again. Nothing is sent anywhere.'
    : 'This browser keeps nothing: save what you need before you close the page. Nothing is sent anywhere.';
}
