// node places.mjs PLANNER SAMPLES: where a file is refused. The page tells the place where its own reader of bytes (web/src/files.mjs) stops; it must stop at
// the number that the proved planner gives, and nowhere else, on samples that are damaged byte by byte, rosters and plans. PLANNER has crew.wasm, crew.mjs.
import assert from 'node:assert';
import { readdirSync, readFileSync } from 'node:fs';
import { pathToFileURL } from 'node:url';
import { readPlan, readRoster } from '../src/files.mjs';

const [planner, samples] = process.argv.slice(2);
const { open, Refused } = await import(pathToFileURL(`${planner}/crew.mjs`));
const crew = await open(readFileSync(`${planner}/crew.wasm`));

// the number of the refusal that a call meets, 0 for none
function number(call) {
  try {
    call();
    return 0;
  } catch (error) {
    if (error instanceof Refused) return error.number;
    throw error;
  }
}

const met = new Map();
function compare(proved, { stop, value }, file) {
  assert.strictEqual(stop?.number ?? 0, proved, `bytes ${Array.from(file).join(' ')}`);
  assert((value === undefined) === (proved !== 0));
  if (stop) assert(stop.words.length > 10 && stop.byte >= 1 && stop.byte <= file.length + 1);
  met.set(proved, (met.get(proved) ?? 0) + 1);
}

// a file cut at each place, with one byte more, and with each byte changed in several ways
function* damaged(file) {
  yield file;
  yield Uint8Array.of(...file, 0);
  const step = Math.ceil(file.length / 60);
  for (let at = 0; at < file.length; at += step) {
    yield file.subarray(0, at);
    for (const byte of [0, 1, 2, 3, 4, 8, 9, 32, 33, 64, 65, 255, file[at] - 1, file[at] + 1, file[at + 1] ?? 7]) yield changed(file, at, byte);
    if (at + 4 <= file.length) yield swapped(file, at);
  }
}
const changed = (file, at, byte) => Uint8Array.from(file, (old, place) => (place === at ? byte & 255 : old));
const swapped = (file, at) => Uint8Array.of(...file.subarray(0, at), file[at + 2], file[at + 3], file[at], file[at + 1], ...file.subarray(at + 4));

const rosters = readdirSync(samples).filter((name) => name.endsWith('.roster'));
for (const name of rosters) {
  for (const file of damaged(new Uint8Array(readFileSync(`${samples}/${name}`)))) compare(crew.call('crew_read_roster', [file]).answer, readRoster(file), file);
}
for (const name of readdirSync(samples).filter((name) => name.endsWith('.plan'))) {
  const desk = crew.desk();
  const roster = readFileSync(`${samples}/${name.split('.')[0]}.roster`);
  desk.loadRoster(roster);
  const { value } = readRoster(new Uint8Array(roster));
  for (const file of damaged(new Uint8Array(readFileSync(`${samples}/${name}`)))) compare(number(() => desk.loadPlan(file)), readPlan(file, value), file);
}
console.log([...met].sort(([a], [b]) => a - b).map(([refusal, often]) => `${refusal}: ${often}`).join(', '));
for (const refusal of [0, 1, 2, 3, 4, 5, 6, 7, 8, 9, 10, 11, 12, 18]) assert(met.get(refusal) >= 3, `refusal ${refusal} is too rare`);
