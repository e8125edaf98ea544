// node desk.mjs FOLDER DESK.c: the program of c/desk.c over crew.wasm, for the tests of rust/planner/tests/header.rs. FOLDER has crew.mjs, described.mjs
// and crew.wasm. The letters of the calls are read from desk.c; what each takes and answers is described. So the calls of both are the same.
import { readFileSync, readSync, writeSync } from 'node:fs';
import { pathToFileURL } from 'node:url';

const [folder, source] = process.argv.slice(2);
const load = (name) => import(pathToFileURL(`${folder}/${name}`));
const { open } = await load('crew.mjs');
const { described } = await load('described.mjs');
const crew = await open(readFileSync(`${folder}/crew.wasm`));

const letters = new Map();
for (const [, letter, name] of readFileSync(source, 'utf8').matchAll(/case '(.)': (?:desk = )?(?:crew_)?(\w+)\(/g)) letters.set(letter, name);

// ---- the pipe
const PIPE = 1 << 16;
let waiting = Buffer.alloc(0);
function take(length) {
  while (waiting.length < length) {
    const more = Buffer.alloc(PIPE);
    const read = again(() => readSync(0, more));
    if (read === 0) process.exit(0);
    waiting = Buffer.concat([waiting, more.subarray(0, read)]);
  }
  const taken = waiting.subarray(0, length);
  waiting = waiting.subarray(length);
  return taken;
}

// a pipe that has nothing, or no room, is asked again
function again(ask) {
  for (;;) {
    try {
      return ask();
    } catch (error) {
      if (error.code === 'EOF') return 0;
      if (error.code !== 'EAGAIN') throw error;
    }
  }
}

function give(parts) {
  const bytes = Buffer.concat(parts);
  for (let at = 0; at < bytes.length; ) at += again(() => writeSync(1, bytes, at));
}

const number = (value) => {
  const bytes = Buffer.alloc(8);
  bytes.writeBigInt64LE(BigInt(value));
  return bytes;
};
const lent = () => new Uint8Array(take(take(4).readUInt32LE(0)));

// ---- the calls
let desk = crew.call('crew_open', []).desk;

// the desk's arrays, each with its length before it
function files() {
  const size = described.constants;
  const lengths = new DataView(desk.buffer, desk.byteOffset);
  let at = 0;
  return [size.CREW_ROSTER_BYTES, size.CREW_PLAN_BYTES, size.CREW_PLAN_BYTES].flatMap((room) => {
    const length = Math.min(Number(lengths.getBigUint64(at, true)), room);
    const bytes = Buffer.from(desk.subarray(at + 8, at + 8 + length));
    at = (at + 8 + room + 7) & ~7;
    return [number(length), bytes];
  });
}

function layout() {
  const size = described.constants;
  const plan = (8 + size.CREW_ROSTER_BYTES + 7) & ~7;
  const proposal = (plan + 8 + size.CREW_PLAN_BYTES + 7) & ~7;
  return [described.desk, 0, 8, plan, plan + 8, proposal, proposal + 8].map(number);
}

function called(name) {
  const { parameters, numbers } = described.calls[name];
  const given = [], written = [];
  for (const parameter of parameters) {
    if (parameter.is === 'number') given.push(take(1)[0]);
    if (parameter.is !== 'read' && parameter.is !== 'written') continue;
    given.push(lent());
    if (parameter.is === 'written') written.push(given.at(-1));
  }
  const onDesk = parameters.some((parameter) => parameter.is === 'desk');
  const told = crew.call(name, given, onDesk ? desk : undefined);
  desk = told.desk ?? desk;
  return [...numbers.filter((field) => field.name in told).map((field) => number(told[field.name])), ...written.map((bytes) => Buffer.from(bytes))];
}

for (;;) {
  const name = letters.get(String.fromCharCode(take(1)[0]));
  if (name === undefined) process.exit(2);
  if (name === 'open') desk = crew.call('crew_open', []).desk;
  else if (name === 'files') give(files());
  else if (name === 'layout') give(layout());
  else give(called(`crew_${name}`));
}
