// node stack.mjs FOLDER ROSTER: how deep a find, a join and a leaving on that roster go into the stack of crew.wasm, as c/stack.c tells it of other
// systems. The stack is at the front of the memory, goes down from its end, and is zero until it is used.
import { readFileSync } from 'node:fs';
import { pathToFileURL } from 'node:url';

const STACK = 1 << 20;
const [folder, roster] = process.argv.slice(2);
const { open } = await import(pathToFileURL(`${folder}/crew.mjs`));
const crew = await open(readFileSync(`${folder}/crew.wasm`));
const desk = crew.desk();
desk.loadRoster(readFileSync(roster));
desk.find();
desk.join(1, [[1, 1], [2, 1], [3, 1]]);
desk.leave(1);
const deepest = new Uint8Array(crew.exports.memory.buffer, 0, STACK).findIndex((byte) => byte !== 0);
console.log(STACK - deepest);
