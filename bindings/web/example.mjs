// node example.mjs CREW.wasm ROSTER..: what the program crew prints for each roster.
import { readFileSync } from 'node:fs';
import { open, Refused } from './crew.mjs';

function told(crew, file) {
  const desk = crew.desk();
  try {
    desk.loadRoster(file);
  } catch (error) {
    if (error instanceof Refused) return [`refused ${error.number} ${error.group}`];
    throw error;
  }
  const found = desk.find();
  const lines = found.diary.map(({ fate, surveyor, stand, shift, rule }) => [fate, surveyor, stand, shift, rule].join(' '));
  const pairs = (name, list) => lines.push(`${name} ${list.length}`, ...list.map((pair) => pair.join(' ')));
  if (found.kind === 'plan') pairs('plan', found.plan);
  else if (found.kind === 'left') pairs('none left', found.left);
  else {
    lines.push(`none rivalled ${found.vote}`);
    pairs('candidate', found.plan);
    pairs('rival', found.rival);
  }
  return lines;
}

const [wasm, ...names] = process.argv.slice(2);
const crew = await open(readFileSync(wasm));
for (const name of names) console.log(told(crew, readFileSync(name)).join('\n'));
