// node texts.mjs TEXTS SAMPLES: the page's reader of text rosters (web/src/text.mjs) against rust/rostertext. TEXTS has what the example texts of that
// crate tells of random texts, whole and broken: the same bytes, the same text back, the same problem in the same line. And all samples.
import assert from 'node:assert';
import { readdirSync, readFileSync } from 'node:fs';
import { readRoster, writeRoster } from '../src/files.mjs';
import { decode, parse, print } from '../src/text.mjs';

const parseFile = (input) => parse(decode(input));

// what the page's reader tells of a text, in the form of the example
function told(input) {
  try {
    const roster = parseFile(input);
    const bytes = writeRoster(roster);
    return `${Buffer.from(bytes).toString('hex')}\t${Buffer.from(print(readRoster(bytes).value)).toString('hex')}`;
  } catch (error) {
    return error.message;
  }
}

const [texts, samples] = process.argv.slice(2);
const kinds = new Map();
let whole = 0;
for (const line of readFileSync(texts, 'utf8').split('\n').filter(Boolean)) {
  const at = line.indexOf('\t');
  const [input, expected] = [Buffer.from(line.slice(0, at), 'hex'), line.slice(at + 1)];
  assert.strictEqual(told(input), expected, JSON.stringify(input.toString()));
  if (expected.includes('\t')) whole += 1;
  else {
    const kind = expected.replace(/'[^']*'/g, 'X').replace(/\d+/g, 'N');
    kinds.set(kind, (kinds.get(kind) ?? 0) + 1);
  }
}
for (const [kind, often] of [...kinds].sort()) console.log(often, kind);
console.log(`${whole} texts are whole`);
// a test of which nothing comes is none: every kind of problem, and many whole texts
assert(kinds.size >= 30, `${kinds.size} kinds of problems`);
assert(whole > 1000);

const names = readdirSync(samples).filter((name) => name.endsWith('.txt'));
for (const name of names) {
  const bytes = readFileSync(`${samples}/${name.replace('.txt', '.roster')}`);
  assert.deepStrictEqual(writeRoster(parseFile(readFileSync(`${samples}/${name}`))), new Uint8Array(bytes), name);
}
assert(names.length > 15);
