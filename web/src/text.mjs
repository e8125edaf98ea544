// Rosters as text: one line for each surveyor and each stand, as README.md shows it. The same form is read by rust/rostertext; a test holds the two
// together over all samples and random texts, whole and broken, with the lines and words of every problem (web/tests/texts.mjs).

export const MAX_NODES = 32;
export const MAX_QUOTA = 8;
export const MAX_QUOTA_SUM = 64;
export const MAX_LIST = 32;
export const MAX_SHIFT = 3;
const MAX_NUMBER = 2n ** 64n - 1n;

// the word for one node of a side, by the side's index: the surveyors are side 0, the stands side 1
export const WORDS = ['surveyor', 'stand'];

// what Unicode calls white space
const BLANK = /[\t-\r \u0085\u00a0\u1680\u2000-\u200a\u2028\u2029\u202f\u205f\u3000]+/u;

// What is wrong with a text, and the line that shows it, counted from 1.
export class Problem extends Error {
  constructor(line, what) {
    super(`line ${line}: ${what}`);
    Object.assign(this, { line, what });
  }
}

// what is wrong with a line, before it is known which one that is
class Wrong extends Error {}
const wrong = (what) => {
  throw new Wrong(what);
};

// The text of a file's bytes.
export function decode(bytes) {
  try {
    return new TextDecoder('utf-8', { fatal: true, ignoreBOM: true }).decode(bytes);
  } catch {
    throw new Unreadable('the input is no text');
  }
}

// what cannot be read as a text at all
export class Unreadable extends Error {}

// The roster of a text: its lines are judged one by one from the top, then the lists, then whether each pair stands in both lists.
export function parse(text) {
  const sides = split(text);
  for (const side of [0, 1]) for (const line of sides[side]) told(line, () => checkList(line, sides[1 - side].length));
  for (const side of [0, 1]) for (const line of sides[side]) told(line, () => checkAnswered(line, sides[1 - side]));
  const node = ({ quota, strict, tied }) => ({ quota, strict, tied: [...tied].sort((a, b) => a[0] - b[0] || a[1] - b[1]) });
  return { surveyors: sides[0].map(node), stands: sides[1].map(node) };
}

// does something with a line; what is wrong there becomes a problem
function told({ place }, work) {
  try {
    return work();
  } catch (error) {
    throw error instanceof Wrong ? new Problem(place, error.message) : error;
  }
}

function split(text) {
  const sides = [[], []];
  const sums = [0, 0];
  text.split('\n').forEach((written, index) => {
    const words = written.split('#')[0].replace(/[:[\]]/g, ' $& ').split(BLANK).filter(Boolean);
    if (words.length === 0) return;
    const place = index + 1;
    const line = told({ place }, () => readLine(words));
    told({ place }, () => checkNumber(line, sides, sums));
    sides[line.side].push({ place, ...line });
  });
  return sides;
}

function checkNumber({ side, number, quota }, sides, sums) {
  const word = WORDS[side];
  const next = sides[side].length + 1;
  if (number !== next) wrong(`${word} ${number} comes where ${word} ${next} is next`);
  if (next > MAX_NODES) wrong(`there are more than ${MAX_NODES} ${word}s`);
  sums[side] += quota;
  if (sums[side] > MAX_QUOTA_SUM) wrong(`with this one the ${word}s' quotas sum to more than ${MAX_QUOTA_SUM}`);
}

function readLine(given) {
  const words = [...given];
  const first = words.shift();
  const side = WORDS.indexOf(first);
  if (side < 0) wrong(`a line starts with 'surveyor' or 'stand', not with '${first}'`);
  const number = readNumber(words.shift(), "behind the line's first word");
  let quota = 1;
  if (words[0] === 'quota') {
    words.shift();
    quota = readQuota(words.shift());
  }
  const colon = words.shift();
  if (colon === undefined) wrong('a colon is missing before the list');
  if (colon !== ':') wrong(`'${colon}' stands where a quota or a colon belongs`);
  const strict = [];
  while (words.length > 0 && words[0] !== '[') strict.push(readEntry(words.shift()));
  return { side, number, quota, strict, tied: readTie(side, words) };
}

function readTie(side, words) {
  if (words.shift() === undefined) return [];
  if (side === 0) wrong("a surveyor's list has no tie");
  const tied = [];
  for (;;) {
    const word = words.shift();
    if (word === undefined) wrong("the tie's bracket is not closed");
    if (word === ']') break;
    tied.push(readEntry(word));
  }
  if (tied.length === 0) wrong('the tie is empty');
  if (words.length > 0) wrong(`'${words[0]}' stands behind the tie, which comes last`);
  return tied;
}

function readQuota(word) {
  const quota = readNumber(word, "behind 'quota'");
  return quota > MAX_QUOTA ? wrong(`quota ${quota} is above ${MAX_QUOTA}`) : quota;
}

// An entry: a number, and behind a stroke the shift.
export function readEntry(word) {
  const stroke = word.indexOf('/');
  const number = readNumber(stroke < 0 ? word : word.slice(0, stroke), 'in the list');
  if (stroke < 0) return [number, 1];
  const shift = readNumber(word.slice(stroke + 1), 'behind the stroke, for the shift');
  if (shift < 1 || shift > MAX_SHIFT) wrong(`shift ${shift} is listed, but the shifts are numbered from 1 to ${MAX_SHIFT}`);
  return [number, shift];
}

// A number in digits. More digits than 64 bits can hold are no number.
function readNumber(word, place) {
  if (word === undefined || word === '') wrong(`a number is missing ${place}`);
  if (!/^[0-9]+$/.test(word) || BigInt(word) > MAX_NUMBER) wrong(`'${word}' is no number, ${place}`);
  const number = BigInt(word);
  return number <= BigInt(Number.MAX_SAFE_INTEGER) ? Number(number) : number;
}

const inShift = (shift) => (shift === 1 ? '' : ` in shift ${shift}`);
const has = (list, [number, shift]) => list.some((entry) => entry[0] === number && entry[1] === shift);

function checkList({ side, strict, tied }, count) {
  const entries = [...strict, ...tied];
  const other = WORDS[1 - side];
  if (entries.length > MAX_LIST) wrong(`the list has ${entries.length} entries, more than ${MAX_LIST}`);
  entries.forEach(([number, shift], index) => {
    if (count === 0) wrong(`${other} ${number} is listed, but the text has no ${other}`);
    if (number < 1 || number > count) wrong(`${other} ${number} is listed, but the ${other}s are numbered from 1 to ${count}`);
    if (has(entries.slice(0, index), [number, shift])) wrong(`${other} ${number}${inShift(shift)} stands twice in the list`);
  });
}

function checkAnswered({ side, number: own, strict, tied }, others) {
  for (const [number, shift] of [...strict, ...tied]) {
    const back = others[number - 1];
    if (has([...back.strict, ...back.tied], [own, shift])) continue;
    const [word, other, when] = [WORDS[side], WORDS[1 - side], inShift(shift)];
    wrong(`${word} ${own} lists ${other} ${number}${when}, but ${other} ${number} does not list ${word} ${own}${when}`);
  }
}

// The text of a roster: its surveyors, then its stands, each with its quota.
export function print({ surveyors, stands }) {
  const line = (word) => ({ quota, strict, tied }, index) => {
    const list = [...strict.map(entryText), ...(tied.length > 0 ? [`[${tied.map(entryText).join(' ')}]`] : [])];
    return `${[`${word} ${index + 1} quota ${quota}:`, ...list].join(' ')}\n`;
  };
  return [...surveyors.map(line(WORDS[0])), ...stands.map(line(WORDS[1]))].join('');
}

// An entry as a person writes it: shift 1 is left out.
export const entryText = ([number, shift]) => (shift === 1 ? `${number}` : `${number}/${shift}`);
