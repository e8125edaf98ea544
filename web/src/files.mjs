// The bytes of rosters and plans, as docs/FORMATS.md lays them out: written for the planner, and read for the picture. Whether a file is taken, and the
// number of its refusal, is the proved planner's word alone; where this reader stops at the same number, it tells the place.
import { MAX_LIST, MAX_NODES, MAX_QUOTA, MAX_QUOTA_SUM, MAX_SHIFT, WORDS, entryText } from './text.mjs';

const MAX_ENTRIES = 1024;
const MAX_PAIRS = 64;

// Where a file breaks a rule: the refusal's number, the byte from 1, and words that tell what is there.
class Stop extends Error {
  constructor(number, at, words) {
    super(words);
    Object.assign(this, { number, byte: at + 1, words });
  }
}

// the fields of a file, from left to right
class Fields {
  constructor(bytes) {
    Object.assign(this, { bytes, at: 0 });
  }

  take(count, where) {
    if (this.at + count > this.bytes.length) throw new Stop(1, this.bytes.length, `the file ends where ${where} should be`);
    const taken = this.bytes.subarray(this.at, this.at + count);
    this.start = this.at;
    this.at += count;
    return taken;
  }

  stop(number, words) {
    throw new Stop(number, this.start, words);
  }

  end() {
    this.start = this.at;
    if (this.at < this.bytes.length) this.stop(9, `the file should have ended; ${this.bytes.length - this.at} more follow`);
  }
}

// What a file says, or where it stops.
function reading(bytes, read) {
  const fields = new Fields(bytes);
  try {
    const value = read(fields);
    return { value };
  } catch (error) {
    if (error instanceof Stop) return { stop: error };
    throw error;
  }
}

// ---- rosters

export const readRoster = (bytes) =>
  reading(bytes, (fields) => {
    const quotas = WORDS.map((word) => readQuotas(fields, word));
    const lists = [0, 1].map((side) => readSection(fields, side, quotas[side].length, quotas[1 - side].length));
    fields.end();
    const [surveyors, stands] = [0, 1].map((side) => quotas[side].map((quota, index) => ({ quota, ...lists[side][index] })));
    checkBoth(fields, [surveyors, stands]);
    return { surveyors, stands };
  });

function readQuotas(fields, word) {
  const [count] = fields.take(1, `the number of ${word}s`);
  if (count > MAX_NODES) fields.stop(2, `${count} ${word}s, where at most ${MAX_NODES} can be`);
  let sum = 0;
  return Array.from({ length: count }, (_, index) => {
    const [quota] = fields.take(1, `the quota of ${word} ${index + 1}`);
    sum += quota;
    if (quota > MAX_QUOTA) fields.stop(3, `${word} ${index + 1} has quota ${quota}, where at most ${MAX_QUOTA} can be`);
    if (sum > MAX_QUOTA_SUM) fields.stop(3, `with ${word} ${index + 1} the ${word}s' quotas are ${sum} together, where at most ${MAX_QUOTA_SUM} can be`);
    return quota;
  });
}

function readSection(fields, side, count, others) {
  const [low, high] = fields.take(2, `the number of entries in the ${WORDS[side]}s' lists`);
  const entries = low + 256 * high;
  const place = fields.start;
  if (entries > MAX_ENTRIES) fields.stop(2, `${entries} entries in the ${WORDS[side]}s' lists, where at most ${MAX_ENTRIES} can be`);
  const lists = Array.from({ length: count }, (_, index) => readList(fields, side, `${WORDS[side]} ${index + 1}`, others));
  const found = lists.reduce((sum, { strict, tied }) => sum + strict.length + tied.length, 0);
  if (found !== entries) throw new Stop(7, place, `the ${WORDS[side]}s' lists are said to have ${entries} entries, and have ${found}`);
  return lists;
}

function readList(fields, side, node, others) {
  const [strict] = fields.take(1, `the length of the list of ${node}`);
  const tied = side === 0 ? 0 : fields.take(1, `the length of the tie of ${node}`)[0];
  if (strict + tied > MAX_LIST) fields.stop(2, `the list of ${node} has ${strict + tied} entries, where at most ${MAX_LIST} can be`);
  const seen = [];
  const read = (last) => {
    const place = `entry ${seen.length + 1} in the list of ${node}`;
    const entry = Array.from(fields.take(2, place));
    const [number, shift] = entry;
    const other = WORDS[1 - side];
    if (number < 1 || number > others) fields.stop(4, `${place} is ${other} ${number}, but there are ${others} ${other}s`);
    if (shift < 1 || shift > MAX_SHIFT) fields.stop(18, `${place} is in shift ${shift}, but shifts are 1 to ${MAX_SHIFT}`);
    if (seen.some((before) => same(before, entry))) fields.stop(5, `${place} is ${other} ${entryText(entry)}, which stands there already`);
    if (last && (last[0] - number || last[1] - shift) > 0) fields.stop(6, `${place} is ${other} ${entryText(entry)}, behind ${entryText(last)} in the tie`);
    seen.push(entry);
    return entry;
  };
  const entries = (length, tie) => Array.from({ length }, (_, index) => read(tie && index > 0 ? seen.at(-1) : undefined));
  return { strict: entries(strict, false), tied: entries(tied, true) };
}

const same = (one, other) => one[0] === other[0] && one[1] === other[1];
export const listOf = ({ strict, tied }) => [...strict, ...tied];

// "A pair stands in both lists or in neither."
function checkBoth(fields, sides) {
  for (const side of [0, 1]) {
    sides[side].forEach((node, index) => {
      for (const [number, shift] of listOf(node)) {
        if (listOf(sides[1 - side][number - 1]).some((entry) => same(entry, [index + 1, shift]))) continue;
        const [word, other] = [WORDS[side], WORDS[1 - side]];
        const when = shift === 1 ? '' : ` in shift ${shift}`;
        fields.stop(8, `${word} ${index + 1} lists ${other} ${number}${when}, but ${other} ${number} does not list ${word} ${index + 1}${when}`);
      }
    });
  }
}

export function writeRoster({ surveyors, stands }) {
  const count = (nodes) => nodes.reduce((sum, node) => sum + listOf(node).length, 0);
  const section = (nodes, list) => [count(nodes) & 255, count(nodes) >> 8, ...nodes.flatMap(list)];
  const quotas = (nodes) => [nodes.length, ...nodes.map((node) => node.quota)];
  return Uint8Array.from([
    ...quotas(surveyors),
    ...quotas(stands),
    ...section(surveyors, ({ strict }) => [strict.length, ...strict.flat()]),
    ...section(stands, ({ strict, tied }) => [strict.length, tied.length, ...strict.flat(), ...tied.flat()]),
  ]);
}

// every pair of a roster, in the order of the surveyors' lists: surveyor, stand, shift
export const rosterPairs = ({ surveyors }) => surveyors.flatMap(({ strict }, index) => strict.map(([stand, shift]) => [index + 1, stand, shift]));

// ---- plans

export const byPair = (one, other) => one[0] - other[0] || one[1] - other[1] || one[2] - other[2];
export const pairKey = (pair) => pair.join(' ');

// a plan's file; more pairs than a byte counts are more than a plan has, and are refused as that
export const writePlan = (pairs) => Uint8Array.from([Math.min(pairs.length, 255), ...[...pairs].sort(byPair).flat()]);

export const readPlan = (bytes, roster) =>
  reading(bytes, (fields) => {
    const [count] = fields.take(1, 'the number of pairs');
    if (count > MAX_PAIRS) fields.stop(2, `${count} pairs, where at most ${MAX_PAIRS} can be`);
    const known = new Set(rosterPairs(roster).map(pairKey));
    const taken = [roster.surveyors.map(() => 0), roster.stands.map(() => 0)];
    const pairs = [];
    for (let index = 0; index < count; index++) {
      const pair = Array.from(fields.take(3, `pair ${index + 1}`));
      const named = `pair ${index + 1}, ${pairText(pair)},`;
      if (!known.has(pairKey(pair))) fields.stop(10, `${named} is not in the roster`);
      if (pairs.length > 0 && byPair(pairs.at(-1), pair) >= 0) fields.stop(11, `${named} does not come behind ${pairText(pairs.at(-1))}`);
      for (const [side, nodes] of [[0, roster.surveyors], [1, roster.stands]]) {
        const { quota } = nodes[pair[side] - 1];
        if ((taken[side][pair[side] - 1] += 1) > quota) fields.stop(12, `${named} gives ${WORDS[side]} ${pair[side]} more than its quota of ${quota}`);
      }
      pairs.push(pair);
    }
    fields.end();
    return pairs;
  });

// a pair in short: surveyor-stand, with the shift behind a stroke if it is not the first
export const pairText = ([surveyor, stand, shift]) => `${surveyor}-${entryText([stand, shift])}`;
