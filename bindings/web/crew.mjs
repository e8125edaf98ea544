// The proved calls of the crew planner in a page or in node.
//
//   import { open } from './crew.mjs';
//   const crew = await open(fetch('crew.wasm'));      // or the bytes of crew.wasm
//   const desk = crew.desk();
//   desk.loadRoster(bytes);
//   desk.find().plan                                  // [[1, 1, 1]]: surveyor, stand, shift
//
// A call that refuses throws Refused, with the number that crew.h names. Every call of crew.h can be made by its name (Crew.call); what it takes and
// answers is in described.mjs, which is made of the header. crew.wasm imports nothing. In it pointers have 32 bits and lengths 64.
import { described } from './described.mjs';

const GROUPS = ['', 'form', 'content', 'plan', 'desk'];
const KINDS = ['', 'plan', 'left', 'rivalled'];
const FATES = ['', 'fix', 'strike'];
const VERDICTS = ['', 'strong', 'popular', 'beaten'];
const WINNERS = ['neither', 'first', 'second', 'both'];
const PAGE = 65536;

export class Refused extends Error {
  constructor(number, group) {
    const text = described.refusals[number] ?? 'refused';
    super(`${number} ${group}: ${text}`);
    Object.assign(this, { number, group, text });
  }
}

// crew.wasm as bytes, or as a response or the promise of one
export async function open(source) {
  const given = await source;
  const bytes = typeof given.arrayBuffer === 'function' ? await given.arrayBuffer() : given;
  const { instance } = await WebAssembly.instantiate(bytes, {});
  return new Crew(instance.exports);
}

const split = (bytes, width, count) => Array.from({ length: count }, (_, i) => Array.from(bytes.subarray(width * i, width * (i + 1))));

// the pairs of a plan file, behind its count; none of no bytes
export const planPairs = (file) => split(file.subarray(1), 3, Math.floor(file.length / 3));

export class Crew {
  constructor(exports) {
    this.exports = exports;
    this.constants = described.constants;
    // behind the stack and the data of the module; nothing stays here from one call to the next
    this.base = (exports.__heap_base.value + 15) & ~15;
  }

  desk() {
    return new Desk(this);
  }

  // Room for so many bytes, which stands until the next call is made.
  room(size) {
    const at = this.top;
    this.top = (at + Math.max(size, 1) + 15) & ~15;
    const more = this.top - this.exports.memory.buffer.byteLength;
    if (more > 0) this.exports.memory.grow(Math.ceil(more / PAGE));
    return at;
  }

  bytes(at, size) {
    return new Uint8Array(this.exports.memory.buffer, at, size);
  }

  put(bytes) {
    const at = this.room(bytes.length);
    this.bytes(at, bytes.length).set(bytes);
    return at;
  }

  // Makes a call. `given` are its numbers and slices in the header's order, without lengths: each slice a Uint8Array, which is filled where the call
  // writes. Gives the answer's numbers by their names, and the desk that it hands back.
  call(name, given, desk) {
    const { answer, bytes, parameters, numbers } = described.calls[name];
    this.top = this.base;
    const words = [], written = [], rest = [...given];
    const place = answer === 'struct' ? this.room(bytes) : 0;
    if (answer === 'struct') words.push(place);
    for (const parameter of parameters) {
      if (parameter.is === 'desk') words.push(this.put(desk));
      else if (parameter.is === 'number') words.push(rest.shift());
      else {
        const slice = rest.shift();
        const at = this.put(slice);
        words.push(at, BigInt(Math.floor(slice.length / parameter.size)));
        if (parameter.is === 'written') written.push([slice, at]);
      }
    }
    const value = this.exports[name](...words);
    for (const [slice, at] of written) slice.set(this.bytes(at, slice.length));
    if (answer !== 'struct') return { answer: value };
    const view = new DataView(this.exports.memory.buffer, place, bytes);
    const read = { u8: (at) => view.getUint8(at), i16: (at) => view.getInt16(at, true), size: (at) => Number(view.getBigUint64(at, true)) };
    const told = Object.fromEntries(numbers.map((number) => [number.name, read[number.is](number.at)]));
    const handsBack = desk !== undefined || name === 'crew_open';
    return handsBack ? { ...told, desk: this.bytes(place, described.desk).slice() } : told;
  }

  check(number) {
    if (number) throw new Refused(number, GROUPS[this.call('crew_group', [number]).answer]);
  }
}

// A roster and a plan, held from one call to the next.
export class Desk {
  constructor(crew) {
    this.crew = crew;
    this.held = crew.call('crew_open', []).desk;
  }

  // A call on the desk: its numbers by their names. A refusal is thrown, and changes nothing.
  call(name, ...given) {
    const { desk, ...told } = this.crew.call(name, given, this.held);
    this.held = desk;
    this.crew.check(told.refusal ?? 0);
    return told;
  }

  loadRoster(file) {
    this.call('crew_load_roster', file);
  }

  loadPlan(file) {
    this.call('crew_load_plan', file);
  }

  find() {
    return this.found('crew_find');
  }

  // A surveyor joins, with pairs of stand and shift, best first.
  join(quota, stands) {
    return this.found('crew_join', quota, Uint8Array.of(stands.length, ...stands.flat()));
  }

  leave(number) {
    return this.found('crew_leave', number);
  }

  // A plan beside the held one: both votes, and the pairings of each.
  propose(file) {
    const forward = this.buffer('CREW_PAIRING_BYTES'), back = this.buffer('CREW_PAIRING_BYTES');
    const { proposal_vote, held_vote } = this.call('crew_propose', file, forward, back);
    return { proposal: proposal_vote, held: held_vote, forward, back };
  }

  commit() {
    this.call('crew_commit');
  }

  // Two plan files: both votes, the winner, and the pairings of each vote.
  compare(one, other) {
    const forward = this.buffer('CREW_PAIRING_BYTES'), back = this.buffer('CREW_PAIRING_BYTES');
    const { winner, first_vote, second_vote } = this.call('crew_compare', one, other, forward, back);
    return { winner: WINNERS[winner], first: first_vote, second: second_vote, forward, back };
  }

  // The verdict on the held plan; for one that is not strong a rival, the vote against it, and the pairings of that vote.
  judge() {
    const rival = this.buffer('CREW_PLAN_BYTES'), pairing = this.buffer('CREW_PAIRING_BYTES');
    const { verdict, vote, rival_length } = this.call('crew_judge', rival, pairing);
    return { verdict: VERDICTS[verdict], vote, rival: planPairs(rival.subarray(0, rival_length)), pairing };
  }

  // The first blocking pair of the held plan, or null.
  blocking() {
    const { surveyor, stand, shift } = this.call('crew_blocking');
    return surveyor === 0 ? null : [surveyor, stand, shift];
  }

  // The held plan's days, one for each pair in its order.
  spread() {
    const days = this.buffer('CREW_DAY_BYTES');
    const { length } = this.call('crew_spread', days);
    return Array.from(days.subarray(0, length));
  }

  // The held roster's file, the held plan's file.
  roster() {
    return this.written('crew_write_roster', 'CREW_ROSTER_BYTES');
  }

  plan() {
    return this.written('crew_write_plan', 'CREW_PLAN_BYTES');
  }

  written(name, size) {
    const out = this.buffer(size);
    return out.slice(0, this.call(name, out).length);
  }

  buffer(size) {
    return new Uint8Array(this.crew.constants[size]);
  }

  found(name, ...given) {
    const size = this.crew.constants;
    const diary = new Uint8Array(5 * size.CREW_DIARY_RECORDS), left = new Uint8Array(size.CREW_LEFT_BYTES);
    const plan = new Uint8Array(size.CREW_PLAN_BYTES), rival = new Uint8Array(size.CREW_PLAN_BYTES);
    const told = this.call(name, ...given, diary, left, plan, rival);
    const kind = KINDS[told.kind];
    return {
      kind,
      vote: told.vote,
      diary: split(diary, 5, told.steps).map(([fate, surveyor, stand, shift, rule]) => ({ fate: FATES[fate], surveyor, stand, shift, rule })),
      left: split(left, 3, told.left),
      plan: planPairs(plan.subarray(0, told.plan_length)),
      rival: planPairs(rival.subarray(0, told.rival_length)),
    };
  }
}
