// Who faced whom: for each surveyor and each stand the places of a plan, each against the place of the other plan that it was set against. The ranks are
// the planner's (docs/FORMATS.md, Pairings); this page names the entries that have them.
import { count, make, table, row } from './dom.mjs';
import { nodesOf, page } from './state.mjs';
import { WORDS } from './text.mjs';
import { ordinal, signed } from './words.mjs';

const EMPTY = 33;

// the pairings of a vote by node: side, number, and for each place the two ranks
export function pairingsOf(bytes) {
  let at = 0;
  const take = (side) => (node, index) => {
    const places = Array.from({ length: node.quota }, (_, place) => Array.from(bytes.subarray(at + 2 * place, at + 2 * place + 2)));
    at += 2 * node.quota;
    return { side, number: index + 1, places };
  };
  return [...page.roster.surveyors.map(take(0)), ...page.roster.stands.map(take(1))];
}

// which entry of a node's list has a rank
function rankText(side, number, rank) {
  if (rank === EMPTY) return 'empty';
  const { strict } = nodesOf(side)[number - 1];
  if (rank > strict.length) return `tied (${ordinal(rank)})`;
  const [other, shift] = strict[rank - 1];
  return `${WORDS[1 - side]} ${other}${shift > 1 ? `, shift ${shift}` : ''} (${ordinal(rank)})`;
}

const voteOf = ([own, other]) => Math.sign(other - own);
const MARKS = { 1: ['better', '▲ better'], 0: ['alike', '= alike'], '-1': ['worse', '▼ worse'] };

// A table of the pairings of a vote: who, each place against the one that it faced, and what the places come to. Nodes whose places are all alike have
// theirs folded away.
export function facingTable(bytes, own, other) {
  const told = pairingsOf(bytes);
  const moved = told.filter(({ places }) => places.some((place) => place[0] !== place[1]));
  const quiet = told.filter((pairing) => pairing.places.length > 0 && !moved.includes(pairing));
  const heads = ['who', `${own} against ${other}, place by place`, 'vote'];
  const ranks = ({ places }) => places.map((place) => place.join(' ')).join(', ');
  const marked = (pairing) => nodeRow(pairing, { 'data-facing': `${WORDS[pairing.side]} ${pairing.number}: ${ranks(pairing)}` });
  const alike = `${moved.length === 0 ? 'For everyone' : `For ${count(quiet.length, 'other')}`} both plans are alike`;
  const rest = () => make('details', { class: 'alike' }, make('summary', null, alike), table({ class: 'facing' }, heads, quiet.map((node) => nodeRow(node))));
  return [moved.length > 0 && table({ class: 'facing' }, heads, moved.map(marked)), quiet.length > 0 && rest()];
}

function nodeRow({ side, number, places }, given) {
  const sum = places.reduce((total, place) => total + voteOf(place), 0);
  return row(given, `${WORDS[side]} ${number}`, places.map((place) => faced(side, number, place)), signed(sum));
}

function faced(side, number, place) {
  const [name, mark] = MARKS[voteOf(place)];
  const [own, other] = place.map((rank) => make('span', null, rankText(side, number, rank)));
  return make('div', { class: `faced ${name}` }, own, make('span', { class: 'mark' }, mark), other);
}
