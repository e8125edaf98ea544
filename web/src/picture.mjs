// The picture of a roster: surveyors on the left, stands on the right, each with its places and its list, and a line for each pair. It is built once a
// roster; what a step changes is painted by classes, which the style sheet turns into colours and strokes.
import { $, draw, fill } from './dom.mjs';
import { listOf, pairKey, rosterPairs } from './files.mjs';
import { hasShifts, nodesOf, page, tell } from './state.mjs';
import { WORDS } from './text.mjs';

const WIDTH = 860;
const COLUMNS = [290, 570]; // where the numbers of each side stand
const TOP = 34;
const DOT = 12;
const BEND = 100; // how far a line leads straight out of a number
const BOW = 15; // how far the lines of two shifts lie apart
const MOST_LABELS = 150; // more shifts than these are not written beside their lines

const LETTER = 9.4; // how wide a letter of a list is, about
const SUBSCRIPTS = ['', '₁', '₂', '₃'];

let built = null; // the roster that the picture shows
let lines = new Map(); // by pair, its line
let over = null; // what is drawn over the lines: shifts, and the rival's dashes on the candidate's lines
let nodes = [[], []]; // by side and number, its group and its dots

export function drawPicture() {
  if (built !== page.roster) build();
  paint();
}

// ---- built once

function build() {
  built = page.roster;
  const rows = Math.max(page.roster.surveyors.length, page.roster.stands.length, 1);
  const height = rows > 20 ? 34 : rows > 10 ? 44 : 56;
  const place = (side, index) => TOP + (rows * height * (index + 0.5)) / nodesOf(side).length;
  lines = new Map(rosterPairs(page.roster).map((pair) => [pairKey(pair), line(pair, place)]));
  over = draw('g', { class: 'over' });
  nodes = [0, 1].map((side) => nodesOf(side).map((node, index) => nodeGroup(side, index, node, place(side, index), height)));
  const heads = COLUMNS.map((x, side) => draw('text', { x, y: 18, class: 'head' }, `${WORDS[side]}s`));
  const picture = draw(
    'svg',
    {
      class: rows > 20 ? 'tall' : 'short',
      viewBox: `0 0 ${WIDTH} ${TOP + rows * height + 4}`,
      role: 'group',
      'aria-label': 'surveyors and stands; arrow keys move, Enter shows one alone',
    },
    heads,
    draw('g', { class: 'lines' }, [...lines.values()].map(({ path }) => path)),
    over,
    nodes.flat().map(({ group }) => group),
  );
  picture.addEventListener('keydown', onKey);
  picture.addEventListener('click', (event) => choose(event.target.closest('.node')));
  fill($('picture'), picture);
}

function line([surveyor, stand, shift], place) {
  const [a, b] = [place(0, surveyor - 1), place(1, stand - 1)];
  const bow = hasShifts() ? (shift - 2) * BOW : 0;
  const [from, to] = COLUMNS;
  const d = `M${from} ${a} C${from + BEND} ${a + bow} ${to - BEND} ${b + bow} ${to} ${b}`;
  const path = draw('path', { d, 'data-line': pairKey([surveyor, stand, shift]) });
  return { path, label: { x: (from + to) / 2 + (shift - 2) * 24, y: (a + b) / 2 + bow * 0.75 + 5, class: 'shift' } };
}

function nodeGroup(side, index, node, y, height) {
  const x = COLUMNS[side];
  const way = side === 0 ? -1 : 1;
  const dots = Array.from({ length: node.quota }, (_, place) => draw('circle', { cx: x + way * (28 + DOT * place), cy: y, r: 4.5 }));
  const from = 34 + DOT * node.quota;
  const text = node.quota === 0 && listed(node) === '' ? 'no places' : cut(listed(node), Math.floor((COLUMNS[0] - from) / LETTER));
  const group = draw(
    'g',
    {
      class: 'node',
      role: 'button',
      tabindex: -1,
      'aria-pressed': 'false',
      'aria-label': `${WORDS[side]} ${index + 1}, ${node.quota} places, list ${listed(node) || 'empty'}`,
      'data-node': `${side} ${index + 1}`,
    },
    draw('rect', { x: side === 0 ? 2 : x - 20, y: y - height / 2 + 1, width: COLUMNS[0] + 18, height: height - 2, rx: 8 }),
    draw('circle', { cx: x, cy: y, r: 16, class: 'number' }),
    draw('text', { x, y: y + 6, class: 'number' }, String(index + 1)),
    draw('g', { class: 'dots' }, dots),
    draw('text', { x: x + way * from, y: y + 6, class: side === 0 ? 'list left' : 'list' }, text),
  );
  return { group, dots };
}

// a node's list as the picture writes it: best first, what is tied in brackets
function listed({ strict, tied }) {
  const entry = ([number, shift]) => (hasShifts() ? `${number}${SUBSCRIPTS[shift]}` : `${number}`);
  const words = strict.map(entry);
  if (tied.length > 0) words.push(`[${tied.map(entry).join(' ')}]`);
  return words.join(' ');
}

const cut = (text, most) => (text.length <= most ? text : `${text.slice(0, text.lastIndexOf(' ', most - 2))} …`);

// ---- painted at each step

function paint() {
  const fates = fatesNow();
  const fixed = [nodesOf(0).map(() => 0), nodesOf(1).map(() => 0)];
  for (const [key, { path }] of lines) {
    const fate = fates.get(key) ?? 'open';
    const ends = key.split(' ').map(Number);
    const alone = page.chosen !== null && ends[page.chosen[0]] !== page.chosen[1];
    path.setAttribute('class', `pair ${fate}${alone ? ' hidden' : ''}`);
    if (/\bfixed\b/.test(fate)) for (const side of [0, 1]) fixed[side][ends[side] - 1] += 1;
  }
  nodes.forEach((side, index) =>
    side.forEach(({ group, dots }, number) => {
      const chosen = page.chosen !== null && page.chosen[0] === index && page.chosen[1] === number + 1;
      group.classList.toggle('chosen', chosen);
      group.setAttribute('aria-pressed', String(chosen));
      dots.forEach((dot, place) => dot.setAttribute('class', place < fixed[index][number] ? 'filled' : 'empty'));
    }),
  );
  const first = page.chosen === null ? nodes[0][0] ?? nodes[1][0] : nodes[page.chosen[0]][page.chosen[1] - 1];
  for (const { group } of nodes.flat()) group.setAttribute('tabindex', group === first?.group ? 0 : -1);
  $('picture').classList.toggle('alone', page.chosen !== null);
  paintOver();
}

// The lines that matter come last, over the others; the rival's dashes lie on those of the candidate's lines that it has too; and where there are several
// shifts, their numbers stand beside the lines that are not struck.
function paintOver() {
  const shown = [...lines].filter(([, { path }]) => !path.classList.contains('hidden'));
  const matter = shown.filter(([, { path }]) => /fixed|left|rival|now/.test(path.getAttribute('class')));
  $('picture').querySelector('.lines').append(...matter.map(([, { path }]) => path));
  const both = shown.filter(([, { path }]) => path.matches('.candidate.rival'));
  const labelled = hasShifts() ? shown.filter(([, { path }]) => !path.matches('.struck')) : [];
  fill(
    over,
    both.map(([, { path }]) => draw('path', { d: path.getAttribute('d'), class: 'both' })),
    labelled.length <= MOST_LABELS && labelled.map(([key, { label }]) => draw('text', label, key.split(' ')[2])),
  );
}

// What has become of each pair by the step that is shown, in the words of the style sheet.
export function fatesNow() {
  const { diary, kind, plan, rival, left } = page.found;
  const fates = new Map();
  diary.slice(0, page.step).forEach(({ fate, surveyor, stand, shift }) => fates.set(pairKey([surveyor, stand, shift]), fate === 'fix' ? 'fixed' : 'struck'));
  const last = diary[page.step - 1];
  if (page.step < diary.length) {
    if (last) now(fates, pairKey([last.surveyor, last.stand, last.shift]));
    return fates;
  }
  if (kind === 'left') left.forEach((pair) => fates.set(pairKey(pair), 'left'));
  if (kind !== 'rivalled') return fates;
  const theirs = new Set(rival.map(pairKey));
  plan.forEach((pair) => fates.set(pairKey(pair), theirs.has(pairKey(pair)) ? 'fixed candidate rival' : 'fixed candidate'));
  const own = new Set(plan.map(pairKey));
  rival.filter((pair) => !own.has(pairKey(pair))).forEach((pair) => fates.set(pairKey(pair), 'rival'));
  return fates;
}

const now = (fates, key) => fates.set(key, `${fates.get(key)} now`);

// ---- one number alone

function choose(group) {
  if (!group) return;
  const [side, number] = group.dataset.node.split(' ').map(Number);
  const again = page.chosen !== null && page.chosen[0] === side && page.chosen[1] === number;
  page.chosen = again ? null : [side, number];
  tell();
  if (!again) uncover(group);
}

// where the card lies over the picture, the number that was tapped stays in sight
function uncover(group) {
  const card = $('card');
  const hidden = group.getBoundingClientRect().bottom - card.getBoundingClientRect().top;
  if (getComputedStyle(card).position === 'fixed' && hidden > 0) window.scrollBy(0, hidden);
}

function onKey(event) {
  const group = event.target.closest('.node');
  if (!group) return;
  const [side, number] = group.dataset.node.split(' ').map(Number);
  if (event.key === 'Enter' || event.key === ' ') choose(group);
  else if (event.key === 'Escape') {
    page.chosen = null;
    tell();
  } else if (!move(event.key, side, number)) return;
  event.preventDefault();
  event.stopPropagation();
}

function move(key, side, number) {
  const way = { ArrowUp: [side, number - 1], ArrowDown: [side, number + 1], ArrowLeft: [0, number], ArrowRight: [1, number] }[key];
  if (way === undefined) return false;
  const column = nodes[way[0]];
  const next = column[Math.min(Math.max(way[1], 1), column.length) - 1];
  if (next) next.group.focus();
  return true;
}

// The pairs of the chosen number in the order of its list, with the other end's rank, what has become of each, and by which step.
export function chosenPairs() {
  const [side, number] = page.chosen;
  const node = nodesOf(side)[number - 1];
  const fates = fatesNow();
  return listOf(node).map(([other, shift], index) => {
    const pair = side === 0 ? [number, other, shift] : [other, number, shift];
    const tied = index >= node.strict.length;
    const rank = Math.min(index, node.strict.length) + 1;
    const back = rankOf(1 - side, other, [number, shift]);
    return { other, shift, tied, rank, back, fate: fates.get(pairKey(pair)) ?? 'open', step: stepOf(pair) };
  });
}

// the step by which a pair was settled, or 0 if it has not been shown yet
const stepOf = (pair) =>
  page.found.diary.slice(0, page.step).findIndex(({ surveyor, stand, shift }) => pairKey([surveyor, stand, shift]) === pairKey(pair)) + 1;

function rankOf(side, number, [other, shift]) {
  const { strict } = nodesOf(side)[number - 1];
  const index = strict.findIndex((entry) => entry[0] === other && entry[1] === shift);
  return index < 0 ? null : index + 1;
}
