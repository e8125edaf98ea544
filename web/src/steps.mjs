// The steps of the reduction one by one: a slider, keys, a list, and the rule of each in words; and beside them the pairs of a number that was tapped.
import { $, button, count, fill, make, table } from './dom.mjs';
import { chosenPairs } from './picture.mjs';
import { hasShifts, page, tell } from './state.mjs';
import { WORDS } from './text.mjs';
import { FATES, ordinal, pairWords, RULES, TERMS } from './words.mjs';

let listed = null; // the answer whose steps are in the list

export function startSteps() {
  $('slide').addEventListener('input', () => show(Number($('slide').value)));
  $('first').addEventListener('click', () => show(0));
  $('back').addEventListener('click', () => show(page.step - 1));
  $('on').addEventListener('click', () => show(page.step + 1));
  $('last').addEventListener('click', () => show(page.found.diary.length));
  $('diary').addEventListener('click', (event) => {
    const item = event.target.closest('li');
    if (item) show(Number(item.value));
  });
  $('diary').addEventListener('keydown', (event) => turn(event, { ArrowUp: -1, ArrowDown: 1 }));
  document.addEventListener('keydown', (event) => {
    if (page.view === 'roster' && page.found && !event.target.closest('input, select, textarea, [role=tablist]')) turn(event, { ArrowLeft: -1, ArrowRight: 1 });
  });
  fill($('terms'), TERMS.flatMap(([term, words]) => [make('dt', null, term), make('dd', null, words)]));
  fill($('rules'), RULES.slice(1).map((words) => make('li', null, words)));
}

function turn(event, ways) {
  const target = { Home: 0, End: page.found.diary.length }[event.key] ?? (event.key in ways ? page.step + ways[event.key] : null);
  if (target === null) return;
  event.preventDefault();
  show(target);
}

function show(step) {
  page.step = Math.min(Math.max(step, 0), page.found.diary.length);
  tell();
}

export function drawSteps() {
  const { diary } = page.found;
  if (listed !== page.found) list();
  Object.assign($('slide'), { max: diary.length, value: page.step, disabled: diary.length === 0 });
  $('slide').setAttribute('aria-valuetext', `step ${page.step} of ${diary.length}`);
  for (const id of ['first', 'back']) $(id).disabled = page.step === 0;
  for (const id of ['on', 'last']) $(id).disabled = page.step === diary.length;
  fill($('now'), now());
  mark();
  drawCard();
}

function list() {
  listed = page.found;
  const item = (step, index) => {
    const { fate, surveyor, stand, shift, rule } = step;
    const pair = `${surveyor} – ${stand}${hasShifts() ? ` / ${shift}` : ''}`;
    return make(
      'li',
      { value: index + 1, 'data-step': [fate, surveyor, stand, shift, rule].join(' ') },
      make('span', { class: 'place' }, String(index + 1)),
      make('span', { class: fate }, pair),
      make('span', { class: 'fate' }, FATES[fate]),
      make('span', { class: 'rule' }, `rule ${rule}`),
    );
  };
  fill($('diary'), page.found.diary.map(item));
  $('steps-head').textContent = `${count(page.found.diary.length, 'step')}`;
}

function mark() {
  const items = $('diary').children;
  for (let index = 0; index < items.length; index++) {
    const name = index + 1 === page.step ? 'on' : index + 1 > page.step ? 'later' : '';
    if (items[index].className !== name) items[index].className = name;
  }
  const item = items[page.step - 1];
  const box = $('diary');
  const seen = item && item.offsetTop >= box.scrollTop && item.offsetTop + item.offsetHeight <= box.scrollTop + box.clientHeight;
  if (!seen) box.scrollTop = item ? item.offsetTop - box.clientHeight / 2 : 0;
}

// the step that is shown, in words
function now() {
  const { diary } = page.found;
  if (diary.length === 0) return 'No rule names a pair: there are no steps.';
  if (page.step === 0) return `Before the first of ${count(diary.length, 'step')}: every pair is open.`;
  const { fate, surveyor, stand, shift, rule } = diary[page.step - 1];
  const pair = make('strong', { class: fate }, pairWords([surveyor, stand, shift], hasShifts()));
  return [`Step ${page.step} of ${diary.length}: `, pair, ` is ${FATES[fate]}. `, make('span', { class: 'why' }, `Rule ${rule}: ${RULES[rule]}`)];
}

// ---- the number that was tapped

const CARD = { fixed: 'fixed', struck: 'struck out', open: 'open', left: 'left', candidate: 'candidate', rival: 'rival', now: 'this step' };

function drawCard() {
  $('card').hidden = page.chosen === null;
  document.body.classList.toggle('sheet', page.chosen !== null);
  if (page.chosen === null) return;
  const [side, number] = page.chosen;
  const other = WORDS[1 - side];
  const rows = chosenPairs().map(({ rank, tied, other: end, shift, back, fate, step }) =>
    make(
      'tr',
      { class: fate },
      make('td', null, tied ? `${ordinal(rank)} (tied)` : ordinal(rank)),
      make('th', { scope: 'row' }, `${end}${hasShifts() ? `, shift ${shift}` : ''}`),
      make('td', null, back === null ? 'tied' : ordinal(back)),
      make('td', null, fate.replace('fixed candidate', 'candidate').split(' ').map((word) => CARD[word]).join(', ')),
      make('td', null, step > 0 && button(`step ${step}`, () => show(step), { class: 'small' })),
    ),
  );
  const all = button('Show all', () => {
    page.chosen = null;
    tell();
  });
  fill(
    $('card'),
    make('div', { class: 'cardhead' }, make('h2', null, `${WORDS[side]} ${number} alone`), all),
    rows.length > 0 ? table(null, ['rank', other, 'rank there', '', ''], rows) : make('p', null, 'Its list is empty.'),
  );
}
