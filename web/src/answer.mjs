// The answer: in a line at the top of every view, and whole in a view of its own: the plan, or the pairs left, or candidate and rival side by side with
// the vote and who faced whom.
import { holdFile } from './actions.mjs';
import { $, button, count, fill, make, row, table } from './dom.mjs';
import { facingTable } from './facing.mjs';
import { pairKey, writePlan } from './files.mjs';
import { hasShifts, page } from './state.mjs';
import { WORDS } from './text.mjs';
import { signed } from './words.mjs';

// Pairs as a table, a row for each node of a side; every pair stands there once. With another plan's pairs those that it lacks are marked.
export function pairsTable(pairs, side, others = pairs) {
  const known = new Set(others.map(pairKey));
  const numbers = [...new Set(pairs.map((pair) => pair[side]))].sort((a, b) => a - b);
  const text = (pair) => (hasShifts() ? `${pair[1 - side]}, shift ${pair[2]}` : `${pair[1 - side]}`);
  const cell = (pair) => make('span', { class: known.has(pairKey(pair)) ? 'chip' : 'chip apart' }, text(pair));
  const rows = numbers.map((number) => row(null, String(number), pairs.filter((pair) => pair[side] === number).map(cell)));
  return rows.length === 0 ? make('p', null, 'No pairs.') : table({ class: 'pairs' }, [WORDS[side], `${WORDS[1 - side]}s`], rows);
}

// the same pairs by surveyor, which is the list of that name, and by stand
export const bothTables = (pairs, name) =>
  make(
    'div',
    { class: 'two' },
    make('div', { 'data-list': name }, make('h3', null, 'By surveyor'), pairsTable(pairs, 0)),
    make('div', null, make('h3', null, 'By stand'), pairsTable(pairs, 1)),
  );

// ---- the line at the top

export function drawAnswer() {
  const { found } = page;
  const box = $('answer');
  box.hidden = found === null;
  if (found === null) return;
  const [head, words] = said();
  box.className = found.kind;
  box.dataset.kind = found.kind;
  $('key').dataset.kind = found.kind;
  fill($('said'), make('h2', null, head), make('p', null, words));
  $('title').textContent = page.title;
  document.title = `${page.title} – Crew vote`;
  $('tab-answer').textContent = found.kind === 'plan' ? 'The plan' : 'Why there is none';
}

function said() {
  const { kind, plan, left, vote, diary } = page.found;
  if (kind === 'plan') return ['There is a plan', `${count(plan.length, 'pair')}. It wins the vote against every other plan that the quotas allow.`];
  const none = 'No plan wins the vote against every other:';
  if (kind === 'left') {
    const are = `${count(left.length, 'pair')} ${left.length === 1 ? 'is' : 'are'} left`;
    const when = diary.length === 0 ? 'no rule acts at all' : `after ${count(diary.length, 'step')} no rule acts any more`;
    return ['There is no plan', `${none} ${when}, and ${are}.`];
  }
  const how = vote < 0 ? 'loses against a rival' : 'does not win against a rival';
  return ['There is no plan', `${none} the one candidate that the steps leave ${how}. Its vote is ${signed(vote)}.`];
}

// ---- the view

export const drawAnswerView = () => fill($('view-answer'), { plan: planPart, left: leftPart, rivalled: rivalledPart }[page.found.kind]());

function planPart() {
  const { plan } = page.found;
  const hold = button('Hold it at the desk', () => holdFile(writePlan(plan), 'The plan found'));
  return [make('h2', null, `The plan: ${count(plan.length, 'pair')}`), bothTables(plan, 'plan'), make('p', { class: 'noprint' }, hold)];
}

const LEFT =
  'No rule names one of these pairs, so the steps end here. Where pairs are left, no plan wins the vote against every other. The picture shows them.';

function leftPart() {
  const { left } = page.found;
  return [make('h2', null, `${count(left.length, 'pair')} left`), make('p', null, LEFT), bothTables(left, 'left')];
}

const FACED =
  'Each place of the candidate votes for the plan that serves it better. Of all fair ways to set the places against each other the worst for the ' +
  'candidate counts; this is such a way.';

function rivalledPart() {
  const { plan, rival } = page.found;
  const { first, second, forward } = page.desk.compare(writePlan(plan), writePlan(rival));
  const votes = `The candidate's vote against the rival is ${signed(first)}, the rival's vote against the candidate ${signed(second)}.`;
  const side = (name, head, pairs, others) => make('div', { 'data-list': name, class: name }, make('h3', null, head), pairsTable(pairs, 0, others));
  return [
    make('h2', null, 'Candidate and rival'),
    make('p', { 'data-votes': `${first} ${second}` }, votes),
    make('div', { class: 'two' }, side('candidate', 'Candidate', plan, rival), side('rival', 'Rival', rival, plan)),
    make('h3', null, 'Who faced whom'),
    make('p', { class: 'soft' }, FACED),
    facingTable(forward, 'candidate', 'rival'),
  ];
}
