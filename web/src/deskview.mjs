// The desk: the held plan with its verdict and blocking pair, a plan made by tapping pairs, a proposal with both votes, and surveyors who join and leave.
import { commit, draftFile, heldPlan, holdFile, join, leave, note, proposal, proposeFile, setDraft, takeBack, toggleDraft } from './actions.mjs';
import { bothTables, pairsTable } from './answer.mjs';
import { $, button, count, fill, make } from './dom.mjs';
import { chooseFile, savePlan } from './export.mjs';
import { facingTable } from './facing.mjs';
import { pairKey, pairText, writePlan } from './files.mjs';
import { hasShifts, page } from './state.mjs';
import { entryText, readEntry } from './text.mjs';
import { pairWords, signed, VERDICTS, winnerWords } from './words.mjs';

const part = (id, head, ...inside) => make('section', { id, class: 'part' }, make('h2', null, head), inside);
const folded = (head, ...inside) => make('details', null, make('summary', null, head), inside);

export function drawDesk() {
  const held = heldPlan();
  fill($('desk-held'), heldPart(held));
  fill($('desk-draft'), draftPart(held));
  fill($('desk-proposal'), proposalPart(held));
  drawChanges();
}

// by which pairs one plan differs from another
function difference(before, after) {
  const missing = (pairs, others) => {
    const known = new Set(others.map(pairKey));
    return pairs.filter((pair) => !known.has(pairKey(pair))).map(pairText).join(', ') || 'nothing';
  };
  return `New: ${missing(after, before)}. Gone: ${missing(before, after)}.`;
}

// ---- the held plan

function heldPart(held) {
  const hold = holdFound(held);
  if (held === null) {
    const how = hold === null ? 'Make one below, or open a plan file.' : 'Hold the plan found, or make one below.';
    return part('held', 'Held plan', make('p', null, `No plan is held yet. ${how}`), make('p', { class: 'row' }, hold));
  }
  const { verdict, vote, rival, pairing } = page.desk.judge();
  const blocking = page.desk.blocking();
  const against = verdict === 'strong' ? '' : ` Against the rival its vote is ${signed(vote)}.`;
  return part(
    'held',
    `Held plan: ${count(held.length, 'pair')}`,
    make('p', { class: `verdict ${verdict}`, 'data-verdict': verdict }, VERDICTS[verdict], against),
    make('p', { 'data-blocking': blocking === null ? 'none' : pairKey(blocking) }, blockingWords(blocking)),
    bothTables(held, 'held'),
    make('p', { class: 'row' }, button('Save the plan', () => savePlan(page.desk.plan())), hold),
    verdict !== 'strong' &&
      folded('The rival, and who faced whom', make('div', { class: 'rival' }, pairsTable(rival, 0, held)), facingTable(pairing, 'held plan', 'rival')),
  );
}

function blockingWords(blocking) {
  if (blocking === null) return 'No pair blocks it.';
  return `A pair blocks it: ${pairWords(blocking, hasShifts())}. It is not in the plan, and each of the two has room or a worse pair in the plan.`;
}

// a button that holds what the finder found, where that is not held already
function holdFound(held) {
  const { kind, plan } = page.found;
  if (kind !== 'plan' || (held !== null && held.map(pairKey).join() === plan.map(pairKey).join())) return null;
  return button('Hold the plan found', () => holdFile(writePlan(plan), 'The plan found'), { id: 'hold-found', class: 'main' });
}

// ---- a plan made by tapping

const MADE = 'The plan made here';

function draftPart(held) {
  const { kind, plan, rival } = page.found;
  const sources = [
    kind === 'plan' && ['the plan found', plan],
    kind === 'rivalled' && ['the candidate', plan],
    kind === 'rivalled' && ['the rival', rival],
    held !== null && ['the held plan', held],
    ['nothing', []],
  ].filter(Boolean);
  const holds = () => holdFile(draftFile(), MADE);
  const proposes = () => proposeFile(draftFile(), MADE) && $('proposal').scrollIntoView({ block: 'nearest' });
  return part(
    'draft',
    'Make a plan',
    make('p', { class: 'soft' }, 'Tap stands to put pairs in or take them out. Best first in each list.'),
    make('p', { class: 'row' }, 'Start from: ', sources.map(([name, pairs]) => button(name, () => setDraft(pairs)))),
    page.roster.surveyors.map((node, index) => draftRow(node, index + 1)),
    make(
      'p',
      { class: 'row' },
      held === null
        ? button('Hold it', holds, { id: 'hold', class: 'main' })
        : [button('Propose it', proposes, { id: 'propose', class: 'main' }), button('Hold it without a vote', holds, { id: 'hold' })],
      button('Save it', () => savePlan(draftFile())),
      button('Open a plan file', () => chooseFile('plan'), { id: 'open-plan' }),
    ),
  );
}

function draftRow({ quota, strict }, surveyor) {
  const pairs = strict.map(([stand, shift]) => [surveyor, stand, shift]);
  const chosen = pairs.filter((pair) => page.draft.has(pairKey(pair))).length;
  const chip = (pair) => {
    const on = page.draft.has(pairKey(pair));
    const given = { class: 'chip', 'aria-pressed': String(on), 'data-draft': pairKey(pair), 'aria-label': pairWords(pair, hasShifts()) };
    return button(entryText(pair.slice(1)), () => toggleDraft(pairKey(pair)), given);
  };
  return make(
    'div',
    { class: 'draft', role: 'group', 'aria-label': `surveyor ${surveyor}` },
    make('span', { class: 'who' }, `surveyor ${surveyor}`),
    make('span', { class: chosen > quota ? 'much over' : 'much' }, `${chosen} of ${quota}`),
    make('span', { class: 'chips' }, pairs.map(chip)),
  );
}

// ---- the proposal

function proposalPart(held) {
  const pairs = held === null ? null : proposal();
  if (pairs === null) return part('proposal', 'Proposal', make('p', null, held === null ? 'A plan can be proposed once one is held.' : 'None is open.'));
  const { winner, first, second, forward, back } = page.desk.compare(writePlan(pairs), page.desk.plan());
  const votes = ` Its vote against the held plan is ${signed(first)}, the held plan's vote against it ${signed(second)}.`;
  const same = pairs.map(pairKey).join() === held.map(pairKey).join();
  return part(
    'proposal',
    `Proposal: ${count(pairs.length, 'pair')}`,
    make('p', { class: 'votes' }, make('strong', null, winnerWords(winner, 'The proposal', 'The held plan')), votes),
    make('p', null, same ? 'It is the held plan again.' : difference(held, pairs)),
    make('div', { 'data-list': 'proposal' }, pairsTable(pairs, 0, held)),
    make('p', { class: 'row' }, button('Hold the proposal', commit, { id: 'commit', class: 'main' })),
    folded('Who faced whom, for the proposal', facingTable(forward, 'proposal', 'held plan')),
    folded('Who faced whom, for the held plan', facingTable(back, 'held plan', 'proposal')),
  );
}

// ---- joining and leaving

export function startDesk() {
  $('join-form').addEventListener('submit', (event) => {
    event.preventDefault();
    const list = entries($('join-list').value);
    if (list !== null && join(Number($('join-quota').value), list)) $('join-list').value = '';
  });
  $('leave-form').addEventListener('submit', (event) => {
    event.preventDefault();
    leave(Number($('leave-number').value));
  });
}

// the joiner's stands as they are written, or null behind a notice
function entries(text) {
  try {
    const list = text.split(/[\s,]+/).filter(Boolean).map(readEntry);
    if (list.length <= 255 && list.every(([number]) => number <= 255)) return list;
    note('This joiner', 'a stand has a number from 1 to 32');
  } catch (error) {
    note('This joiner', error.message);
  }
  return null;
}

function drawChanges() {
  const { surveyors, stands } = page.roster;
  $('join-head').textContent = `Surveyor ${surveyors.length + 1} joins`;
  $('join-list').placeholder = stands.length > 1 ? '2 1' : '1';
  const options = surveyors.map((node, index) => {
    const gone = node.quota === 0 && node.strict.length === 0;
    return make('option', { value: index + 1 }, `surveyor ${index + 1}${gone ? ' (has left)' : ''}`);
  });
  const before = $('leave-number').value;
  fill($('leave-number'), options);
  if (before && Number(before) <= surveyors.length) $('leave-number').value = before;
  fill($('changed'), page.change === null ? [] : changed(page.change));
  fill($('told'), page.told.map((text) => make('li', null, text)));
}

// what a change of the roster changed in the answer and in the held plan
function changed({ what, before, after }) {
  const there = (kind, is, none) => (kind === 'plan' ? is : none);
  const lost = (before.held?.length ?? 0) - (after.held?.length ?? 0);
  const plans = before.kind === 'plan' && after.kind === 'plan';
  const turn = `Before, ${there(before.kind, 'there was a plan', 'there was none')}; now ${there(after.kind, 'there is a plan', 'there is none')}.`;
  return [
    make('h3', null, `What changed: ${what}`),
    make('p', null, turn, plans ? ` ${difference(before.plan, after.plan)}` : ''),
    lost > 0 && make('p', null, `The held plan lost ${count(lost, 'pair')}.`),
    before.proposal && !after.proposal && make('p', null, 'The proposal was closed.'),
    page.undo !== null && make('p', null, button('Take it back', takeBack, { id: 'take-back' })),
  ];
}
