// The day sheet: the held plan over as few days as can be, by surveyor and by stand, to look at, to print and to save.
import { heldPlan, holdFile } from './actions.mjs';
import { $, button, count, fill, make, row, table } from './dom.mjs';
import { saveText } from './export.mjs';
import { writePlan } from './files.mjs';
import { nodesOf, page } from './state.mjs';
import { entryText, WORDS } from './text.mjs';

const SIDES = [0, 1];

export function drawDays() {
  const held = heldPlan();
  if (held === null) {
    const { kind, plan } = page.found;
    const hold = kind === 'plan' && button('Hold the plan found', () => holdFile(writePlan(plan), 'The plan found', 'days'), { class: 'main' });
    const none = 'The sheet is that of the held plan, and none is held yet.';
    fill($('view-days'), make('h2', null, 'Day sheet'), make('p', null, none), make('p', { class: 'row' }, hold));
    return;
  }
  const days = page.desk.spread();
  const last = Math.max(0, ...days);
  fill(
    $('view-days'),
    make('h2', null, `Day sheet of ${page.title}: ${count(held.length, 'pair')} on ${count(last, 'day')}`),
    make('p', { class: 'soft' }, 'Nobody and no stand has two entries on one day, and no sheet of this plan has fewer days.'),
    make('p', { class: 'row noprint' }, button('Print the sheet', () => window.print(), { class: 'main' }), SIDES.map((side) => save(side, held, days, last))),
    make('div', { class: 'two' }, SIDES.map((side) => make('div', null, make('h3', null, `By ${WORDS[side]}`), sheet(side, held, days, last)))),
  );
}

const save = (side, held, days, last) =>
  button(`Save by ${WORDS[side]}`, () => saveText(sheetText(side, held, days, last), `${WORDS[side]}s.txt`));

// The cells of a sheet: for each node of a side, by day, the other end with its shift behind a stroke, or a dash. All nodes have a row.
function cells(side, held, days, last) {
  return nodesOf(side).map((_, index) =>
    Array.from({ length: last }, (_, day) => {
      const pair = held.find((pair, place) => pair[side] === index + 1 && days[place] === day + 1);
      return pair === undefined ? '-' : entryText([pair[1 - side], pair[2]]);
    }),
  );
}

const heads = (side, last) => [WORDS[side], ...Array.from({ length: last }, (_, day) => `day ${day + 1}`)];

function sheet(side, held, days, last) {
  const rows = cells(side, held, days, last).map((line, index) => row(null, String(index + 1), ...line.map((cell) => (cell === '-' ? '–' : cell))));
  return table({ class: 'days', 'data-sheet': `${WORDS[side]}s` }, heads(side, last), rows);
}

// the sheet as the command sheet of rust/planner prints it
export function sheetText(side, held, days, last) {
  const lines = [heads(side, last), ...cells(side, held, days, last).map((line, index) => [String(index + 1), ...line])];
  const width = (column) => Math.max(...lines.map((line) => line[column].length));
  const first = width(0);
  const others = Math.max(0, ...heads(side, last).slice(1).map((_, day) => width(day + 1)));
  const line = ([head, ...rest]) => [head.padStart(first), ...rest.map((cell) => cell.padStart(others))].join('  ');
  return lines.map((cells) => `${line(cells)}\n`).join('');
}
