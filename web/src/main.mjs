// The page put together: the planner is opened, what was kept is taken up again, and every change is drawn and kept.
import { openRoster, openText } from './actions.mjs';
import { drawAnswer, drawAnswerView } from './answer.mjs';
import { open } from './crew.mjs';
import { drawDays } from './days.mjs';
import { drawDesk, startDesk } from './deskview.mjs';
import { $, button, fill, keepingFocus, make } from './dom.mjs';
import { saveRoster, saveRosterText, startFiles } from './export.mjs';
import { drawPicture } from './picture.mjs';
import { listen, page, tell } from './state.mjs';
import { drawSteps, startSteps } from './steps.mjs';
import { forget, keep, restore, toBytes } from './storage.mjs';

const VIEWS = ['roster', 'answer', 'desk', 'days', 'write'];
const samples = JSON.parse($('samples').textContent);

// ---- drawing

const DRAWN = {
  roster: () => {
    drawPicture();
    drawSteps();
  },
  answer: drawAnswerView,
  desk: drawDesk,
  days: drawDays,
  write: () => {
    if (document.activeElement !== $('text')) $('text').value = page.text;
  },
};

function drawAll() {
  drawNotice();
  drawAnswer();
  const there = page.found !== null;
  document.body.dataset.view = page.view;
  $('welcome').hidden = there || page.view === 'write';
  $('views').hidden = !there && page.view !== 'write';
  for (const view of VIEWS) {
    const on = view === page.view;
    $(`view-${view}`).hidden = !on;
    Object.assign($(`tab-${view}`), { disabled: !there && view !== 'write', tabIndex: on ? 0 : -1 });
    $(`tab-${view}`).setAttribute('aria-selected', String(on));
  }
  if (there || page.view === 'write') drawView();
  keep();
}

// The view that is looked at. When a roster has just been opened, the answer above it comes first.
function drawView() {
  const draw = () => keepingFocus(DRAWN[page.view], () => $(`view-${page.view}`));
  if (page.fresh) requestAnimationFrame(() => setTimeout(draw));
  else draw();
  page.fresh = false;
}

let drawn = null; // the notice that is on the page

// what was refused: in words, with its number and its place
function drawNotice() {
  const { notice } = page;
  $('notice').hidden = notice === null;
  if (notice === null || notice === drawn) return;
  drawn = notice;
  const { what, number, group, text, place, line } = notice;
  const where = line === undefined ? '' : `Line ${line}: `;
  fill(
    $('notice'),
    make('h2', null, `${what} was refused`),
    make('p', null, `${where}${text[0].toUpperCase()}${text.slice(1)}.`, number === undefined ? '' : ` Refusal ${number}, ${group}.`),
    place && make('p', null, `Place: ${place.words} (byte ${place.byte}).`),
    page.found !== null && make('p', null, 'What was open stays as it was.'),
    button('Close', () => {
      page.notice = null;
      tell();
    }),
  );
}

// ---- choosing

function startTabs() {
  for (const view of VIEWS) $(`tab-${view}`).addEventListener('click', () => look(view));
  $('tabs').addEventListener('keydown', (event) => {
    const way = { ArrowLeft: -1, ArrowRight: 1 }[event.key];
    if (way === undefined) return;
    const open = VIEWS.filter((view) => !$(`tab-${view}`).disabled);
    const next = open[(open.indexOf(page.view) + way + open.length) % open.length];
    look(next);
    $(`tab-${next}`).focus();
  });
}

function look(view) {
  Object.assign(page, { view, notice: null });
  tell();
}

function openSample(name) {
  const { text, bytes } = samples.find((sample) => sample.name === name);
  if (text === undefined) openRoster(toBytes(bytes), name);
  else openText(text, name);
}

function startSamples() {
  const groups = [...new Set(samples.map(({ group }) => group))];
  const option = ({ name }) => make('option', { value: name }, name.replaceAll('-', ' '));
  const options = groups.map((label) => make('optgroup', { label }, samples.filter(({ group }) => group === label).map(option)));
  for (const id of ['pick', 'pick-first']) {
    fill($(id), make('option', { value: '' }, 'Choose a sample'), options.map((option) => option.cloneNode(true)));
    $(id).addEventListener('change', () => {
      if ($(id).value) openSample($(id).value);
      $(id).value = '';
    });
  }
}

function startButtons() {
  $('open-first').addEventListener('click', () => $('open').click());
  $('write-first').addEventListener('click', () => look('write'));
  $('print').addEventListener('click', () => window.print());
  $('use').addEventListener('click', () => openText($('text').value, 'The roster written here'));
  $('text').addEventListener('input', () => {
    page.text = $('text').value;
    keep();
  });
  $('save-roster').addEventListener('click', saveRoster);
  $('save-text').addEventListener('click', saveRosterText);
  $('forget').addEventListener('click', () => {
    forget();
    location.reload();
  });
}

// ---- the start

async function start() {
  page.crew = await open(toBytes($('planner').textContent.trim()));
  startTabs();
  startSamples();
  startSteps();
  startDesk();
  startFiles();
  startButtons();
  restore();
  listen(drawAll);
  tell();
  document.documentElement.dataset.ready = 'yes';
}

start().catch((error) => {
  $('notice').hidden = false;
  fill($('notice'), make('h2', null, 'The planner could not start'), make('p', null, String(error)));
});
