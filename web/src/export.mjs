// Files in and out: the file chooser, files dropped on the page, and what is saved. Saving makes a file of bytes that the planner wrote, or a text.
import { holdFile, note, openFile } from './actions.mjs';
import { $ } from './dom.mjs';
import { page } from './state.mjs';
import { print } from './text.mjs';

// ---- in

const MOST_BYTES = 1 << 20; // a text may have long comments

let kind = 'roster'; // what the chooser was opened for

export function chooseFile(what) {
  kind = what;
  $('file').value = '';
  $('file').click();
}

export function startFiles() {
  $('open').addEventListener('click', () => chooseFile('roster'));
  $('file').addEventListener('change', () => take($('file').files[0], kind));
  document.addEventListener('dragover', (event) => event.preventDefault());
  document.addEventListener('drop', (event) => {
    event.preventDefault();
    take(event.dataTransfer.files[0], 'roster');
  });
}

// From the moment that the file is there to the answer, and to the view below it, two measures for the tests.
async function take(file, what) {
  if (!file) return;
  performance.mark('opened');
  const bytes = new Uint8Array(await file.slice(0, MOST_BYTES).arrayBuffer());
  if (file.size > MOST_BYTES) note(file.name, 'it is too long for a roster or a plan');
  else if (what === 'plan') holdFile(bytes, file.name);
  else openFile(bytes, file.name);
  performance.measure('answered', 'opened');
  requestAnimationFrame(() => setTimeout(() => performance.measure('drawn', 'opened')));
}

// ---- out

function save(parts, name, type) {
  const url = URL.createObjectURL(new Blob(parts, { type }));
  const link = document.createElement('a');
  Object.assign(link, { href: url, download: name });
  link.click();
  setTimeout(() => URL.revokeObjectURL(url), 1000);
}

// the roster's name without its ending, for the files that are saved
const stem = () => (page.title.replace(/\.(roster|txt|plan)$/, '').replace(/[^A-Za-z0-9-]+/g, '-').replace(/^-+|-+$/g, '') || 'roster').toLowerCase();

export const saveRoster = () => save([page.desk.roster()], `${stem()}.roster`, 'application/octet-stream');
export const saveRosterText = () => save([print(page.roster)], `${stem()}.txt`, 'text/plain');
export const savePlan = (bytes) => save([bytes], `${stem()}.plan`, 'application/octet-stream');
export const saveText = (text, ending) => save([text], `${stem()}.${ending}`, 'text/plain');
