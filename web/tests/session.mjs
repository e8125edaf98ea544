// The page driven through the session of rust/planner/examples/session.txt, as a user would: files opened, stands tapped, buttons pressed, fields filled.
// What it then shows must be what the example told (session.out).
import { answer, desk, refused } from './seen.mjs';

// the draft made what a line says
async function draft(tab, pairs) {
  await tab.click('#tab-desk');
  const start = { found: 'the plan found', rival: 'the rival' }[pairs[0]];
  if (start) return tab.ask(startFrom, pairs[0] === 'found' ? ['the plan found', 'the candidate'] : [start]);
  await tab.ask(startFrom, ['nothing']);
  for (const pair of pairs) {
    const [surveyor, behind] = pair.split('-');
    const [stand, shift] = behind.split('/');
    await tab.click(`[data-draft="${surveyor} ${stand} ${shift ?? 1}"]`);
  }
}

const startFrom = (names) => {
  const found = [...document.querySelectorAll('#draft button')].find((button) => names.includes(button.innerText));
  if (!found) throw new Error(`there is no ${names}`);
  found.click();
};

// one line of the session; true if the finder's answer is another
async function enter(tab, [word, ...rest], samples) {
  if (word === 'open') await tab.give(`${samples}/${rest[0]}.roster`);
  if (word === 'hold' || word === 'propose') {
    await draft(tab, rest);
    await tab.click(`#${word}`);
  }
  if (word === 'commit') await tab.click('#tab-desk').then(() => tab.click('#commit'));
  if (word === 'join') {
    await tab.click('#tab-desk');
    await tab.write('#join-quota', rest[0]);
    await tab.write('#join-list', rest.slice(1).join(' '));
    await tab.click('#join');
  }
  if (word === 'leave') {
    await tab.click('#tab-desk');
    await tab.choose('#leave-number', rest[0]);
    await tab.click('#leave');
  }
  return ['open', 'join', 'leave'].includes(word);
}

// what the page shows of the whole session
export async function run(tab, session, samples) {
  const lines = [];
  for (const line of session.split('\n').filter((line) => line !== '' && !line.startsWith('#'))) {
    lines.push(`> ${line}`);
    const another = await enter(tab, line.split(' '), samples);
    const told = await tab.ask(refused);
    if (told !== null) lines.push(told);
    else if (another) lines.push(...(await answer(tab)));
    lines.push(...(await desk(tab)));
  }
  return `${lines.join('\n')}\n`;
}
