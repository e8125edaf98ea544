// node shots.mjs PAGE SAMPLES FOLDER: pictures of the page, to be looked at by hand: the three of README.md, every view of some samples in the sizes of a
// tablet and of a desk, and every view on paper.
import { mkdirSync } from 'node:fs';
import { Browser } from './browser.mjs';

const [page, samples, folder] = process.argv.slice(2);
const VIEWS = ['roster', 'answer', 'desk', 'days', 'write'];
mkdirSync(folder, { recursive: true });
const browser = new Browser(process.env.CHROMIUM ?? 'chromium');
const tab = await browser.open(`file://${page}`, 800, 1200);
const top = () => tab.ask('scrollTo(0, 0)');

// ---- for README.md: the plan of a district by its steps, why there is none, and a proposal at the desk
await tab.size(800, 1130);
await tab.give(`${samples}/district.roster`);
await tab.shot(`${folder}/page-steps.png`);
await tab.click('#tab-desk');
await tab.click('#hold-found');
for (const pair of ['4 9 1', '12 4 1', '9 4 1', '12 13 1']) await tab.click(`[data-draft="${pair}"]`);
await tab.click('#propose');
await tab.ask("document.querySelector('#proposal details').open = true");
await tab.ask("document.querySelector('#draft').scrollIntoView()");
await tab.size(800, 1180);
await tab.shot(`${folder}/page-desk.png`);
await tab.ask("document.querySelector('#leave-number').value = 9; document.querySelector('#leave').click()");
await tab.click('#tab-answer');
await top();
await tab.size(800, 1280);
await tab.shot(`${folder}/page-why.png`);

// ---- all views
for (const [width, height] of [[800, 1200], [1200, 800], [1440, 900]]) {
  await tab.size(width, height);
  for (const name of ['district', 'beaten', 'crossed', 'walked', 'longest']) {
    await tab.give(`${samples}/${name}.roster`);
    for (const view of VIEWS) {
      await tab.click(`#tab-${view}`);
      if (view === 'desk' && (await tab.ask("document.querySelector('#hold-found') !== null"))) await tab.click('#hold-found');
      await top();
      await tab.shot(`${folder}/${name}-${view}-${width}.png`);
      if (width === 800) await tab.pdf(`${folder}/${name}-${view}.pdf`);
    }
    await tab.click('#tab-roster');
  }
}
await tab.give(`${samples}/cut-short.roster`);
await tab.shot(`${folder}/refused.png`);
await browser.close();
